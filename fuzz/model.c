#include "model.h"

#include <stdlib.h>
#include <string.h>

#include "entries.h"

#define PIXELS_MOST 400000000ull
static const uint8_t end_marker[8] = {0, 0, 0, 0, 0, 0, 0, 1};
static const struct pixel start = {0, 0, 0, 255};
static const struct pixel blank = {0, 0, 0, 0};

static int same(struct pixel p, struct pixel q) { return p.r == q.r && p.g == q.g && p.b == q.b && p.a == q.a; }
int model_place(struct pixel p) { return (p.r * 3 + p.g * 5 + p.b * 7 + p.a * 11) % 64; }
size_t pixel_count(struct header header) { return (size_t)header.width * header.height; }

/* Headers */

static uint32_t number(const uint8_t *bytes) {
    return (uint32_t)bytes[0] << 24 | (uint32_t)bytes[1] << 16 | (uint32_t)bytes[2] << 8 | bytes[3];
}

static void put_number(uint8_t *bytes, uint32_t n) {
    for (int i = 0; i < 4; i++) bytes[i] = n >> (24 - 8 * i);
}

static int refuse(struct refusal *why, uint64_t error, uint64_t first, uint64_t second) {
    *why = (struct refusal){error, first, second, 0};
    return 0;
}

/* The order of the refusals is one of our additions, and so is the most pixels. */
int model_header(const uint8_t *bytes, size_t len, struct header *header, struct refusal *why) {
    if (len < 14) return refuse(why, BUFFER_END, 0, 0);
    *header = (struct header){number(bytes + 4), number(bytes + 8), bytes[12], bytes[13]};
    if (header->channels != 3 && header->channels != 4) return refuse(why, CHANNELS, header->channels, 0);
    if (header->colorspace > 1) return refuse(why, COLORSPACE, header->colorspace, 0);
    if (memcmp(bytes, "qoif", 4) != 0) return refuse(why, MAGIC, number(bytes), 0);
    uint64_t pixels = (uint64_t)header->width * header->height;
    if (pixels == 0 || pixels > PIXELS_MOST) return refuse(why, DIMENSIONS, header->width, header->height);
    *why = (struct refusal){0};
    return 1;
}

void model_put_header(struct header header, uint8_t *file) {
    memcpy(file, "qoif", 4);
    put_number(file + 4, header.width);
    put_number(file + 8, header.height);
    file[12] = header.channels;
    file[13] = header.colorspace;
}

/* Reading */

/* How many bytes a chunk has, by its first. */
static size_t chunk_length(uint8_t first) {
    if (first == 0xfe) return 4;
    if (first == 0xff) return 5;
    return first >> 6 == 2 ? 2 : 1;
}

/* The pixel that a chunk gives after `last`; a run gives `last` again. */
struct pixel model_chunk_pixel(const uint8_t *chunk, struct pixel last, const struct pixel seen[64]) {
    struct pixel p = last;
    if (chunk[0] == 0xfe || chunk[0] == 0xff) {
        p.r = chunk[1], p.g = chunk[2], p.b = chunk[3];
        if (chunk[0] == 0xff) p.a = chunk[4];
        return p;
    }
    int bits = chunk[0] & 0x3f;
    switch (chunk[0] >> 6) {
    case 0:
        return seen[bits];
    case 1:
        p.r += (bits >> 4 & 3) - 2;
        p.g += (bits >> 2 & 3) - 2;
        p.b += (bits & 3) - 2;
        return p;
    case 2:
        p.r += bits - 32 + (chunk[1] >> 4) - 8;
        p.g += bits - 32;
        p.b += bits - 32 + (chunk[1] & 0xf) - 8;
        return p;
    default:
        return p;
    }
}

static size_t chunk_repeats(uint8_t first) { return first >= 0xc0 && first < 0xfe ? (first & 0x3f) + 1 : 1; }

struct reading model_read(const uint8_t *bytes, size_t len, size_t wanted, struct pixel *image) {
    struct pixel seen[64] = {{0}}, last = start;
    size_t at = 0, pixels = 0, before = 0;
    while (pixels < wanted) {
        if (at == len || chunk_length(bytes[at]) > len - at) return (struct reading){CUT, pixels, before, at, len};
        last = model_chunk_pixel(bytes + at, last, seen);
        seen[model_place(last)] = last;
        /* A last run that is too long is cut. */
        for (size_t k = chunk_repeats(bytes[at]); k > 0 && pixels < wanted; k--) image[pixels++] = last;
        at += chunk_length(bytes[at]);
        if (len - at >= 8) before = pixels;
    }
    if (len - at < 8) return (struct reading){CUT, pixels, before, at, len};
    int is_marked = memcmp(bytes + at, end_marker, 8) == 0;
    return (struct reading){is_marked ? WHOLE : WRONG, pixels, before, at, at + 8};
}

struct walked model_walk(const uint8_t *bytes, size_t len, size_t wanted, size_t offset, size_t pixels) {
    struct walked it = {0, 0};
    while (it.at < offset && it.pixels < pixels && it.pixels < wanted) {
        if (it.at == len || chunk_length(bytes[it.at]) > len - it.at) break;
        it.pixels += chunk_repeats(bytes[it.at]);
        it.at += chunk_length(bytes[it.at]);
    }
    if (it.pixels > wanted) it.pixels = wanted;
    return it;
}

void model_raw(const struct pixel *image, size_t count, uint32_t file_channels, uint32_t channels, uint8_t *raw) {
    for (size_t i = 0; i < count; i++, raw += channels) {
        raw[0] = image[i].r, raw[1] = image[i].g, raw[2] = image[i].b;
        if (channels == 4) raw[3] = file_channels == 4 ? image[i].a : 255;
    }
}

void model_pixels(const uint8_t *raw, size_t count, uint32_t channels, struct pixel *image) {
    for (size_t i = 0; i < count; i++, raw += channels)
        image[i] = (struct pixel){raw[0], raw[1], raw[2], channels == 4 ? raw[3] : 255};
}

/* Writing: the chunks of an image one after the other, and then their bytes. */

struct chunk {
    uint8_t bytes[5];
    uint8_t run;       /* how many pixels, or 0 if it isn't a run */
    uint8_t is_named;  /* whether it names an index position */
    struct pixel last; /* the pixel that it gives */
};

static int step(uint8_t from, uint8_t to) { return (int8_t)(uint8_t)(to - from); }

/* The first of a difference, a luma, an RGB and an RGBA chunk that gives `p` after `q`. */
static struct chunk spelled(struct pixel p, struct pixel q) {
    struct chunk chunk = {.last = p};
    int r = step(q.r, p.r), g = step(q.g, p.g), b = step(q.b, p.b);
    int r_g = step(g, r), b_g = step(g, b);
    if (p.a != q.a)
        memcpy(chunk.bytes, (uint8_t[]){0xff, p.r, p.g, p.b, p.a}, 5);
    else if (r >= -2 && r <= 1 && g >= -2 && g <= 1 && b >= -2 && b <= 1)
        chunk.bytes[0] = 0x40 | (r + 2) << 4 | (g + 2) << 2 | (b + 2);
    else if (g >= -32 && g <= 31 && r_g >= -8 && r_g <= 7 && b_g >= -8 && b_g <= 7)
        chunk.bytes[0] = 0x80 | (g + 32), chunk.bytes[1] = (r_g + 8) << 4 | (b_g + 8);
    else
        memcpy(chunk.bytes, (uint8_t[]){0xfe, p.r, p.g, p.b}, 4);
    return chunk;
}

static struct chunk named(int place, struct pixel p) {
    struct chunk chunk = {.bytes = {place}, .is_named = 1, .last = p};
    return chunk;
}

static int least_unseen(const uint8_t is_seen[64]) {
    for (int i = 0; i < 64; i++)
        if (!is_seen[i]) return i;
    return -1;
}

/* The chunks of `Reference` or `Tight`: `noted` are pixels that don't repeat the one before, by index position. */
static size_t chunks_of(const struct pixel *image, size_t count, int is_tight, struct chunk *chunks) {
    struct pixel noted[64] = {{0}}, last = start;
    uint8_t is_seen[64] = {0};
    size_t n = 0;
    for (size_t i = 0; i < count; i++) {
        struct pixel p = image[i];
        int place = model_place(p);
        int unseen = is_tight && same(p, blank) ? least_unseen(is_seen) : -1;
        if (same(p, last)) {
            if (n == 0 || chunks[n - 1].run == 0 || chunks[n - 1].run == 62) chunks[n++] = (struct chunk){.last = p};
            chunks[n - 1].run++;
            chunks[n - 1].bytes[0] = 0xc0 | (chunks[n - 1].run - 1);
        } else if (same(noted[place], p)) {
            chunks[n++] = named(place, p);
        } else if (unseen >= 0) {
            chunks[n++] = named(unseen, p);
        } else {
            chunks[n++] = spelled(p, last);
        }
        if (!same(p, last) || (is_tight && i == 0)) noted[place] = p;
        is_seen[place] = 1;
        last = p;
    }
    return n;
}

/* In `Places` a run of one names the position of its pixel, if a pixel that isn't a repeat stands behind it and another one
   somewhere before it, unless the chunk before it names that position. */
static void name_single_repeats(struct chunk *chunks, size_t count) {
    int is_begun = 0;
    for (size_t i = 0; i < count; i++) {
        struct chunk *it = &chunks[i];
        int is_followed = i + 1 < count && chunks[i + 1].run == 0;
        int place = model_place(it->last);
        int is_same = i > 0 && chunks[i - 1].is_named && chunks[i - 1].bytes[0] == place;
        if (it->run == 0) is_begun = 1;
        if (it->run == 1 && is_begun && is_followed && !is_same) *it = named(place, it->last);
    }
}

size_t model_file(struct header header, const struct pixel *image, enum style style, uint8_t *file) {
    size_t count = pixel_count(header), at = 14;
    struct chunk *chunks = malloc(count * sizeof *chunks);
    size_t n = chunks_of(image, count, style == TIGHT, chunks);
    if (style == PLACES) name_single_repeats(chunks, n);
    model_put_header(header, file);
    for (size_t i = 0; i < n; i++) {
        size_t size = chunk_length(chunks[i].bytes[0]);
        memcpy(file + at, chunks[i].bytes, size);
        at += size;
    }
    memcpy(file + at, end_marker, 8);
    free(chunks);
    return at + 8;
}

/* Lengths */

size_t model_floor(const struct pixel *image, size_t count, int any_list) {
    struct pixel seen[64] = {{0}}, last = start;
    uint8_t is_seen[64] = {0};
    size_t sum = 0, repeats = 0;
    for (size_t i = 0; i < count; i++) {
        struct pixel p = image[i];
        int is_free = any_list && same(p, blank) && least_unseen(is_seen) >= 0;
        if (same(p, last)) {
            if (repeats++ % 62 == 0) sum++;
        } else {
            repeats = 0;
            int is_named = same(seen[model_place(p)], p) || is_free;
            sum += is_named ? 1 : chunk_length(spelled(p, last).bytes[0]);
        }
        seen[model_place(p)] = p;
        is_seen[model_place(p)] = 1;
        last = p;
    }
    return sum;
}

size_t model_slack(const struct pixel *image, size_t count, uint32_t channels) {
    if (!same(image[0], start)) return 0;
    for (size_t i = 1; i < count; i++)
        if (!same(image[i], image[i - 1]) && model_place(image[i]) == 53) return same(image[i], start) ? channels : 0;
    return 0;
}
