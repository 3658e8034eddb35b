#include "generate.h"

#include <string.h>

/* Sizes */

/* Mostly small images; rows of one pixel, and single rows; and now and then one that passes the sizes of pieces, by its rows
   alone, too. */
static void make_size(struct random *random, struct header *header, size_t least_kind) {
    size_t kind = between(random, least_kind, 9999), w = 0, h = 0;
    if (kind < 5500) w = between(random, 1, 8), h = between(random, 1, 6);
    else if (kind < 7500) w = between(random, 1, 40), h = between(random, 1, 12);
    else if (kind < 8600) w = 1, h = between(random, 1, 200);
    else if (kind < 9700) w = between(random, 1, 400), h = 1;
    else if (kind < 9930) w = between(random, 1, 150), h = between(random, 1, 40);
    else if (kind < 9985) w = between(random, 1, 300), h = between(random, 1, 120);
    /* Rows longer than what is copied at once. */
    else if (kind < 9998) w = between(random, 1366, 3000), h = between(random, 1, 5);
    else w = between(random, 100, 700), h = between(random, 80, 280);
    header->width = w, header->height = h;
    header->channels = between(random, 3, 4);
    header->colorspace = below(random, 2);
}

/* Files */

/* What the chunks of a file are drawn by: shares of the six kinds, and how runs and index positions are drawn. */
struct shares { size_t of[6]; size_t run_most, position_most, recent; };

static struct shares make_shares(struct random *random) {
    struct shares shares = {{0}, ONE_OF(random, 1, 2, 5, 62, 62), ONE_OF(random, 1, 4, 64, 64), ONE_OF(random, 0, 300, 900)};
    size_t sum = 0;
    for (int i = 0; i < 6; i++) sum += shares.of[i] = chance(random, 300) ? 0 : below(random, 100);
    if (sum == 0) shares.of[below(random, 6)] = 1;
    return shares;
}

static size_t draw(struct random *random, const size_t *shares, size_t count) {
    size_t sum = 0, i = 0;
    for (size_t k = 0; k < count; k++) sum += shares[k];
    size_t at = below(random, sum);
    while (at >= shares[i]) at -= shares[i++];
    return i;
}

/* Writes a random chunk. `recent` are index positions that were written last. */
static size_t make_chunk(struct random *random, const struct shares *shares, const uint8_t recent[4], uint8_t *chunk) {
    uint64_t any = next(random);
    size_t kind = draw(random, shares->of, 6);
    memcpy(chunk + 1, &any, 4);
    /* Colors that come again, and transparent black. */
    if (chance(random, 200)) chunk[1] = chunk[2] = chunk[3] = any & 1, chunk[4] = any & 2 ? 255 : 0;
    switch (kind) {
    case 0:
        chunk[0] = chance(random, shares->recent) ? recent[any & 3] : below(random, shares->position_most);
        return 1;
    case 1:
        chunk[0] = 0x40 | (any >> 40 & 0x3f);
        return 1;
    case 2:
        chunk[0] = 0x80 | (any >> 40 & 0x3f);
        return 2;
    case 3:
        chunk[0] = 0xc0 | below(random, shares->run_most);
        return 1;
    case 4:
        chunk[0] = 0xfe;
        return 4;
    default:
        chunk[0] = 0xff;
        return 5;
    }
}

static void put(struct bytes *file, const uint8_t *bytes, size_t len) {
    memcpy(file->at + file->len, bytes, len);
    file->len += len;
}

static const uint8_t end_marker[8] = {0, 0, 0, 0, 0, 0, 0, 1};

/* Appends chunks that reach the number of pixels, and the end marker. */
static void put_chunks(struct random *random, struct bytes *file, size_t pixels) {
    struct shares shares = make_shares(random);
    struct pixel seen[64] = {{0}}, last = {0, 0, 0, 255};
    uint8_t recent[4] = {0}, chunk[5];
    for (size_t at = 0; at < pixels;) {
        size_t len = make_chunk(random, &shares, recent, chunk);
        int is_run = chunk[0] >= 0xc0 && chunk[0] < 0xfe;
        at += is_run ? (chunk[0] & 0x3f) + 1 : 1;
        last = model_chunk_pixel(chunk, last, seen);
        seen[model_place(last)] = last;
        recent[at & 3] = model_place(last);
        if (chance(random, 2)) shares = make_shares(random);
        put(file, chunk, len);
    }
    put(file, end_marker, 8);
}

static void put_any(struct random *random, struct bytes *file, size_t len) {
    for (size_t i = 0; i < len; i++) file->at[file->len++] = chance(random, 300) ? 0 : next(random);
}

/* Makes header bytes wrong, one or several of them. */
static void spoil_header(struct random *random, struct bytes *file) {
    static const uint32_t sides[] = {0, 1, 0x10000, 400000000, 400000001, 0xffffffff};
    for (size_t k = between(random, 1, 3); k > 0; k--) {
        size_t at = ONE_OF(random, 0, 1, 2, 3, 4, 8, 12, 13);
        if (at == 4 || at == 8) {
            uint32_t side = sides[below(random, 6)];
            for (int i = 0; i < 4; i++) file->at[at + i] = side >> (24 - 8 * i);
        } else {
            file->at[at] = chance(random, 500) ? below(random, 6) : next(random);
        }
    }
    if (chance(random, 200)) file->len = below(random, 15);
}

/* Damages a whole file, whose image ends before `end`. */
static void spoil(struct random *random, struct bytes *file, size_t end) {
    switch (below(random, 6)) {
    case 0:
        file->len = below(random, file->len + 1);
        break;
    case 1:
        file->at[end - 1 - below(random, 8)] ^= 1 << below(random, 8);
        break;
    case 2:
        file->at[between(random, 14, end - 1)] = next(random);
        break;
    case 3:
        spoil_header(random, file);
        break;
    case 4:
        file->len = end - between(random, 1, 9 < end ? 9 : end);
        break;
    default:
        memset(file->at + end - 8, 0, 8);
        put_any(random, file, 4);
        break;
    }
}

void make_file(struct random *random, struct bytes *file) {
    struct header header;
    make_size(random, &header, 0);
    model_put_header(header, file->at);
    file->len = 14;
    put_chunks(random, file, pixel_count(header));
    size_t end = file->len;
    if (chance(random, 250)) put_any(random, file, below(random, 20));
    else if (chance(random, 250)) put_chunks(random, file, pixel_count(header));
    if (chance(random, 300)) spoil(random, file, end);
}

/* Images */

enum kind { NEW, BEFORE, REPEAT, NEAR, LUMA, START, BLANK, ALPHA, KINDS };

/* A pixel of some kind, after others. */
static struct pixel make_pixel(struct random *random, enum kind kind, const struct pixel *image, size_t at) {
    struct pixel last = at > 0 ? image[at - 1] : (struct pixel){0, 0, 0, 255}, p = last;
    uint64_t any = next(random);
    switch (kind) {
    case NEW:
        p.r = any, p.g = any >> 8, p.b = any >> 16;
        return p;
    case ALPHA:
        return (struct pixel){any, any >> 8, any >> 16, any >> 24};
    case BEFORE:
        return at > 0 ? image[at - 1 - below(random, at < 80 ? at : 80)] : last;
    case REPEAT:
        return last;
    case NEAR:
        p.r += any % 5 - 2, p.g += (any >> 8) % 5 - 2, p.b += (any >> 16) % 5 - 2;
        return p;
    case LUMA: {
        int g = (int)(any % 68) - 34;
        p.r += g + (int)((any >> 8) % 18) - 9, p.g += g, p.b += g + (int)((any >> 16) % 18) - 9;
        return p;
    }
    case START:
        return (struct pixel){0, 0, 0, 255};
    default:
        return (struct pixel){0, 0, 0, 0};
    }
}

static void make_kinds(struct random *random, size_t *of) {
    size_t sum = 0;
    for (int i = 0; i < KINDS; i++) sum += of[i] = chance(random, 400) ? 0 : below(random, chance(random, 200) ? 1000 : 50);
    if (sum == 0) of[REPEAT] = 1;
}

/* How many pixels of a kind come: of repeats up to `stretch`, and if that is many, often as many as full runs have, or
   nearly. */
static size_t make_count(struct random *random, enum kind kind, size_t stretch) {
    if (kind != REPEAT) return 1;
    if (stretch < 100 || chance(random, 500)) return between(random, 1, stretch);
    return 62 * between(random, 1, 3) - 2 + below(random, 5);
}

struct header make_image(struct random *random, uint8_t *raw) {
    static struct pixel image[IMAGE_PIXELS];
    size_t of[KINDS], stretch = ONE_OF(random, 1, 1, 1, 3, 20, 100);
    struct header header;
    /* Long runs in larger images. */
    make_size(random, &header, stretch == 100 && chance(random, 300) ? 9700 : 0);
    make_kinds(random, of);
    for (size_t at = 0; at < pixel_count(header);) {
        enum kind kind = draw(random, of, KINDS);
        for (size_t k = make_count(random, kind, stretch); k > 0 && at < pixel_count(header); k--, at++) {
            image[at] = make_pixel(random, kind, image, at);
            if (header.channels == 3) image[at].a = 255;
        }
        if (chance(random, 3)) make_kinds(random, of);
    }
    model_raw(image, pixel_count(header), 4, header.channels, raw);
    return header;
}
