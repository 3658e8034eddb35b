/* The encoding calls against the model. */
#include "check.h"

#include <stdlib.h>
#include <string.h>

#define ACTS 48
/* `encode_to_stream` sends pieces of so many bytes, and one of the rest. */
#define SENT_AT_ONCE 4096
#define MOST_FILE (22 + 5 * (size_t)IMAGE_PIXELS)

/* An image, and the files that it has in the three styles, those that were asked for. */
struct subject_image {
    struct header header;
    const uint8_t *raw;
    size_t len, count;
    struct pixel pixels[IMAGE_PIXELS];
    uint8_t files[3][MOST_FILE];
    size_t sizes[3];
};

/* Where answers go that no call writes. */
static struct answer unused;

/* What file an image has to get. */
struct wanted { struct picture picture; const uint8_t *file; size_t size; };

static struct wanted wanted(struct subject_image *image, enum style style) {
    struct header header = image->header;
    if (image->sizes[style] == 0) image->sizes[style] = model_file(header, image->pixels, style, image->files[style]);
    struct picture picture = {header.width, header.height, header.channels, header.colorspace, style};
    return (struct wanted){picture, image->files[style], image->sizes[style]};
}

/* The most bytes that a file can have. */
static uint64_t most_bytes(uint64_t width, uint64_t height, uint64_t channels) {
    unsigned __int128 most = (unsigned __int128)width * height * (channels + 1) + 22;
    return most > UINT64_MAX ? UINT64_MAX : (uint64_t)most;
}

static size_t required(const struct subject_image *image) {
    return most_bytes(image->header.width, image->header.height, image->header.channels);
}

/* What the model itself has to keep: the file gives the image back, and is as short as is promised. */
static void check_model(struct subject_image *image) {
    static struct pixel back[IMAGE_PIXELS];
    size_t floor = model_floor(image->pixels, image->count, 0) + 22, sizes[3];
    subject.call = "the model";
    for (enum style style = 0; style <= TIGHT; style++) {
        struct wanted it = wanted(image, style);
        struct reading reading = model_read(it.file + 14, it.size - 14, image->count, back);
        same("verdict", WHOLE, reading.verdict);
        same("length", it.size - 14, reading.taken);
        same_bytes("pixels", (const uint8_t *)image->pixels, (const uint8_t *)back, image->count * sizeof *back);
        sizes[style] = it.size;
    }
    same("Places' length", sizes[REFERENCE], sizes[PLACES]);
    same("Tight's length", model_floor(image->pixels, image->count, 1) + 22, sizes[TIGHT]);
    size_t slack = model_slack(image->pixels, image->count, image->header.channels);
    if (sizes[REFERENCE] < floor || sizes[REFERENCE] > floor + slack) differ("Reference's length", floor, sizes[REFERENCE]);
}

/* Buffers and vectors */

static size_t buffer_size(struct random *random, size_t needed) {
    if (chance(random, 100)) return needed - 1 - (chance(random, 500) ? 0 : below(random, needed));
    return needed + (chance(random, 500) ? 0 : below(random, 100));
}

static void check_file_of(const struct wanted *it, const struct answer *answer, const uint8_t *out, size_t size) {
    if (refused_as((struct refusal){0}, answer)) return;
    same("size", it->size, answer->size);
    same_bytes("the file", it->file, out, it->size);
    untouched("later bytes", out + it->size, size - it->size + GUARD);
}

static void check_buffer(struct random *random, struct subject_image *image, const struct wanted *it, int is_free) {
    size_t needed = required(image), size = buffer_size(random, needed);
    uint8_t *out = fresh(size);
    struct answer answer = {0};
    struct plan plan = {0};
    begin(is_free ? "encode_to_buf (free)" : "Encoder::encode_to_buf", 0);
    if (is_free) fuzz_encode_free(0, &it->picture, image->raw, image->len, out, size, &answer);
    else fuzz_encode(0, &it->picture, &plan, image->raw, image->len, out, size, &answer, &unused);
    end();
    if (!is_free) {
        check_header(image->header, &answer);
        check_rows_of(image->header, image->header.channels, &answer);
        same("style", it->picture.style, answer.style);
        same("required_buf_len", needed, answer.left);
    }
    if (size >= needed) {
        check_file_of(it, &answer, out, size);
        return;
    }
    refused_as((struct refusal){TOO_SMALL, size, needed, 0}, &answer);
    untouched("the short buffer", out, size + GUARD);
}

static void check_vector(struct random *random, struct subject_image *image, const struct wanted *it, int is_free) {
    uint8_t *out = fresh(it->size);
    struct answer answer = {0};
    struct plan plan = {0};
    size_t fail_at = chance(random, 60) ? between(random, 1, 2) : 0;
    begin(is_free ? "encode_to_vec (free)" : "Encoder::encode_to_vec", fail_at);
    if (is_free) fuzz_encode_free(1, &it->picture, image->raw, image->len, out, it->size, &answer);
    else fuzz_encode(1, &it->picture, &plan, image->raw, image->len, out, it->size, &answer, &unused);
    end();
    /* The second allocation gives back what the file leaves, and may fail. */
    if (has_failed && fail_at == 1) refused_as((struct refusal){MEMORY, 0, 0, 0}, &answer);
    else check_file_of(it, &answer, out, it->size);
}

/* Writers */

/* A writer got a beginning of the file, and nothing else was written. */
static void check_beginning(const struct wanted *it, const uint8_t *out, size_t size, size_t sent) {
    if (sent > it->size || sent > size) {
        differ("bytes sent", it->size, sent);
        return;
    }
    same_bytes("the file's beginning", it->file, out, sent);
    untouched("bytes behind those sent", out + sent, size - sent + GUARD);
}

/* A writer that failed goes on, and is called again: behind the beginning it gets the whole file. */
static void check_writer_again(const struct wanted *it, const struct plan *plan, const struct answer *first,
                               const struct answer *again, const uint8_t *out, size_t size) {
    size_t sent = again->bytes - first->bytes;
    if (is_bad(plan, again->calls) && !is_bad(plan, first->calls)) {
        refused_as(fault(plan, NO_BYTE_TAKEN), again);
    } else if (size < it->size) {
        refused_as((struct refusal){IO, NO_BYTE_TAKEN, 0, 0}, again);
        same("bytes sent again", size, sent);
    } else if (!refused_as((struct refusal){0}, again)) {
        same("size", it->size, again->size);
        same("bytes sent again", it->size, sent);
    }
    check_beginning(it, out, size, sent);
}

static void check_writer(struct random *random, struct subject_image *image, const struct wanted *it) {
    struct plan plan = make_plan(random, it->size);
    size_t size = chance(random, 100) ? below(random, it->size) : it->size * between(random, 1, 2) + below(random, 20);
    uint8_t *out = fresh(size);
    struct answer answer = {0}, again = {0};
    begin("encode_to_stream, a writer", 0);
    fuzz_encode(2, &it->picture, &plan, image->raw, image->len, out, size, &answer, &again);
    end();
    same("flushes", 0, answer.flushes + again.flushes);
    if (is_bad(&plan, answer.calls)) {
        same("calls of the writer", plan.bad, answer.calls);
        refused_as(fault(&plan, NO_BYTE_TAKEN), &answer);
    } else if (size < it->size) {
        refused_as((struct refusal){IO, NO_BYTE_TAKEN, 0, 0}, &answer);
        same("bytes sent", size, answer.bytes);
    } else if (!refused_as((struct refusal){0}, &answer)) {
        same("size", it->size, answer.size);
        same("bytes sent", it->size, answer.bytes);
        if (plan.most >= SENT_AT_ONCE) same("pieces sent", (it->size + SENT_AT_ONCE - 1) / SENT_AT_ONCE, answer.calls);
    }
    if (answer.bytes > it->size || answer.bytes > size) {
        differ("bytes sent", it->size, answer.bytes);
        return;
    }
    same_bytes("the file's beginning", it->file, out, answer.bytes);
    if (answer.error) check_writer_again(it, &plan, &answer, &again, out + answer.bytes, size - answer.bytes);
    else untouched("bytes behind the file", out + it->size, size - it->size + GUARD);
}

static void check_slice(struct random *random, struct subject_image *image, const struct wanted *it) {
    size_t size = chance(random, 100) ? below(random, it->size) : it->size + below(random, 20);
    uint8_t *out = fresh(size);
    struct answer answer = {0};
    struct plan plan = {0};
    begin("encode_to_stream, a slice", 0);
    fuzz_encode(3, &it->picture, &plan, image->raw, image->len, out, size, &answer, &unused);
    end();
    if (size >= it->size) {
        check_file_of(it, &answer, out, size);
        return;
    }
    refused_as((struct refusal){IO, NO_BYTE_TAKEN, 0, 0}, &answer);
    untouched("bytes past the slice", out + size, GUARD);
}

static void check_growing(struct random *random, struct subject_image *image, const struct wanted *it) {
    uint8_t *out = fresh(it->size);
    struct answer answer = {0};
    struct plan plan = {0};
    begin("encode_to_stream, a vector", chance(random, 100) ? between(random, 1, 3) : 0);
    fuzz_encode(4, &it->picture, &plan, image->raw, image->len, out, it->size, &answer, &unused);
    end();
    check_beginning(it, out, it->size, answer.bytes);
    if (has_failed) refused_as((struct refusal){IO, NO_MEMORY, 0, 0}, &answer);
    else check_file_of(it, &answer, out, it->size);
}

/* Pieces */

struct pieces {
    struct wanted *it;
    struct plan plan;
    enum sink sink;
    struct act acts[ACTS];
    struct answer answers[ACTS + 1];
    size_t count, came, total;
    int has_fault;
};

static size_t piece_size(struct random *random, size_t scheme, size_t total, size_t row) {
    switch (scheme) {
    case 0:
        return row;
    case 1:
        return below(random, 8);
    case 2:
        return below(random, total / 8 + 2);
    case 3:
        return between(random, 4000, 9000);
    default:
        return below(random, total + 1);
    }
}

static void add_piece(struct pieces *it, size_t at, size_t size) {
    it->acts[it->count++] = (struct act){.kind = READ, .at = at, .size = size};
}

/* Plans the pieces: the image's raw bytes, perhaps some too many or too few. */
static void plan_pieces(struct random *random, struct pieces *it, size_t row) {
    size_t scheme = below(random, 5), at = 0, count = between(random, 1, ACTS / 2 - 2);
    while (it->count < count && at < it->total) {
        size_t size = piece_size(random, scheme, it->total, row), left = it->total - at;
        if (size > left || chance(random, 20)) {
            /* Too many bytes, which are refused, and then the last ones. */
            if (chance(random, 200)) add_piece(it, 0, left + 1 + below(random, 10));
            size = size < left ? size : left;
        }
        add_piece(it, at, size);
        at += size;
    }
    /* The rest, mostly, and perhaps more than that. */
    if (!chance(random, 100)) {
        add_piece(it, at, it->total - at);
        if (chance(random, 100)) add_piece(it, 0, between(random, 1, it->total));
    }
    it->acts[it->count++] = (struct act){.kind = chance(random, 200) ? INTO : FINISH};
}

static int is_hit_now(const struct pieces *it, size_t i) {
    size_t before = i > 0 ? it->answers[i - 1].calls : 0;
    if (it->sink != TO_SINK || it->plan.bad <= before || it->plan.bad > it->answers[i].calls) return 0;
    same("calls of the writer, the last one the bad one", it->plan.bad, it->answers[i].calls);
    return 1;
}

static void check_given(struct pieces *it, size_t i) {
    const struct answer *answer = &it->answers[i + 1];
    size_t size = it->acts[i].size;
    if (it->has_fault) {
        refused_as((struct refusal){IO, BROKEN, 0, 0}, answer);
        same("calls of the writer", it->answers[i].calls, answer->calls);
    } else if (size > it->total - it->came) {
        uint64_t all = it->came + size;
        refused_as((struct refusal){LENGTH, all, it->it->picture.width, it->it->picture.height}, answer);
        same("calls of the writer", it->answers[i].calls, answer->calls);
    } else if (is_hit_now(it, i + 1)) {
        refused_as(fault(&it->plan, NO_BYTE_TAKEN), answer);
        it->has_fault = 1;
    } else if (has_failed && answer->error == IO && answer->first == NO_MEMORY) {
        it->has_fault = 1;
    } else if (!refused_as((struct refusal){0}, answer)) {
        it->came += size;
    } else {
        it->has_fault = 1;
    }
    same("left", it->total - it->came, answer->left);
}

static void check_finished(struct pieces *it, size_t i) {
    const struct answer *answer = &it->answers[i + 1];
    const struct picture *picture = &it->it->picture;
    if (it->has_fault) {
        refused_as((struct refusal){IO, BROKEN, 0, 0}, answer);
        same("calls of the writer", it->answers[i].calls, answer->calls);
    } else if (it->came < it->total) {
        refused_as((struct refusal){LENGTH, it->came, picture->width, picture->height}, answer);
        same("calls of the writer", it->answers[i].calls, answer->calls);
    } else if (is_hit_now(it, i + 1)) {
        refused_as(fault(&it->plan, NO_BYTE_TAKEN), answer);
    } else if (!has_failed || answer->error != IO || answer->first != NO_MEMORY) {
        refused_as((struct refusal){0}, answer);
        if (it->sink == TO_SINK) same("bytes sent", it->it->size, answer->bytes);
    }
}

/* How many bytes the writer took in all. */
static size_t bytes_sent(const struct pieces *it) {
    size_t most = 0;
    for (size_t i = 0; i <= it->count; i++)
        if (it->answers[i].bytes > most) most = it->answers[i].bytes;
    return most;
}

static void check_acts(struct pieces *it) {
    const struct answer *made = &it->answers[0];
    size_t last = it->count - 1;
    for (size_t i = 0; i <= it->count; i++) same("flushes", 0, it->answers[i].flushes);
    if (is_hit_now(it, 0)) {
        refused_as(fault(&it->plan, NO_BYTE_TAKEN), made);
    } else if (has_failed && made->error == MEMORY) {
        refused_as((struct refusal){MEMORY, 0, 0, 0}, made);
    } else if (has_failed && made->error == IO) {
        refused_as((struct refusal){IO, NO_MEMORY, 0, 0}, made);
    } else if (!refused_as((struct refusal){0}, made)) {
        same("left", it->total, made->left);
        same("style", it->it->picture.style, made->style);
        for (size_t i = 0; i < last; i++) check_given(it, i);
        if (it->acts[last].kind == FINISH) check_finished(it, last);
    }
}

/* What the writer got: `size` bytes of a vector. */
static void check_sent(const struct pieces *it, const uint8_t *out, size_t room, size_t size) {
    const struct answer *last = &it->answers[it->count];
    int is_finished = it->acts[it->count - 1].kind == FINISH && !last->error && !it->answers[0].error;
    if (it->sink == TO_SINK) {
        check_beginning(it->it, out, room, bytes_sent(it));
    } else if (it->sink == TO_VECTOR) {
        check_beginning(it->it, out, room, size);
        if (is_finished) same("size", it->it->size, size);
    } else if (is_finished) {
        check_beginning(it->it, out, room, it->it->size);
    }
}

static void check_pieces(struct random *random, struct subject_image *image, struct wanted *wanted) {
    static struct pieces it;
    memset(&it, 0, sizeof it);
    it.it = wanted, it.total = image->len, it.sink = below(random, 3);
    it.plan = make_plan(random, wanted->size);
    plan_pieces(random, &it, (size_t)image->header.width * image->header.channels);
    size_t size = 0, room = wanted->size + below(random, 20);
    uint8_t *out = fresh(room);
    begin("PixelWriter", chance(random, 60) ? between(random, 1, 4) : 0);
    /* The bytes behind the image are for pieces that are too many. */
    fuzz_write(it.sink, &wanted->picture, &it.plan, image->raw, image->len + 16, it.acts, it.count, out, room, &size,
               it.answers, it.count + 1);
    end();
    check_acts(&it);
    check_sent(&it, out, room, size);
}

#if __has_include(<qoi.h>)
#define QOI_IMPLEMENTATION
#include <qoi.h>
static void check_c_library(struct subject_image *image) {
    struct wanted it = wanted(image, REFERENCE);
    qoi_desc desc = {image->header.width, image->header.height, image->header.channels, image->header.colorspace};
    int size = 0;
    uint8_t *found = qoi_encode(image->raw, &desc, &size);
    subject.call = "qoi_encode of qoi.h";
    if (!found) exit(1);
    same("size", it.size, size);
    same_bytes("the file", it.file, found, it.size < (size_t)size ? it.size : (size_t)size);
    free(found);
}
#else
static void check_c_library(struct subject_image *image) { (void)image; }
#endif

/* Raw bytes of a wrong number, and sizes that no image has. */
static void check_refused(struct random *random, struct subject_image *image) {
    struct header header = image->header;
    struct picture picture = {header.width, header.height, header.channels, 0, below(random, 3)};
    static const uint32_t sides[] = {0, 0, 0x10000, 400000000, 400000001, 0xffffffff};
    if (chance(random, 300)) picture.width = sides[below(random, 6)];
    if (chance(random, 200)) picture.height = sides[below(random, 6)];
    size_t len = below(random, image->len + 1);
    uint64_t pixels = (uint64_t)picture.width * picture.height, each = pixels ? len / pixels : 0;
    struct refusal why = {0};
    if (pixels == 0 || pixels > 400000000) why = (struct refusal){DIMENSIONS, picture.width, picture.height, 0};
    else if (len % pixels) why = (struct refusal){LENGTH, len, picture.width, picture.height};
    else if (each != 3 && each != 4) why = (struct refusal){CHANNELS, each < 255 ? each : 255, 0, 0};
    if (!why.error) return;
    uint8_t *out = fresh(60);
    struct answer answer = {0};
    struct plan plan = {.most = 100};
    begin("Encoder::new", 0);
    if (chance(random, 500)) fuzz_encode(below(random, 5), &picture, &plan, image->raw, len, out, 60, &answer, &unused);
    else fuzz_encode_free(below(random, 2), &picture, image->raw, len, out, 60, &answer);
    end();
    refused_as(why, &answer);
    untouched("the buffer", out, 60 + GUARD);
}

/* Sizes of any kind: what a header of them says. */
static void check_sizes(struct random *random) {
    uint64_t any = next(random);
    struct picture picture = {any, any >> 32, between(random, 3, 4), below(random, 2), 0};
    if (chance(random, 500)) picture.width >>= below(random, 32), picture.height >>= below(random, 32);
    struct answer answer = {0};
    begin("Header", 0);
    fuzz_header(&picture, &answer);
    end();
    uint64_t pixels = (uint64_t)picture.width * picture.height;
    struct header header = {picture.width, picture.height, picture.channels, picture.colorspace};
    int is_refused = pixels == 0 || pixels > 400000000;
    struct refusal why = {DIMENSIONS, picture.width, picture.height, 0};
    if (!refused_as(is_refused ? why : (struct refusal){0}, &answer)) check_header(header, &answer);
    same("n_pixels", pixels, answer.pixels);
    same("bytes_per_row", (uint64_t)picture.width * picture.channels, answer.row);
    same("encode_max_len of a header", most_bytes(picture.width, picture.height, picture.channels), answer.kept);
    unsigned __int128 bytes = (unsigned __int128)pixels * picture.channels;
    same("n_bytes", bytes > UINT64_MAX ? UINT64_MAX : (uint64_t)bytes, answer.size);
    same("encode_max_len", most_bytes(picture.width, picture.height, picture.channels), answer.left);
}

void check_image(struct random *random, struct header header, const uint8_t *raw) {
    static struct subject_image image;
    image.header = header, image.raw = raw, image.count = pixel_count(header);
    image.len = image.count * header.channels;
    memset(image.sizes, 0, sizeof image.sizes);
    model_pixels(raw, image.count, header.channels, image.pixels);
    if (header.colorspace == 0) {
        struct wanted reference = wanted(&image, REFERENCE);
        if (chance(random, 500)) check_buffer(random, &image, &reference, 1);
        else check_vector(random, &image, &reference, 1);
    }
    for (enum style style = 0; style <= TIGHT; style++) {
        struct wanted it = wanted(&image, style);
        check_buffer(random, &image, &it, 0);
        if (chance(random, 300)) check_vector(random, &image, &it, 0);
        if (chance(random, 500)) check_writer(random, &image, &it);
        if (chance(random, 200)) check_slice(random, &image, &it);
        if (chance(random, 200)) check_growing(random, &image, &it);
        if (chance(random, 600)) check_pieces(random, &image, &it);
    }
    check_model(&image);
    check_c_library(&image);
    check_refused(random, &image);
    check_sizes(random);
}
