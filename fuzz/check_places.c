/* Rows by an index, marks and clones against the model, and the C library. */
#include "session.h"

#include <stdlib.h>
#include <string.h>

/* Reads pieces of an image that is known: `at` is where the reader stands in its raw bytes. */
static void check_known_piece(const struct act *act, const struct answer *answer, const uint8_t *raw, size_t total, size_t *at,
                              const uint8_t *out) {
    size_t size = act->size < total - *at ? act->size : total - *at;
    refused_as((struct refusal){0}, answer);
    same("size", size, answer->size);
    same_bytes("pixels", raw + *at, out, size);
    *at += size;
    same("left", total - *at, answer->left);
}

#define ROW_ACTS 16

/* By turns rows are sought, in some channels, and bytes are read. Returns the room that is needed. */
static size_t plan_rows(struct random *random, struct header header, struct act *acts) {
    size_t total = pixel_count(header) * 4, row = (size_t)header.width * 4, at = 0;
    for (int i = 0; i < ROW_ACTS; i++) {
        size_t size = chance(random, 700) ? below(random, 2 * row + 4) : below(random, total + 4);
        acts[i] = (struct act){.kind = READ, .size = size};
        if (i % 2 == 0)
            acts[i] = (struct act){.kind = ONE_OF(random, ROWS, IN_RGB, IN_RGBA), .row = below(random, header.height + 2)};
        if (chance(random, 100)) acts[i] = (struct act){.kind = SKIP, .row = skipped_rows(random, header.height)};
        if (chance(random, 100)) acts[i] = some_rectangle(random, (size_t)header.width * header.channels, header.height);
        acts[i].at = at;
        at += acts[i].size + GUARD;
    }
    return at;
}

/* The rows of the indexed file, or of one that begins with it. */
static void check_known_rows(struct subject_file *file, const struct act *acts, const struct answer *answers,
                             const uint8_t *out) {
    struct header header = file->header;
    struct image_at *it = image_at(file, 14);
    uint32_t channels = header.channels;
    size_t where = 0;
    for (int i = 0; i < ROW_ACTS; i++) {
        size_t total = pixel_count(header) * channels;
        if (acts[i].kind == READ) {
            check_known_piece(&acts[i], &answers[i], raw_of(file, it, channels), total, &where, out + acts[i].at);
            continue;
        }
        struct refusal high = {BUFFER_END, 0, 0, 0};
        if (acts[i].kind == SKIP || acts[i].kind == RECTANGLE) {
            size_t row = (size_t)header.width * channels, size = acts[i].row * row, needed = (size_t)acts[i].part * acts[i].row;
            struct refusal why = {0};
            if (size > total - where || (size_t)acts[i].left + acts[i].part > row) why = high;
            else if (needed > acts[i].size) why = (struct refusal){TOO_SMALL, acts[i].size, needed, 0};
            if (!refused_as(why, &answers[i])) {
                if (acts[i].kind == RECTANGLE) same_rectangle(&acts[i], raw_of(file, it, channels) + where, row, out + acts[i].at);
                where += size;
            }
            same("left", total - where, answers[i].left);
            continue;
        }
        if (refused_as(acts[i].row > header.height ? high : (struct refusal){0}, &answers[i])) continue;
        channels = acts[i].kind == IN_RGB ? 3 : acts[i].kind == IN_RGBA ? 4 : header.channels;
        where = (size_t)acts[i].row * header.width * channels;
        same("left", pixel_count(header) * channels - where, answers[i].left);
    }
}

static int begins_with(const struct bytes *other, const struct subject_file *file) {
    return other->len >= file->len && memcmp(file->bytes, other->at, file->len) == 0;
}

/* Reads rows of another file, or of the same, by an index of this one. */
static void check_rows(struct random *random, struct subject_file *file, const struct bytes *other) {
    struct act acts[ROW_ACTS];
    struct answer answers[ROW_ACTS], made = {0};
    memset(answers, 0, sizeof answers);
    uint32_t every = ONE_OF(random, 0, 1, 1, 2, 3, 8, 100);
    struct header small = {1, 1, 3, 0};
    size_t room = plan_rows(random, file->why.error ? small : file->header, acts);
    if (room > OUT_ROOM) return;
    uint8_t *out = fresh(room);
    begin("RowIndex", chance(random, 30));
    fuzz_rows(file->bytes, file->len, every, other->at, other->len, acts, ROW_ACTS, out, room, &made, answers, ROW_ACTS);
    end();
    for (int i = 0; i < ROW_ACTS; i++) untouched("bytes past the buffer", out + acts[i].at + acts[i].size, GUARD);
    struct refusal why = file->why;
    if (!why.error) why = has_failed ? (struct refusal){MEMORY, 0, 0, 0} : image_refusal(image_at(file, 14)->reading);
    if (why.error || begins_with(other, file)) refused_as(why, &made);
    if (!why.error && begins_with(other, file)) check_known_rows(file, acts, answers, out);
}

/* The row of the last point of an index that serves for row `first`, with a point each `every` rows: what was decoded ahead
   at that point ends above the row. The last rows, which may be decoded ahead, have none. 0 if there is none. */
static size_t point_above(struct header header, uint32_t first, size_t every) {
    size_t row = (size_t)header.width * header.channels, last = 1 + AHEAD / row;
    size_t points = header.height < last ? 0 : (header.height - last) / every, above = first / every;
    if (points < above) above = points;
    while (above > 0 && (first - above * every) * row < AHEAD) above -= 1;
    return above * every;
}

/* Rows behind a point of an index are read without the bytes before it: those may be any. */
static void check_points(struct random *random, struct subject_file *file) {
    struct header header = file->header;
    size_t count = pixel_count(header), row = (size_t)header.width * header.channels;
    uint32_t every = between(random, 1, 1 + header.height / 4), first = below(random, header.height + 1);
    size_t above = point_above(header, first, every), where = first * row;
    if (above == 0) return;
    struct walked front = model_walk(file->bytes + 14, file->len - 14, count, file->len, above * header.width);
    struct bytes other = {malloc(file->len), file->len};
    memcpy(other.at, file->bytes, file->len);
    /* The last chunk before the point's row may be a run that goes on into it: it stays. */
    for (size_t i = 14; i + 5 < 14 + front.at; i++) other.at[i] = next(random);
    struct act acts[2] = {{.kind = ROWS, .row = first}, {.kind = READ, .size = below(random, 3 * row + 2)}};
    struct answer answers[2], made = {0};
    memset(answers, 0, sizeof answers);
    uint8_t *out = fresh(acts[1].size);
    begin("RowIndex, of bytes that stand before a point", 0);
    fuzz_rows(file->bytes, file->len, every, other.at, other.len, acts, 2, out, acts[1].size, &made, answers, 2);
    end();
    free(other.at);
    refused_as(none, &made);
    if (refused_as(none, &answers[0])) return;
    const uint8_t *raw = raw_of(file, image_at(file, 14), header.channels);
    check_known_piece(&acts[1], &answers[1], raw, count * header.channels, &where, out);
}

static void check_marks(struct random *random, struct subject_file *file, const struct bytes *other) {
    struct image_at *it = image_at(file, 14);
    uint32_t channels = between(random, 3, 4);
    size_t total = pixel_count(file->header) * channels, at = 0;
    struct act acts[4];
    struct answer answers[4], made = {0};
    memset(answers, 0, sizeof answers);
    for (int i = 0; i < 4; i++) {
        acts[i] = (struct act){.kind = READ, .at = at, .size = below(random, i < 2 ? total / 2 + 2 : total + 2)};
        at += acts[i].size + GUARD;
    }
    uint8_t *out = fresh(at);
    begin("Mark", 0);
    fuzz_marks(channels, file->bytes, file->len, other->at, other->len, acts, 4, out, at, &made, answers, 4);
    end();
    for (int i = 0; i < 4; i++) untouched("bytes past the buffer", out + acts[i].at + acts[i].size, GUARD);
    int is_same = begins_with(other, file);
    const uint8_t *raw = raw_of(file, it, channels);
    size_t where = 0;
    check_known_piece(&acts[0], &answers[0], raw, total, &where, out + acts[0].at);
    same("left of the mark", total - where, made.left);
    for (int i = 1; i < (is_same ? 4 : 3); i++) {
        size_t from = where;
        check_known_piece(&acts[i], &answers[i], raw, total, &from, out + acts[i].at);
    }
    if (is_same) refused_as((struct refusal){0}, &made);
    else if (made.error) refused_as((struct refusal){BUFFER_END, 0, 0, 0}, &made);
}

static void check_clones(struct random *random, struct subject_file *file) {
    struct image_at *it = image_at(file, 14);
    uint32_t channels = between(random, 3, 4);
    size_t total = pixel_count(file->header) * channels, size = below(random, total + 1);
    uint8_t *out = fresh(2 * total);
    struct answer answers[3], made = {0};
    memset(answers, 0, sizeof answers);
    begin("PixelReader::clone", 0);
    fuzz_clones(channels, file->bytes, file->len, size, out, 2 * total, &made, answers, 3);
    end();
    const uint8_t *raw = raw_of(file, it, channels);
    refused_as((struct refusal){0}, &made);
    same("into_data", file->len - 14, answers[0].ahead);
    same("into_reader", file->len - 14 - it->reading.taken, answers[2].ahead);
    for (int i = 0; i < 3; i++) {
        refused_as((struct refusal){0}, &answers[i]);
        same("size", i == 0 ? size : total - size, answers[i].size);
    }
    same_bytes("pixels by the clone", raw, out, total);
    untouched("bytes before", out + total, size);
    same_bytes("pixels by the cloned", raw + size, out + total + size, total - size);
    untouched("bytes past the buffer", out + 2 * total, GUARD);
}

#if __has_include(<qoi.h>)
#include <qoi.h>
/* qoi.h gives the same pixels. In four channels of a file of three it keeps what alpha was decoded, and isn't asked. */
static void check_c_library(struct random *random, struct subject_file *file) {
    struct image_at *it = image_at(file, 14);
    uint32_t channels = file->header.channels == 3 ? 3 : between(random, 3, 4);
    qoi_desc desc;
    uint8_t *found = qoi_decode(file->bytes, file->len, &desc, channels);
    subject.call = "qoi_decode of qoi.h";
    if (!found) differ("a file is refused", 0, 1);
    else same_bytes("pixels", raw_of(file, it, channels), found, pixel_count(file->header) * channels);
    free(found);
}
#else
static void check_c_library(struct random *random, struct subject_file *file) { (void)random, (void)file; }
#endif

/* This file with some bytes behind it. */
static const struct bytes *longer_file(struct random *random, const struct subject_file *file) {
    static struct bytes it;
    if (!it.at) it.at = malloc(FILE_ROOM + 16);
    memcpy(it.at, file->bytes, file->len);
    it.len = file->len;
    for (int i = below(random, 16); i > 0; i--) it.at[it.len++] = next(random);
    return &it;
}

static const struct bytes *another_file(struct random *random) {
    static struct bytes it;
    if (!it.at) it.at = malloc(FILE_ROOM);
    make_file(random, &it);
    return &it;
}

/* A file that is read by an index or a mark of this one: itself, one that begins with it, or another. */
static const struct bytes *file_for(struct random *random, const struct subject_file *file) {
    static struct bytes itself;
    itself = (struct bytes){(uint8_t *)file->bytes, file->len};
    size_t kind = below(random, 3);
    return kind == 0 ? &itself : kind == 1 ? longer_file(random, file) : another_file(random);
}

void check_places(struct random *random, struct subject_file *file) {
    int is_known = !file->why.error && pixel_count(file->header) < IMAGE_PIXELS;
    int is_whole = is_known && image_at(file, 14)->reading.verdict == WHOLE;
    if ((is_known || file->why.error) && chance(random, 400)) check_rows(random, file, file_for(random, file));
    if (is_whole && pixel_count(file->header) > PIECE / 4) check_points(random, file);
    if (is_whole && chance(random, 300)) check_marks(random, file, file_for(random, file));
    if (is_whole && chance(random, 100)) check_clones(random, file);
    if (is_whole && chance(random, 300)) check_c_library(random, file);
}
