/* What the model reads in a file, and the free calls that decode. */
#include <stdlib.h>
#include <string.h>

#include "session.h"

static void make_room(struct image_at *it, size_t pixels) {
    if (it->room >= pixels) return;
    it->room = pixels * 2;
    it->pixels = realloc(it->pixels, it->room * sizeof *it->pixels);
    for (int c = 3; c <= 4; c++) it->raw[c] = realloc(it->raw[c], it->room * c);
}

struct image_at *image_at(struct subject_file *file, size_t at) {
    struct image_at *it = at == 14 ? &file->first : &file->other;
    if (it->is_read && it->at == at) return it;
    size_t count = pixel_count(file->header), most = 62 * (file->len - at) + 1;
    make_room(it, count < most ? count : most);
    it->is_read = 1, it->at = at, it->has_raw[3] = it->has_raw[4] = 0;
    it->reading = model_read(file->bytes + at, file->len - at, count, it->pixels);
    return it;
}

const uint8_t *raw_of(struct subject_file *file, struct image_at *it, uint32_t channels) {
    if (!it->has_raw[channels])
        model_raw(it->pixels, it->reading.pixels, file->header.channels, channels, it->raw[channels]);
    it->has_raw[channels] = 1;
    return it->raw[channels];
}

/* Free calls */

static void check_free_header(struct subject_file *file) {
    struct answer answer = {0};
    begin("decode_header", 0);
    fuzz_decode_free(0, file->bytes, file->len, fresh(0), 0, &answer);
    end();
    if (!refused_as(file->why, &answer)) check_header(file->header, &answer);
}

struct refusal image_refusal(struct reading reading) {
    static const uint64_t errors[] = {[WHOLE] = NONE, [CUT] = BUFFER_END, [WRONG] = PADDING};
    return (struct refusal){errors[reading.verdict], 0, 0, 0};
}

size_t buffer_size(struct random *random, size_t needed) {
    if (needed > OUT_ROOM / 8) return below(random, 100);
    if (chance(random, 100)) return below(random, needed);
    return needed + (chance(random, 500) ? 0 : below(random, 100));
}

static void check_free_buffer(struct random *random, struct subject_file *file) {
    size_t needed = file->why.error ? 0 : pixel_count(file->header) * file->header.channels;
    size_t size = buffer_size(random, needed + !needed);
    uint8_t *out = fresh(size);
    struct answer answer = {0};
    begin("decode_to_buf (free)", 0);
    fuzz_decode_free(1, file->bytes, file->len, out, size, &answer);
    end();
    if (file->why.error || size < needed) {
        struct refusal short_one = {TOO_SMALL, size, needed, 0};
        refused_as(file->why.error ? file->why : short_one, &answer);
        untouched("the buffer", out, size + GUARD);
        return;
    }
    struct image_at *it = image_at(file, 14);
    untouched("later bytes", out + needed, size - needed + GUARD);
    if (refused_as(image_refusal(it->reading), &answer)) return;
    check_header(file->header, &answer);
    same_bytes("pixels", raw_of(file, it, file->header.channels), out, needed);
}

static void check_free_vector(struct random *random, struct subject_file *file) {
    size_t needed = file->why.error ? 0 : pixel_count(file->header) * file->header.channels;
    size_t size = needed < OUT_ROOM / 8 ? needed : 0;
    uint8_t *out = fresh(size);
    struct answer answer = {0};
    begin("decode_to_vec (free)", chance(random, 60));
    fuzz_decode_free(2, file->bytes, file->len, out, size, &answer);
    end();
    struct refusal no_memory = {MEMORY, 0, 0, 0};
    if (file->why.error || has_failed) {
        refused_as(file->why.error ? file->why : no_memory, &answer);
        return;
    }
    struct image_at *it = image_at(file, 14);
    if (refused_as(image_refusal(it->reading), &answer)) return;
    check_header(file->header, &answer);
    same("size", needed, answer.size);
    same_bytes("pixels", raw_of(file, it, file->header.channels), out, needed);
}

void check_file(struct random *random, const struct bytes *bytes) {
    static struct subject_file file;
    file.bytes = bytes->at, file.len = bytes->len;
    file.first.is_read = file.other.is_read = 0;
    memset(&file.header, 0, sizeof file.header);
    model_header(bytes->at, bytes->len, &file.header, &file.why);
    check_free_header(&file);
    check_free_buffer(random, &file);
    check_free_vector(random, &file);
    for (enum way way = 0; way < DECODERS; way++)
        if (way == OF_SLICE || chance(random, 350)) run_session(random, &file, way);
    check_places(random, &file);
    check_copies(random, &file);
}
