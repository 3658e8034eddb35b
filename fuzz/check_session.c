/* Sessions: a decoder is made in some way, and then several calls follow. */
#include "session.h"

#include <stdlib.h>
#include <string.h>

const char *const way_names[] = {
    "Decoder::new", "from_stream, a slice", "from_stream, a reader", "from_stream, a BufReader", "from_buf_read, a slice",
    "from_buf_read, a reader", "from_buf_read, a BufReader", "from_buf_read, a Cursor", "RowIndex", "Mark", "PixelReader::clone"};

int in_memory(const struct session *it) { return it->way == OF_SLICE || it->way == OF_ROWS || it->way == OF_MARK; }
static int has_plan(enum way way) {
    return way == STREAM_SOURCE || way == STREAM_BUFFER || way == SHOWN_SOURCE || way == SHOWN_BUFFER;
}

int is_hit(const struct session *it, size_t i) {
    size_t before = i > 0 ? it->answers[i - 1].calls : 0;
    if (!has_plan(it->way) || it->plan.bad <= before || it->plan.bad > it->answers[i].calls) return 0;
    same("calls of the reader, the last one the bad one", it->plan.bad, it->answers[i].calls);
    return 1;
}

/* Why the image at a place is refused, by the kind of reader. */
static struct refusal refusal_here(const struct session *it, struct reading reading) {
    if (reading.verdict == CUT && !in_memory(it)) return (struct refusal){IO, EARLY_END, 0, 0};
    return image_refusal(reading);
}

int counts_bytes(const struct session *it) { return it->way == STREAM_SOURCE || it->way == SHOWN_SOURCE; }

/* The decoder stands where the answer says, which is so far behind the place before at the least and at the most. */
static void stands(struct session *it, const struct answer *answer, size_t least, size_t most) {
    size_t at = it->file->len - answer->ahead;
    if (answer->ahead > it->file->len || at < it->at + least || at > it->at + most)
        differ("bytes taken", it->at + (at < it->at + least ? least : most), at);
    it->at = answer->ahead > it->file->len ? it->file->len : at;
    if (counts_bytes(it)) same("bytes given", it->at, answer->bytes);
    same("required_buf_len", pixel_count(it->file->header) * it->channels, answer->left);
    check_header(it->file->header, answer);
    same("channels", it->channels, answer->asked);
    same("the header's bytes_per_row", (size_t)it->file->header.width * it->file->header.channels, answer->row);
}

/* A decoding call at once, whose bytes stand in `out`. */
static void check_whole(struct session *it, size_t i, size_t size) {
    const struct answer *answer = &it->answers[i + 1];
    size_t needed = pixel_count(it->file->header) * it->channels;
    uint8_t *out = it->out + it->acts[i].at;
    int is_buf = it->acts[i].kind == TO_BUF;
    if (is_buf && size < needed) {
        refused_as((struct refusal){TOO_SMALL, size, needed, 0}, answer);
        untouched("the short buffer", out, size);
        stands(it, answer, 0, 0);
        return;
    }
    if (answer->error == MEMORY) {
        if (!has_failed || is_buf) differ("OutOfMemory", 0, 1);
        has_failed = 0, it->had_no_memory = 1;
        stands(it, answer, 0, 0);
        return;
    }
    struct image_at *image = image_at(it->file, it->at);
    struct reading reading = image->reading;
    if (size > needed) untouched("later bytes", out + needed, size - needed);
    if (is_hit(it, i + 1)) {
        refused_as(fault(&it->plan, EARLY_END), answer);
        stands(it, answer, 0, reading.taken);
        return;
    }
    int is_refused = refused_as(refusal_here(it, reading), answer);
    if (is_refused && in_memory(it)) {
        stands(it, answer, 0, 0);
    } else {
        stands(it, answer, reading.taken, reading.taken);
    }
    if (is_refused) return;
    same("size", needed, answer->size);
    if (is_buf || size >= needed) same_bytes("pixels", raw_of(it->file, image, it->channels), out, needed);
}

/* What a reader of pieces says of its image. */
static void check_reader(const struct session *it, const struct answer *answer) {
    same("left", it->total - it->given, answer->left);
    check_header(it->file->header, answer);
    check_rows_of(it->file->header, it->channels, answer);
}

/* The image ahead is read by pieces, of which so many raw bytes were read before. */
static void start_pieces(struct session *it, const struct answer *answer, size_t given) {
    it->is_pieces = 1;
    it->image = image_at(it->file, it->at);
    it->total = pixel_count(it->file->header) * it->channels;
    it->given = given;
    it->is_refused = it->has_fault = 0;
    it->asked = it->lost = 0;
    check_reader(it, answer);
}

size_t known_bytes(const struct session *it) {
    return (in_memory(it) ? it->image->reading.before : it->image->reading.pixels) * it->channels;
}

/* A piece that may come from a file that is cut, or has a wrong end marker, is refused at its end or somewhat earlier; a
   slice once fewer bytes are left than an end marker has. */
void check_refused_piece(struct session *it, size_t i, size_t size) {
    const struct answer *answer = &it->answers[i + 1];
    struct reading reading = it->image->reading;
    if (reading.verdict == WHOLE || it->given + size + AHEAD < known_bytes(it)) {
        differ("a piece is refused, error", NONE, answer->error);
    } else {
        refused_as(refusal_here(it, reading), answer);
        if (it->way == STREAM_SOURCE) same("bytes taken", it->at + reading.taken, answer->bytes);
    }
}

int can_give(const struct session *it, size_t count) {
    struct reading reading = it->image->reading;
    return count <= reading.pixels * it->channels && (count < it->total || reading.verdict == WHOLE);
}

static void check_piece(struct session *it, size_t i) {
    const struct answer *answer = &it->answers[i + 1];
    const struct act *act = &it->acts[i];
    size_t left = it->total - it->given, size = act->size < left ? act->size : left;
    uint8_t *out = it->out + act->at;
    int is_done = 0;
    untouched("later bytes", out + size, act->size - size);
    if (size == 0) {
        refused_as((struct refusal){0}, answer);
        same("size", 0, answer->size);
    } else if (it->is_refused) {
        refused_as((struct refusal){BUFFER_END, 0, 0, 0}, answer);
        untouched("the buffer", out, size);
        same("calls of the reader", it->answers[i].calls, answer->calls);
    } else if (is_hit(it, i + 1)) {
        refused_as(fault(&it->plan, EARLY_END), answer);
        it->has_fault = it->is_refused = 1, it->asked = size;
    } else if (answer->error) {
        check_refused_piece(it, i, size);
        it->is_refused = 1, it->refused_act = i, it->asked = size;
    } else if (!can_give(it, it->given + size)) {
        differ("a piece isn't refused, size", 0, answer->size);
    } else {
        same("size", size, answer->size);
        same_bytes("pixels", raw_of(it->file, it->image, it->channels) + it->given, out, size);
        is_done = 1;
    }
    if (is_done) it->given += size;
    same("left", it->total - it->given, answer->left);
}

/* How many bytes stood ahead before an act: by a session that ends there. */
static size_t ahead_before(const struct session *it, size_t i) {
    static struct act acts[ACTS];
    static struct answer answers[ACTS + 1];
    memcpy(acts, it->acts, sizeof acts);
    memset(answers, 0, sizeof answers);
    acts[i] = (struct act){.kind = INTO};
    uint8_t *out = malloc(it->size + 1);
    fuzz_decode(it->way, &it->plan, &it->target, it->file->bytes, it->file->len, acts, i + 1, out, it->size, answers, i + 2);
    free(out);
    return answers[i + 1].ahead;
}

/* How far behind the image's start a reader may stand that gave so many raw bytes, and perhaps read more for a read that was
   refused: behind whole chunks, which give what it gave, and decoded ahead no more than it may. */
static void stands_within(struct session *it, const struct answer *answer) {
    struct reading reading = it->image->reading;
    const uint8_t *bytes = it->file->bytes + it->at;
    size_t len = it->file->len - it->at, count = pixel_count(it->file->header), from = it->at, c = it->channels;
    size_t least = (it->given + it->lost + c - 1) / c, most = (it->given + it->lost + AHEAD) / c;
    if (it->has_fault) most += it->asked / c + 1;
    struct walked low = model_walk(bytes, len, count, len, least), high = model_walk(bytes, len, count, len, most + 1);
    stands(it, answer, low.at, high.pixels > most ? high.at : reading.taken);
    size_t at = it->at - from;
    /* A reader that failed may stand within a chunk. */
    if (it->has_fault || (at == reading.taken && it->given + it->lost + AHEAD >= reading.pixels * c)) return;
    struct walked here = model_walk(bytes, len, count, at, count);
    same("a place between chunks", here.at, at);
    if (here.pixels > most) differ("pixels decoded ahead", most, here.pixels);
}

/* The decoder comes back: behind the image, before it, or in between. */
static void check_into(struct session *it, size_t i) {
    const struct answer *answer = &it->answers[i + 1];
    struct reading reading = it->image->reading;
    int is_broken_stream = it->is_refused && !in_memory(it) && !it->has_fault && !it->lost;
    refused_as(none, answer);
    it->is_pieces = 0;
    if (it->given == it->total || is_broken_stream) stands(it, answer, reading.taken, reading.taken);
    else if (it->given == 0 && !it->is_refused) stands(it, answer, 0, 0);
    else stands_within(it, answer);
    if (in_memory(it) && it->is_refused && !it->lost && it->refused_act < ACTS && !it->had_no_memory)
        same("bytes ahead after a piece that was refused", ahead_before(it, it->refused_act), answer->ahead);
}

static void check_finish(struct session *it, size_t i) {
    const struct answer *answer = &it->answers[i + 1];
    struct reading reading = it->image->reading;
    struct refusal why = refusal_here(it, reading);
    if (it->is_refused) why = spent, same("calls of the reader", it->answers[i].calls, answer->calls);
    else if (is_hit(it, i + 1)) why = fault(&it->plan, EARLY_END);
    if (why.error == PADDING && counts_bytes(it)) same("bytes taken", it->at + reading.taken, answer->bytes);
    it->is_pieces = 0;
    it->is_over = refused_as(why, answer);
    if (!it->is_over) stands(it, answer, reading.taken, reading.taken);
}

static void check_act(struct session *it, size_t i) {
    const struct act *act = &it->acts[i];
    if (it->is_pieces) {
        if (act->kind == READ) check_piece(it, i);
        else if (act->kind == INTO) check_into(it, i);
        else if (act->kind == FINISH) check_finish(it, i);
        else if (act->kind == SKIP) check_skip(it, i);
        else if (act->kind == RECTANGLE) check_rectangle(it, i);
        else check_beside(it, i);
        if (it->is_pieces) check_reader(it, &it->answers[i + 1]);
    } else if (act->kind == TO_BUF || act->kind == TO_VEC) {
        check_whole(it, i, act->size);
    } else {
        if (act->kind == IN_RGB) it->channels = 3;
        if (act->kind == IN_RGBA) it->channels = 4;
        if (act->kind == PIXELS) start_pieces(it, &it->answers[i + 1], 0);
        else stands(it, &it->answers[i + 1], 0, 0);
    }
}

/* The making of a reader that begins behind rows or raw bytes. Only an index of rows allocates. */
static int check_front(struct session *it) {
    const struct answer *answer = &it->answers[0];
    struct front front = it->target.front;
    size_t row = (size_t)it->file->header.width * front.channels;
    if (has_failed && it->way == OF_ROWS && answer->error == MEMORY) return 0;
    if (refused_as(none, answer)) return 0;
    it->channels = front.channels, it->at = 14;
    start_pieces(it, answer, it->way == OF_ROWS ? front.rows * row : front.bytes);
    return 1;
}

/* The making of the decoder, and whether there is one. */
static int check_making(struct session *it) {
    const struct answer *answer = &it->answers[0];
    struct refusal why = it->file->why;
    if (it->way >= DECODERS) return check_front(it);
    if (!in_memory(it) && it->file->len < 14) why = (struct refusal){IO, EARLY_END, 0, 0};
    if (is_hit(it, 0)) why = fault(&it->plan, EARLY_END);
    /* A reader's buffer found no memory. */
    if (has_failed && answer->error == IO && answer->first == NO_MEMORY) return 0;
    if (counts_bytes(it) && it->file->len >= 14 && !is_hit(it, 0)) same("bytes of the header", 14, answer->bytes);
    if (refused_as(why, answer)) return 0;
    it->channels = it->file->header.channels;
    stands(it, answer, 14, 14);
    return 1;
}

void check_session(struct session *it) {
    check_opened(it);
    for (size_t i = 0; i <= it->count; i++) same("flushes", 0, it->answers[i].flushes);
    if (!check_making(it)) return;
    for (size_t i = 0; i < it->count && !it->is_over; i++) {
        check_act(it, i);
        size_t end = it->acts[i].at + it->acts[i].size;
        untouched("bytes past the buffer", it->out + end, GUARD);
    }
    if (has_failed) differ("an allocation that failed is reported", 1, 0);
}

/* How long the pieces are that are read: one size, or any. */
static size_t piece_size(struct random *random, size_t scheme, size_t needed, size_t row) {
    switch (scheme) {
    case 0:
        return row;
    case 1:
        return below(random, 8);
    case 2:
        return below(random, row + 1);
    case 3:
        return below(random, needed + 10);
    case 4:
        return below(random, needed / 8 + 2);
    default:
        return needed + below(random, 10);
    }
}

void add_act(struct session *it, uint32_t kind, size_t size, size_t *at) {
    if (it->count == ACTS || *at + size + GUARD > OUT_ROOM) return;
    it->acts[it->count++] = (struct act){.kind = kind, .at = *at, .size = size};
    *at += size + GUARD;
}

void add_count(struct session *it, uint32_t kind, uint32_t count, size_t *at) {
    size_t i = it->count;
    add_act(it, kind, 0, at);
    if (it->count > i) it->acts[i].row = count;
}

void plan_reader(struct random *random, struct session *it) {
    it->plan.most = ONE_OF(random, 1, 2, 3, 5, 14, 100, 100000, 100000);
    it->plan.capacity = ONE_OF(random, 1, 2, 3, 7, 16, 64, 100, 1000, 8192);
    it->plan.end = below(random, 4);
    size_t likely = 4 + it->file->len / (it->plan.most < 100 ? it->plan.most : 5);
    it->plan.bad = chance(random, 700) ? 0 : 1 + below(random, chance(random, 500) ? 4 : likely);
}

/* Plans a session: which calls are made, and how the reader goes. */
static size_t plan_session(struct random *random, struct session *it) {
    struct header header = it->file->header;
    size_t needed = it->file->why.error ? 10 : pixel_count(header) * header.channels, at = 0;
    size_t small = needed < OUT_ROOM / 16 ? needed : 0, row = (size_t)header.width * header.channels;
    /* In the other number of channels. */
    size_t other = header.channels == 3 ? small / 3 * 4 : small / 4 * 3;
    for (size_t k = between(random, 1, 3); k > 0; k--) {
        if (chance(random, 300)) add_act(it, between(random, IN_RGB, IN_RGBA), 0, &at);
        if (chance(random, 350)) {
            add_act(it, TO_BUF, buffer_size(random, chance(random, 300) ? other : small), &at);
        } else if (chance(random, 400)) {
            add_act(it, TO_VEC, small + small / 3 + 1, &at);
        } else {
            size_t scheme = below(random, 6);
            add_act(it, PIXELS, 0, &at);
            for (size_t n = between(random, 1, 14); n > 0; n--) {
                if (chance(random, 150)) add_count(it, SKIP, skipped_rows(random, header.height), &at);
                else if (chance(random, 150)) add_rectangle(random, it, row, header.height, &at);
                else add_act(it, READ, piece_size(random, scheme, small, row < small ? row : small), &at);
            }
            if (chance(random, 500)) add_act(it, READ, small + small / 3 + 1, &at);
            add_act(it, chance(random, 500) ? INTO : FINISH, 0, &at);
        }
    }
    plan_reader(random, it);
    return it->target.at = at;
}

void run_session(struct random *random, struct subject_file *file, enum way way) {
    static struct session session;
    memset(&session, 0, sizeof session);
    session.file = file, session.way = way;
    session.size = plan_session(random, &session);
    session.out = fresh(session.size);
    begin(way_names[way], chance(random, 60) ? between(random, 1, 3) : 0);
    fuzz_decode(way, &session.plan, &session.target, file->bytes, file->len, session.acts, session.count, session.out,
                session.size, session.answers, session.count + 1);
    end();
    check_session(&session);
}
