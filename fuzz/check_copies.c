/* Copies: raw bytes from a reader of pieces to a writer of pieces beside it, and from and to others. */
#include <string.h>

#include "session.h"

/* The raw bytes that a session's writer was offered. */
static uint8_t offered[4 * (size_t)IMAGE_PIXELS];

static const struct refusal broken = {IO, BROKEN, 0, 0};

static struct refusal wrong_length(const struct session *it, size_t length) {
    return (struct refusal){LENGTH, length, it->target.image.width, it->target.image.height};
}

/* Whether the writer failed in this act: its bad call came, or, if it isn't one with a plan, the act says so. */
static int breaks(const struct session *it, size_t i) {
    const struct answer *answer = &it->answers[i + 1];
    const struct plan *plan = &it->target.plan;
    if (it->target.sink == TO_SINK) return !is_bad(plan, it->answers[i].sent.calls) && is_bad(plan, answer->sent.calls);
    if (it->is_broken || it->acts[i].kind == TO_RAW || answer->error != IO) return 0;
    return answer->first == (it->target.sink == TO_SLICE ? NO_BYTE_TAKEN : NO_MEMORY);
}

/* The writer failed in this act, and had a reason to: its bad call, an allocation, or, seen at the end, a slice that is full. */
static void check_break(struct session *it, size_t i) {
    const struct answer *answer = &it->answers[i + 1];
    it->is_broken = 1;
    if (it->target.sink == TO_SINK) {
        refused_as(fault(&it->target.plan, NO_BYTE_TAKEN), answer);
        same("calls of the writer, the last one the bad one", it->target.plan.bad, answer->sent.calls);
    } else if (it->target.sink == TO_VECTOR) {
        if (!has_failed) differ("a vector finds no memory", 0, 1);
        has_failed = 0, it->had_no_memory = 1;
    }
}

/* The last piece of bytes that went by pieces. */
static size_t last_piece(size_t count) { return count ? (count - 1) % PIECE + 1 : 0; }

static void same_reader(const struct session *it, size_t i) {
    same("left", it->total - it->given, it->answers[i + 1].left);
    same("calls of the reader", it->answers[i].calls, it->answers[i + 1].calls);
}

static void same_writer(const struct session *it, size_t i) {
    if (!it->is_open) return;
    same("raw bytes missing", it->wanted - it->came, it->answers[i + 1].missing);
    same("calls of the writer", it->answers[i].sent.calls, it->answers[i + 1].sent.calls);
}

void check_unchanged(const struct session *it, size_t i, struct refusal why) {
    refused_as(why, &it->answers[i + 1]);
    same_reader(it, i);
    same_writer(it, i);
    same("calls of raw bytes", 0, it->answers[i + 1].raw.calls);
}

/* By what the reader may know of its image: whether it may refuse its next piece of so many raw bytes. Of a source that
   failed it is known how many bytes it gave. */
static int may_refuse(const struct session *it, size_t i, size_t at, size_t size) {
    struct reading reading = it->image->reading;
    if (!is_hit(it, i + 1)) return reading.verdict != WHOLE && at + size + AHEAD >= known_bytes(it);
    if (!counts_bytes(it)) return 1;
    size_t taken = it->answers[i + 1].bytes - it->at, count = pixel_count(it->file->header);
    struct walked walked = model_walk(it->file->bytes + it->at, it->file->len - it->at, count, taken, count);
    /* The bytes may end within a chunk, and a run may go on. */
    return at + size + AHEAD + 62 * it->channels >= walked.pixels * it->channels;
}

/* How many bytes a call asks for at once that was given so many of `count`. */
static size_t next_step(struct steps steps, size_t gave, size_t count) {
    size_t end = count, in = steps.row ? gave % steps.row : 0;
    if (steps.row) end = gave - in + (in < steps.left ? steps.left : steps.row);
    if (steps.row && in == steps.left && steps.part > 0) return steps.part;
    return end - gave < steps.piece ? end - gave : steps.piece;
}

size_t check_gave(struct session *it, size_t i, size_t count, size_t gave, struct steps steps) {
    const struct answer *answer = &it->answers[i + 1];
    size_t least = 0, end;
    while (least < count && !may_refuse(it, i, it->given + least, next_step(steps, least, count))) least += next_step(steps, least, count);
    for (end = least; end < gave && end < count;) end += next_step(steps, end, count);
    if (gave > count || gave < least || end != gave || !can_give(it, it->given + gave)) {
        differ("raw bytes read", least, gave);
        return 0;
    }
    it->given += gave;
    size_t next = gave < count ? next_step(steps, gave, count) : 0;
    if (is_hit(it, i + 1)) {
        refused_as(fault(&it->plan, EARLY_END), answer);
        it->has_fault = it->is_refused = 1, it->asked = next;
    } else if (answer->error && gave < count) {
        check_refused_piece(it, i, next);
        it->is_refused = 1, it->refused_act = gave ? ACTS : i, it->asked = next;
    } else {
        refused_as(none, answer);
        same("raw bytes read", count, gave);
    }
    return gave;
}

/* The reader gave so many raw bytes to a writer that failed: whole pieces, or all. */
static size_t check_gave_broken(struct session *it, size_t count, size_t gave) {
    if (gave > count || (gave < count && gave % PIECE > 0) || !can_give(it, it->given + gave)) {
        differ("raw bytes read", count, gave);
        return 0;
    }
    it->given += gave;
    return gave;
}

/* The writer was offered bytes: it took them, or failed at the last ones, so many. */
static void check_took(struct session *it, size_t i, const uint8_t *bytes, size_t count, size_t last) {
    const struct answer *answer = &it->answers[i + 1];
    memcpy(offered + it->came, bytes, count);
    it->offered = it->came + count;
    it->came = it->offered;
    if (breaks(it, i)) {
        it->came -= last;
        check_break(it, i);
    }
    same("raw bytes missing", it->wanted - it->came, answer->missing);
}

static void check_copy(struct session *it, size_t i) {
    const struct act *act = &it->acts[i];
    size_t left = it->total - it->given, row = (size_t)it->file->header.width * it->channels;
    size_t count = act->kind == COPY ? left : row * act->row;
    if (count > left) check_unchanged(it, i, spent);
    else if (it->is_broken) check_unchanged(it, i, broken);
    else if (count > it->wanted - it->came) check_unchanged(it, i, wrong_length(it, it->came + count));
    else if (count > 0 && it->is_refused) check_unchanged(it, i, spent);
    else {
        /* What `left` says, which is compared with a loop, if it isn't all (`check_loops`). */
        size_t from = it->given, gave = left - it->answers[i + 1].left;
        gave = breaks(it, i) ? check_gave_broken(it, count, gave) : check_gave(it, i, count, gave, (struct steps){.piece = PIECE});
        if (gave < count || it->is_refused) it->wants_loops = 1;
        check_took(it, i, raw_of(it->file, it->image, it->channels) + from, gave, last_piece(gave));
    }
}

/* What goes by pieces through a writer or a reader with a plan: calls and bytes in all, those of the last piece, and why it
   stops before all of them. */
struct passed { struct count all; size_t last; struct refusal why; };

/* Raw bytes to a writer with room for `room` bytes: it is called again for the rest of a piece. */
static struct passed model_to_raw(const struct plan *plan, size_t count, size_t room) {
    struct passed it = {{0, 0}, 0, none};
    for (it.last = 0; it.all.bytes < count;) {
        size_t piece = count - it.all.bytes + it.last < PIECE ? count - it.all.bytes + it.last : PIECE, size = piece - it.last;
        if (size > plan->most) size = plan->most;
        if (size > room - it.all.bytes) size = room - it.all.bytes;
        it.all.calls++;
        if (it.all.calls == plan->bad) it.why = fault(plan, NO_BYTE_TAKEN);
        else if (size == 0) it.why = (struct refusal){IO, NO_BYTE_TAKEN, 0, 0};
        if (it.why.error) return it;
        it.all.bytes += size;
        it.last = it.last + size < piece ? it.last + size : 0;
    }
    return it;
}

/* Raw bytes from a reader that has `len`: each call asks for what is missing, a piece at most. It stops after `most` calls. */
static struct passed model_from_raw(const struct plan *plan, size_t count, size_t len, size_t most) {
    struct passed it = {{0, 0}, 0, none};
    while (it.all.bytes < count && it.all.calls < most) {
        size_t missing = count - it.all.bytes, size = missing < PIECE ? missing : PIECE;
        if (size > plan->most) size = plan->most;
        if (size > len - it.all.bytes) size = len - it.all.bytes;
        it.all.calls++;
        if (it.all.calls == plan->bad) it.why = fault(plan, EARLY_END);
        else if (size == 0) it.why = (struct refusal){IO, EARLY_END, 0, 0};
        if (it.why.error) return it;
        it.all.bytes += size, it.last = size;
    }
    return it;
}

/* Raw bytes to a writer of `act->size` bytes. If that fails, the reader is spent, and `left` as before the piece. */
static void check_to_raw(struct session *it, size_t i) {
    const struct act *act = &it->acts[i];
    const struct answer *answer = &it->answers[i + 1];
    size_t left = it->total - it->given, from = it->given, sent = answer->raw.bytes;
    const uint8_t *raw = raw_of(it->file, it->image, it->channels) + from;
    if (left > 0 && it->is_refused) {
        check_unchanged(it, i, spent);
        untouched("the raw bytes", it->out + act->at, act->size);
        return;
    }
    struct passed all = model_to_raw(&it->target.raw, left, act->size);
    if (all.why.error && answer->raw.calls == all.all.calls) {
        size_t before = all.all.bytes - all.last;
        refused_as(all.why, answer);
        same("raw bytes sent", all.all.bytes, sent);
        it->lost = left - before < PIECE ? left - before : PIECE;
        if (!can_give(it, from + before + it->lost)) differ("a piece isn't refused", 0, from + before);
        it->given += before;
        it->is_refused = 1, it->refused_act = ACTS;
        same("left", it->total - it->given, answer->left);
    } else {
        size_t gave = check_gave(it, i, left, sent, (struct steps){.piece = PIECE});
        struct passed some = model_to_raw(&it->target.raw, gave, act->size);
        same("a fault of the raw bytes' writer", 0, some.why.error);
        same("calls of the raw bytes' writer", some.all.calls, answer->raw.calls);
        same("raw bytes sent", gave, sent);
    }
    if (sent > act->size) {
        differ("raw bytes sent", act->size, sent);
        return;
    }
    same_bytes("raw bytes", raw, it->out + act->at, sent);
    untouched("later bytes", it->out + act->at + sent, act->size - sent);
    same_writer(it, i);
}

/* How many of the file's bytes an act gets as raw ones. */
static size_t raw_size(const struct session *it, size_t i) {
    return it->acts[i].row < it->file->len ? it->acts[i].row : it->file->len;
}

/* Raw bytes from a reader that has as many as the writer lacks, or fewer, or more. None is lost, but by the writer. */
static void check_from_raw(struct session *it, size_t i) {
    const struct answer *answer = &it->answers[i + 1];
    size_t missing = it->wanted - it->came;
    same_reader(it, i);
    if (it->is_broken) {
        check_unchanged(it, i, broken);
        return;
    }
    size_t most = breaks(it, i) ? answer->raw.calls : SIZE_MAX;
    struct passed passed = model_from_raw(&it->target.raw, missing, raw_size(it, i), most);
    same("calls of the raw bytes' reader", passed.all.calls, answer->raw.calls);
    same("raw bytes read", passed.all.bytes, answer->raw.bytes);
    if (breaks(it, i)) same("a fault of the raw bytes' reader", 0, passed.why.error);
    else refused_as(passed.why, answer);
    check_took(it, i, it->file->bytes, passed.all.bytes, passed.last);
}

static void check_write(struct session *it, size_t i) {
    size_t size = raw_size(it, i);
    same_reader(it, i);
    if (it->is_broken) check_unchanged(it, i, broken);
    else if (size > it->wanted - it->came) check_unchanged(it, i, wrong_length(it, it->came + size));
    else {
        if (!breaks(it, i)) refused_as(none, &it->answers[i + 1]);
        check_took(it, i, it->file->bytes, size, size);
    }
}

static void check_close(struct session *it, size_t i) {
    const struct answer *answer = &it->answers[i + 1];
    same_reader(it, i);
    it->is_open = 0;
    if (breaks(it, i)) {
        check_break(it, i);
        return;
    }
    int is_done = it->came == it->wanted;
    it->is_finished = !refused_as(it->is_broken ? broken : is_done ? none : wrong_length(it, it->came), answer);
    if (!it->is_finished) same("calls of the writer", it->answers[i].sent.calls, answer->sent.calls);
    else it->kept_at = i + 1;
}

/* The writer comes back as it stands: nothing more is sent. */
static void check_unwrap(struct session *it, size_t i) {
    refused_as(none, &it->answers[i + 1]);
    same_reader(it, i);
    same("calls of the writer", it->answers[i].sent.calls, it->answers[i + 1].sent.calls);
    it->is_open = 0, it->kept_at = i + 1;
}

void check_beside(struct session *it, size_t i) {
    uint32_t kind = it->acts[i].kind;
    if (it->is_open) same("style", it->target.image.style, it->answers[i].style);
    if (kind == TO_RAW) check_to_raw(it, i);
    else if (!it->is_open) return;
    else if (kind == COPY || kind == COPY_ROWS) check_copy(it, i);
    else if (kind == FROM_RAW) check_from_raw(it, i);
    else if (kind == WRITE) check_write(it, i);
    else if (kind == CLOSE) check_close(it, i);
    else if (kind == UNWRAP) check_unwrap(it, i);
}

/* The making of the writer, before the decoder. */
void check_opened(struct session *it) {
    const struct answer *answer = &it->answers[0];
    struct picture image = it->target.image;
    it->wanted = (size_t)image.width * image.height * image.channels;
    it->is_open = it->wanted > 0 && answer->missing > 0;
    if (it->is_open) same("raw bytes missing", it->wanted, answer->missing);
    if (it->is_open || it->wanted == 0 || is_bad(&it->target.plan, answer->sent.calls)) return;
    if (!has_failed) differ("a writer is made", 1, 0);
    has_failed = 0, it->had_no_memory = 1;
}

/* The file of an image that begins with what the writer was offered. */
static size_t offered_file(const struct session *it, uint8_t *file) {
    static struct pixel pixels[IMAGE_PIXELS];
    struct picture image = it->target.image;
    struct header header = {image.width, image.height, image.channels, image.colorspace};
    memset(offered + it->offered, 0, it->wanted - it->offered);
    model_pixels(offered, pixel_count(header), header.channels, pixels);
    return model_file(header, pixels, image.style, file);
}

/* The writer sent a beginning of each file whose image begins with what it was offered, or all of it. A vector that doesn't
   come back tells nothing; a slice's bytes stand in its room, the last ones that aren't as before. */
void check_sent(const struct session *it) {
    static uint8_t file[22 + 5 * (size_t)IMAGE_PIXELS];
    const struct answer *kept = &it->answers[it->kept_at ? it->kept_at : it->count];
    size_t room = it->size - it->target.at, size = offered_file(it, file), sent = it->answers[it->count].sent.bytes;
    const uint8_t *out = it->out + it->target.at;
    int is_back = it->kept_at || it->is_open;
    if (it->target.sink == TO_SINK && is_back) same("bytes that the writer has", sent, kept->kept);
    if (it->target.sink == TO_VECTOR) sent = is_back ? kept->kept : 0;
    if (it->target.sink == TO_SLICE) {
        for (sent = room; sent > 0 && out[sent - 1] == out[room]; sent--) {}
        if (is_back && sent > room - kept->kept) differ("bytes in the slice", room - kept->kept, sent);
        if (is_back) sent = room - kept->kept;
        if (it->is_broken && (size <= room || (is_back && sent < room))) differ("a slice is full", room, sent);
    }
    if (sent > size || (it->is_finished && sent < size)) {
        differ("bytes sent", size, sent);
        return;
    }
    same_bytes("the file's beginning", file, out, sent);
    untouched("bytes behind those sent", out + sent, room - sent + GUARD);
}

/* Planning */

/* A writer's image, mostly of the reader's size, and what it writes to. */
static struct target plan_writer(struct random *random, struct header header) {
    struct picture image = {header.width, header.height, between(random, 3, 4), below(random, 2), below(random, 3)};
    if (pixel_count(header) > IMAGE_PIXELS || chance(random, 300))
        image.width = between(random, 1, 60), image.height = between(random, 1, 100);
    size_t pixels = (size_t)image.width * image.height;
    uint32_t sink = ONE_OF(random, TO_SINK, TO_SINK, TO_SINK, TO_SLICE, TO_VECTOR);
    return (struct target){image, make_plan(random, pixels * 3), make_plan(random, pixels * 3), 0, sink, 0, {0, 0, 0, 0}};
}

/* What is left of a session's reader, and missing to its writer, if no call was refused. */
struct sides { size_t left, row, missing; };

/* Adds a call that copies, or one before it of reader or writer. */
static void plan_copy(struct random *random, struct session *it, struct sides *sides, size_t *at) {
    size_t len = it->file->len, left = sides->left, missing = sides->missing, size;
    switch (below(random, 8)) {
    case 0:
        /* As many bytes left as missing. */
        size = left > missing ? left - missing : missing - left < len ? missing - left : len;
        if (left <= missing) add_count(it, WRITE, size, at), sides->missing -= size;
        else if (size < OUT_ROOM / 16) add_act(it, READ, size, at), sides->left -= size;
        return;
    case 1:
        size = below(random, left < 9000 ? left + 2 : 9000);
        add_act(it, READ, size, at), sides->left -= size < left ? size : left;
        return;
    case 2:
        size = below(random, missing < len ? missing + 2 : len + 1);
        add_count(it, WRITE, size, at), sides->missing -= size < missing ? size : 0;
        return;
    case 3:
        size = below(random, left / sides->row + 2);
        add_count(it, COPY_ROWS, size, at);
        size *= sides->row;
        if (size <= left && size <= missing) sides->left -= size, sides->missing -= size;
        return;
    case 4:
        if (chance(random, 500)) {
            add_count(it, FROM_RAW, below(random, len + 1), at);
        } else if (left < OUT_ROOM / 16) {
            add_act(it, TO_RAW, buffer_size(random, left + 1), at), sides->left = 0;
            if (chance(random, 500)) add_act(it, TO_RAW, left + 1, at);
        }
        return;
    case 5:
        size = skipped_rows(random, left / sides->row);
        add_count(it, SKIP, size, at);
        size *= sides->row;
        if (size <= left) sides->left -= size;
        return;
    case 6:
        add_rectangle(random, it, sides->row, left / sides->row, at);
        if (it->count && it->acts[it->count - 1].kind == RECTANGLE) size = sides->row * it->acts[it->count - 1].row;
        else size = 0;
        if (size <= left) sides->left -= size;
        return;
    default:
        add_count(it, COPY, 0, at);
        if (left <= missing) sides->missing -= left, sides->left = 0;
    }
}

/* Where a reader begins that isn't a decoder's. Returns how many raw bytes are left. */
static size_t plan_front(struct random *random, struct session *it, uint32_t channels) {
    struct header header = it->file->header;
    size_t total = pixel_count(header) * channels, row = (size_t)header.width * channels;
    it->target.front = (struct front){channels, ONE_OF(random, 0, 1, 2, 3, 8, 100), 0, 0};
    if (it->way == OF_ROWS) it->target.front.rows = below(random, header.height + 1);
    else it->target.front.bytes = chance(random, 300) ? total : below(random, total < 5000 ? total + 1 : 5000);
    return total - (it->way == OF_ROWS ? it->target.front.rows * row : it->target.front.bytes);
}

/* Plans a session that copies, to a writer whose bytes stand behind the others in the buffer. */
static size_t plan_copies(struct random *random, struct session *it) {
    struct header header = it->file->header;
    uint32_t channels = between(random, 3, 4);
    struct sides sides = {pixel_count(header) * channels, (size_t)header.width * channels, 0};
    size_t at = 0;
    it->target = plan_writer(random, header);
    sides.missing = (size_t)it->target.image.width * it->target.image.height * it->target.image.channels;
    if (it->way < DECODERS) {
        add_act(it, channels == 3 ? IN_RGB : IN_RGBA, 0, &at);
        add_act(it, PIXELS, 0, &at);
    } else {
        sides.left = plan_front(random, it, channels);
    }
    for (size_t n = between(random, 1, 7); n > 0; n--) plan_copy(random, it, &sides, &at);
    for (int k = below(random, 3); k > 0; k--) add_count(it, FROM_RAW, it->file->len, &at);
    if (chance(random, 800)) add_act(it, chance(random, 300) ? UNWRAP : CLOSE, 0, &at);
    add_act(it, chance(random, 500) ? INTO : FINISH, 0, &at);
    plan_reader(random, it);
    it->target.at = at;
    size_t most = 22 + 5 * (size_t)it->target.image.width * it->target.image.height;
    /* The header has room. */
    return at + (it->target.sink == TO_SLICE && chance(random, 300) ? between(random, 14, most) : most);
}

/* A session that copies makes two allocations at most, before its calls, if no vector grows: a third one fails. */
static void make_calls(struct session *it, size_t fail_at) {
    it->out = fresh(it->size);
    begin(way_names[it->way], fail_at);
    fuzz_decode(it->way, &it->plan, &it->target, it->file->bytes, it->file->len, it->acts, it->count, it->out, it->size,
                it->answers, it->count + 1);
    end();
}

/* A copy does what a loop over `read` and `write` does, by pieces: the same session once more, with loops in place of copies,
   gives the same answers and writes the same bytes. */
static void check_loops(struct session *it, size_t fail_at, int had_failed) {
    static uint8_t before[OUT_ROOM + GUARD];
    static struct session loops;
    memcpy(before, it->out, it->size + GUARD);
    loops = *it;
    memset(loops.answers, 0, sizeof loops.answers);
    loops.target.by_loops = 1;
    make_calls(&loops, fail_at);
    same("by a loop: an allocation that fails", had_failed, has_failed);
    for (size_t i = 0; i <= it->count; i++) {
        const struct answer *one = &it->answers[i], *other = &loops.answers[i];
        if (memcmp(one, other, sizeof *one) == 0) continue;
        same("by a loop: error", other->error, one->error);
        same("by a loop: left", other->left, one->left);
        same("by a loop: missing", other->missing, one->missing);
        same("by a loop: calls of the reader", other->calls, one->calls);
        same("by a loop: calls of the writer", other->sent.calls, one->sent.calls);
        same("by a loop: bytes sent", other->sent.bytes, one->sent.bytes);
        same("by a loop: calls of raw bytes", other->raw.calls, one->raw.calls);
        differ("by a loop: the same answer", i, i);
        return;
    }
    same_bytes("by a loop: bytes", loops.out, before, it->size + GUARD);
}

static void run_copies(struct random *random, struct subject_file *file, enum way way) {
    static struct session session;
    memset(&session, 0, sizeof session);
    session.file = file, session.way = way;
    session.size = plan_copies(random, &session);
    if (session.size > OUT_ROOM) return;
    size_t fail_at = chance(random, 60) ? between(random, 1, 3) : 3;
    if (session.target.sink == TO_VECTOR) fail_at = chance(random, 300) ? between(random, 1, 8) : 0;
    make_calls(&session, fail_at);
    int had_failed = has_failed;
    check_session(&session);
    check_sent(&session);
    if (session.wants_loops || session.is_broken || chance(random, 200)) check_loops(&session, fail_at, had_failed);
}

/* Images of more than a piece come more often. Only whole ones are begun in the middle. */
void check_copies(struct random *random, struct subject_file *file) {
    if (file->why.error) return;
    struct reading reading = image_at(file, 14)->reading;
    int is_long = reading.pixels > PIECE / 4;
    int is_known = reading.verdict == WHOLE && pixel_count(file->header) <= IMAGE_PIXELS;
    for (int k = is_long ? 3 : chance(random, 150); k > 0; k--)
        run_copies(random, file, below(random, is_known ? WAYS : DECODERS));
}
