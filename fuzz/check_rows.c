/* Rows that are read and not handed out, or in part. */
#include "session.h"

/* What `left` says of rows that were refused is compared with a loop, in a session that copies (`check_loops`). */
void check_skip(struct session *it, size_t i) {
    size_t left = it->total - it->given, count = (size_t)it->file->header.width * it->channels * it->acts[i].row;
    struct steps steps = {.piece = SKIPPED};
    if (count > left || (count > 0 && it->is_refused)) check_unchanged(it, i, spent);
    else if (check_gave(it, i, count, left - it->answers[i + 1].left, steps) < count) it->wants_loops = 1;
}

void same_rectangle(const struct act *act, const uint8_t *raw, size_t row, const uint8_t *out) {
    for (uint32_t k = 0; k < act->row; k++)
        same_bytes("the part of a row", raw + k * row + act->left, out + k * (size_t)act->part, act->part);
}

void check_rectangle(struct session *it, size_t i) {
    const struct act *act = &it->acts[i];
    size_t left = it->total - it->given, row = (size_t)it->file->header.width * it->channels;
    size_t count = row * act->row, size = (size_t)act->part * act->row, from = it->given;
    struct steps steps = {SKIPPED, row, act->left, act->part};
    uint8_t *out = it->out + act->at;
    struct refusal why = none;
    if ((size_t)act->left + act->part > row || count > left) why = spent;
    else if (size > act->size) why = (struct refusal){TOO_SMALL, act->size, size, 0};
    else if (count > 0 && it->is_refused) why = spent;
    if (why.error) {
        check_unchanged(it, i, why);
        untouched("the buffer", out, act->size);
        return;
    }
    untouched("later bytes", out + size, act->size - size);
    if (check_gave(it, i, count, left - it->answers[i + 1].left, steps) < count) it->wants_loops = 1;
    else if (!it->answers[i + 1].error) same_rectangle(act, raw_of(it->file, it->image, it->channels) + from, row, out);
}

/* Planning */

uint32_t skipped_rows(struct random *random, uint32_t height) {
    if (chance(random, 20)) return ONE_OF(random, height + 1, 0x7fffffff, 0xffffffff);
    return below(random, chance(random, 500) ? 4 : height + 2);
}

struct act some_rectangle(struct random *random, size_t row, uint32_t height) {
    uint32_t left = chance(random, 200) ? 0 : below(random, row + 1), most = row - left;
    struct act act = {.kind = RECTANGLE, .left = left, .row = skipped_rows(random, height)};
    act.part = chance(random, 200) ? most : below(random, most + 1);
    if (chance(random, 30)) act.part += 1 + below(random, 5);
    if (chance(random, 10)) act.left = ONE_OF(random, row + 1, 0xffffffff);
    size_t size = (size_t)act.part * act.row;
    act.size = size > OUT_ROOM / 16 || chance(random, 50) ? below(random, 100) : size + (chance(random, 300) ? below(random, 20) : 0);
    return act;
}

void add_rectangle(struct random *random, struct session *it, size_t row, uint32_t height, size_t *at) {
    struct act act = some_rectangle(random, row, height);
    size_t i = it->count;
    add_act(it, RECTANGLE, act.size, at);
    if (it->count > i) it->acts[i].left = act.left, it->acts[i].part = act.part, it->acts[i].row = act.row;
}
