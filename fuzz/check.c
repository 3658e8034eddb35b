#include "check.h"

#include <stdio.h>
#include <stdlib.h>
#include <string.h>

#define SHOWN 400
#define UNTOUCHED 0xa5

struct subject subject;
unsigned long long differences, calls;

static void show(const uint8_t *bytes, size_t len) {
    for (size_t i = 0; i < len && i < SHOWN; i++) printf("%02x", bytes[i]);
    printf(len > SHOWN ? ".. (%zu bytes)\n" : "\n", len);
}

void differ(const char *what, unsigned long long expected, unsigned long long found) {
    printf("fuzz: seed %llu, case %c%llu: %s: %s: expected %llu (0x%llx), found %llu (0x%llx)\n", subject.seed, subject.kind,
           subject.number, subject.call, what, expected, expected, found, found);
    printf("      bytes: ");
    show(subject.bytes, subject.len);
    if (++differences < 10) return;
    printf("fuzz: ten differences, stopped\n");
    exit(1);
}

void same(const char *what, unsigned long long expected, unsigned long long found) {
    if (expected != found) differ(what, expected, found);
}

void same_bytes(const char *what, const uint8_t *expected, const uint8_t *found, size_t len) {
    if (memcmp(expected, found, len) == 0) return;
    size_t i = 0;
    while (expected[i] == found[i]) i++;
    printf("      first difference at byte %zu of %zu\n", i, len);
    differ(what, expected[i], found[i]);
}

void untouched(const char *what, const uint8_t *bytes, size_t len) {
    if (len == 0 || (bytes[0] == UNTOUCHED && memcmp(bytes, bytes + 1, len - 1) == 0)) return;
    size_t i = 0;
    while (bytes[i] == UNTOUCHED) i++;
    printf("      byte %zu of %zu that should be as before\n", i, len);
    differ(what, UNTOUCHED, bytes[i]);
}

uint8_t *fresh(size_t size) {
    static uint8_t *room;
    if (!room) room = malloc(OUT_ROOM + GUARD);
    if (!room || size > OUT_ROOM) exit(printf("fuzz: no room for %zu bytes\n", size));
    memset(room, UNTOUCHED, size + GUARD);
    return room;
}

/* Allocations: the linker gives every call of malloc and realloc to these. */

int has_failed;
static int is_counting;
static size_t allocations, bad_allocation;
void *__real_malloc(size_t size);
void *__real_realloc(void *block, size_t size);

static int fails(void) {
    if (!is_counting || ++allocations != bad_allocation) return 0;
    has_failed = 1;
    return 1;
}

void *__wrap_malloc(size_t size) { return fails() ? NULL : __real_malloc(size); }
void *__wrap_realloc(void *block, size_t size) { return fails() ? NULL : __real_realloc(block, size); }

void begin(const char *call, size_t fail_at) {
    subject.call = call;
    calls++;
    has_failed = 0, allocations = 0, bad_allocation = fail_at;
    is_counting = 1;
}

void end(void) { is_counting = 0; }

/* Answers */

int refused_as(struct refusal why, const struct answer *answer) {
    same("error", why.error, answer->error);
    same("the error's first field", why.first, answer->first);
    same("the error's second field", why.second, answer->second);
    same("the error's third field", why.third, answer->third);
    return answer->error != NONE;
}

void check_header(struct header header, const struct answer *answer) {
    same("width", header.width, answer->width);
    same("height", header.height, answer->height);
    same("channels", header.channels, answer->channels);
    same("color space", header.colorspace, answer->colorspace);
    same("n_pixels", pixel_count(header), answer->pixels);
}

void check_rows_of(struct header header, uint32_t channels, const struct answer *answer) {
    same("channels asked for", channels, answer->asked);
    same("bytes_per_row", (size_t)header.width * channels, answer->row);
}

/* Readers and writers */

struct plan make_plan(struct random *random, size_t size) {
    struct plan plan = {.most = ONE_OF(random, 1, 2, 3, 7, 100, 1000, 100000, 100000), .end = below(random, 4)};
    size_t likely = 4 + size / (plan.most < 4096 ? plan.most : 4096);
    plan.bad = chance(random, 600) ? 0 : 1 + below(random, likely);
    return plan;
}

int is_bad(const struct plan *plan, size_t calls) { return plan->bad && calls >= plan->bad; }

struct refusal fault(const struct plan *plan, enum io_kind none) {
    const uint64_t kinds[] = {BROKEN, INTERRUPTED, LATE, none};
    return (struct refusal){IO, kinds[plan->end], 0, 0};
}
