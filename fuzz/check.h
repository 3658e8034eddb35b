/* What the checks share: memory with guards, allocations that fail, and differences that are reported. */
#ifndef CHECK_H
#define CHECK_H
#include <stddef.h>
#include <stdint.h>

#include "entries.h"
#include "generate.h"
#include "model.h"
#include "random.h"

/* The case that is being checked, for reports. */
struct subject { char kind; unsigned long long seed, number; const uint8_t *bytes; size_t len; const char *call; };
extern struct subject subject;
extern unsigned long long differences, calls;

/* Reports that a call gave something else than the model says. After ten the process ends. */
void differ(const char *what, unsigned long long expected, unsigned long long found);
void same(const char *what, unsigned long long expected, unsigned long long found);
/* That bytes are as expected, and that bytes are as `fresh` made them. */
void same_bytes(const char *what, const uint8_t *expected, const uint8_t *found, size_t len);
void untouched(const char *what, const uint8_t *bytes, size_t len);

#define GUARD 40
/* Memory for what calls write: `size` bytes, and GUARD more, of one value. */
uint8_t *fresh(size_t size);
#define OUT_ROOM (24u << 20)

/* A call begins: its allocation `fail_at` fails, if that isn't 0. After its end `has_failed` says whether one did. */
void begin(const char *call, size_t fail_at);
void end(void);
extern int has_failed;

/* Whether an answer has the error that is expected, with its fields. */
int refused_as(struct refusal why, const struct answer *answer);
void check_header(struct header header, const struct answer *answer);
/* That an answer is in these channels, and says how long their rows are. */
void check_rows_of(struct header header, uint32_t channels, const struct answer *answer);

/* How a writer goes that gets so many bytes. */
struct plan make_plan(struct random *random, size_t size);
/* Whether a plan's bad call was made, and its error: `none` if that call gives or takes no byte. */
int is_bad(const struct plan *plan, size_t calls);
struct refusal fault(const struct plan *plan, enum io_kind none);

void check_file(struct random *random, const struct bytes *file);
void check_image(struct random *random, struct header header, const uint8_t *raw);
void check_other_sizes(struct random *random);
#endif
