/* The entries of entries.rt.txt, its structs and its numbers. A slice is a pointer and a length. */
#ifndef ENTRIES_H
#define ENTRIES_H
#include <stddef.h>
#include <stdint.h>

struct count { size_t calls, bytes; };
struct answer {
    uint64_t error, first, second, third;
    size_t size, left, ahead, calls, bytes;
    uint32_t width, height, channels, colorspace, asked, style;
    size_t pixels, row, flushes, kept, missing;
    struct count sent, raw;
};
struct act { uint32_t kind, row; size_t at, size; uint32_t left, part; };
struct plan { size_t most, bad; uint32_t end; size_t capacity; };
struct picture { uint32_t width, height, channels, colorspace, style; };
struct front { uint32_t channels, every, rows; size_t bytes; };
struct target { struct picture image; struct plan plan, raw; size_t at; uint32_t sink, by_loops; struct front front; };

enum act_kind { TO_BUF, TO_VEC, IN_RGB, IN_RGBA, PIXELS, READ, INTO, FINISH, ROWS, COPY, COPY_ROWS, TO_RAW, FROM_RAW, WRITE,
                CLOSE, UNWRAP, SKIP, RECTANGLE };
enum error { NONE, MAGIC, CHANNELS, COLORSPACE, DIMENSIONS, LENGTH, TOO_SMALL, BUFFER_END, PADDING, IO, MEMORY };
enum io_kind { BROKEN = 1, INTERRUPTED, LATE, EARLY_END, NO_BYTE_TAKEN, NO_MEMORY, OTHER };
/* Ways to make a decoder: of a slice; of a stream: a slice, a source, a source behind a buffer; of a reader with a buffer:
   a slice, a source that shows its bytes, a source behind a buffer, a cursor. Ways to make a reader of pieces by no decoder:
   by an index of rows, a mark and a clone. */
enum way { OF_SLICE, STREAM_SLICE, STREAM_SOURCE, STREAM_BUFFER, SHOWN_SLICE, SHOWN_SOURCE, SHOWN_BUFFER, SHOWN_CURSOR,
           DECODERS, OF_ROWS = DECODERS, OF_MARK, OF_CLONE, WAYS };
enum sink { TO_SINK, TO_SLICE, TO_VECTOR };

void fuzz_decode(uint32_t way, const struct plan *plan, const struct target *target, const uint8_t *file, size_t len,
                 const struct act *acts, size_t count, uint8_t *out, size_t room, struct answer *answers,
                 size_t answer_count);
void fuzz_decode_free(uint32_t way, const uint8_t *file, size_t len, uint8_t *out, size_t room, struct answer *answer);
void fuzz_rows(const uint8_t *indexed, size_t indexed_len, uint32_t every, const uint8_t *file, size_t len,
               const struct act *acts, size_t count, uint8_t *out, size_t room, struct answer *made,
               struct answer *answers, size_t answer_count);
void fuzz_marks(uint32_t channels, const uint8_t *file, size_t len, const uint8_t *other, size_t other_len,
                const struct act *acts, size_t count, uint8_t *out, size_t room, struct answer *made,
                struct answer *answers, size_t answer_count);
void fuzz_clones(uint32_t channels, const uint8_t *file, size_t len, size_t size, uint8_t *out, size_t room,
                 struct answer *made, struct answer *answers, size_t answer_count);
void fuzz_encode(uint32_t way, const struct picture *image, const struct plan *plan, const uint8_t *raw, size_t len,
                 uint8_t *out, size_t room, struct answer *answer, struct answer *again);
void fuzz_encode_free(uint32_t way, const struct picture *image, const uint8_t *raw, size_t len, uint8_t *out, size_t room,
                      struct answer *answer);
void fuzz_write(uint32_t way, const struct picture *image, const struct plan *plan, const uint8_t *raw, size_t len,
                const struct act *acts, size_t count, uint8_t *out, size_t room, size_t *size,
                struct answer *answers, size_t answer_count);
void fuzz_header(const struct picture *image, struct answer *answer);
#endif
