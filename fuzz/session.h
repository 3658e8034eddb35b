/* A decoder, or a reader of pieces, that is called again and again beside the model (`check_session.c`), also with a writer
   beside it (`check_copies.c`). */
#ifndef SESSION_H
#define SESSION_H
#include "check.h"

#define ACTS 48
/* A `PixelReader` decodes so many raw bytes ahead of those that it gives, at most. */
#define AHEAD 3072
/* So many raw bytes are copied at once. */
#define PIECE 4096
/* So many are skipped at once. */
#define SKIPPED 16384
/* How a call reads raw bytes: by pieces of so many; or, if `row` isn't 0, rows of so many, of each the first `left` by such
   pieces, `part` at once, and the rest by such pieces. */
struct steps { size_t piece, row, left, part; };

/* What the model reads at one place of a file: pixels, and their raw bytes in three and in four channels. */
struct image_at {
    int is_read;
    size_t at, room;
    struct reading reading;
    struct pixel *pixels;
    uint8_t *raw[5];
    int has_raw[5];
};

/* A file, its header if it has one, and what stands at its start and, last asked, at another place. */
struct subject_file {
    const uint8_t *bytes;
    size_t len;
    struct header header;
    struct refusal why;
    struct image_at first, other;
};

/* The image of a file at a place behind its header, and its raw bytes. */
struct image_at *image_at(struct subject_file *file, size_t at);
const uint8_t *raw_of(struct subject_file *file, struct image_at *it, uint32_t channels);
/* Why a slice's image is refused, if it is. */
struct refusal image_refusal(struct reading reading);
/* How long a buffer is: just long enough, longer, or too short. */
size_t buffer_size(struct random *random, size_t needed);

struct session {
    struct subject_file *file;
    enum way way;
    struct plan plan;
    struct act acts[ACTS];
    struct answer answers[ACTS + 1];
    size_t count, size;
    uint8_t *out;
    /* How the model's decoder stands. */
    uint32_t channels;
    size_t at;
    int has_fault;      /* the reader failed while the image was read that is read by pieces */
    int is_over;        /* there is no decoder left */
    int is_pieces;      /* an image is read piece by piece */
    struct image_at *image;
    size_t total, given;
    int is_refused;
    size_t refused_act; /* or ACTS, if it gave bytes before it was refused */
    size_t asked, lost; /* how many raw bytes the read that was refused wanted; and read for a writer that failed */
    int had_no_memory;
    /* A writer beside it: how many raw bytes its image has, how many came, and were offered at the last. */
    struct target target;
    size_t wanted, came, offered;
    int is_open, is_broken, is_finished;
    size_t kept_at;     /* the answer that says what the writer had, or 0 */
    int wants_loops;    /* a copy ended before all was copied: how far it went is compared with a loop */
};

static const struct refusal none = {0, 0, 0, 0}, spent = {BUFFER_END, 0, 0, 0};

int in_memory(const struct session *it);
/* Whether an answer counts the bytes that the decoder took. */
int counts_bytes(const struct session *it);
/* Whether the reader's bad call came in the act before this answer: then it was the last one, and the act is refused. */
int is_hit(const struct session *it, size_t answer);
/* Whether the image can give so many bytes, the last ones before a whole end marker. */
int can_give(const struct session *it, size_t count);
/* How many raw bytes the image has at most before a reader knows that it is broken. */
size_t known_bytes(const struct session *it);
/* A piece was refused, by what is wrong in the file. */
void check_refused_piece(struct session *it, size_t act, size_t size);
/* The reader gave so many raw bytes of those that a call wanted by steps, and nothing but the reader could fail: they are
   all, or whole steps before one that it may refuse. Returns how many. */
size_t check_gave(struct session *it, size_t act, size_t count, size_t gave, struct steps steps);
/* A refusal that changes nothing. */
void check_unchanged(const struct session *it, size_t act, struct refusal why);
void add_act(struct session *it, uint32_t kind, size_t size, size_t *at);
/* Acts without a part of the buffer: rows, or bytes of the file. */
void add_count(struct session *it, uint32_t kind, uint32_t count, size_t *at);

/* Rows that are skipped, and parts of rows; their planning, of rows with so many bytes. */
void check_skip(struct session *it, size_t act);
void check_rectangle(struct session *it, size_t act);
/* How many rows are skipped: few, any, or too many. */
uint32_t skipped_rows(struct random *random, uint32_t height);
/* A part of so many rows, and a buffer for it, mostly long enough. */
struct act some_rectangle(struct random *random, size_t row, uint32_t height);
void add_rectangle(struct random *random, struct session *it, size_t row, uint32_t height, size_t *at);
/* The part of rows of raw bytes stands in a buffer. */
void same_rectangle(const struct act *act, const uint8_t *raw, size_t row, const uint8_t *out);
void plan_reader(struct random *random, struct session *it);
void check_session(struct session *it);
extern const char *const way_names[];

/* Acts of a writer beside a decoder, its making, and what it sent. */
void check_beside(struct session *it, size_t act);
void check_opened(struct session *it);
void check_sent(const struct session *it);

/* Sessions of a file without and with copies; rows by an index, marks, clones, and the C library. */
void run_session(struct random *random, struct subject_file *file, enum way way);
void check_copies(struct random *random, struct subject_file *file);
void check_places(struct random *random, struct subject_file *file);
#endif
