/* Times the calls of qoi.h, of the Rust crate (if built with -DCRATE), of the port as it was before (-DBEFORE) and of the
   port on the same pictures, by turns.

   bench time ROUNDS all|anew|buffers PICTURE..   a line for each way, "took", row, who, seconds for all pictures, the
                                                  least of each; before it "wrong", row, who, and of how many
                                                  pictures it made other bytes or pixels, if of any
   bench chunks - - PICTURE..                     how many chunks the files have, and how many RGB and RGBA ones
   bench once - - PICTURE..                       nothing: the port and its earlier state make each call once, for
                                                  `instructions`
   bench index ROUNDS - PICTURE..                 a line for each picture and index of its rows: rows between two points,
                                                  bytes, seconds of the last row with all rows above, of making the
                                                  index, of the last row by it
   bench keep WHO COUNT PICTURE                   kilobytes that COUNT files take, which are made and kept, and the bytes
                                                  of one

   A picture is a file of raw bytes, NAME.WIDTHxHEIGHTxCHANNELS.raw. Memory that is freed is used again; with `anew` each
   large block comes from the system, and only calls into a new vector are timed; with `buffers` only calls into buffers.

   So many bytes as SHIFT says stand ahead of all code, so that it can be timed at several addresses. */
#include <malloc.h>
#include <stdint.h>
#include <stdio.h>
#include <stdlib.h>
#include <string.h>
#include <time.h>

#define WORDS_OF(number) #number
#define WORDS(number) WORDS_OF(number)
__asm__(".text\n.skip " WORDS(SHIFT));

static void *block; /* where qoi.h puts what it makes; NULL: in memory of its own */
static void *take(size_t size) { return block ? block : malloc(size); }
static void give(void *p) { if (!block) free(p); }
#define QOI_MALLOC(size) take(size)
#define QOI_FREE(p) give(p)
#define QOI_IMPLEMENTATION
#include <qoi.h>

/* Each call writes to `out` and returns how many bytes, or 0. One that makes a vector copies as much of it as `out` holds.
   `channels` of 0 are the file's own. */
#define ENCODING(call) size_t call(uint8_t *out, size_t room, const uint8_t *raw, size_t len, uint32_t width, uint32_t height)
#define DECODING(call) size_t call(uint8_t *out, size_t room, const uint8_t *file, size_t len, uint32_t channels)
#define KEEPING(call) size_t call(const uint8_t *raw, size_t len, uint32_t width, uint32_t height, size_t count)
typedef ENCODING(encode);
typedef DECODING(decode);
typedef KEEPING(keep);

static void *c_encoded(const uint8_t *raw, size_t len, uint32_t width, uint32_t height, int *size) {
    qoi_desc desc = {width, height, len / width / height, QOI_SRGB};
    return qoi_encode(raw, &desc, size);
}

static size_t copied(uint8_t *out, size_t room, void *made, size_t size) {
    if (!made) return 0;
    memcpy(out, made, size < room ? size : room);
    free(made);
    return size;
}

static ENCODING(c_encode_buffer) {
    int size = 0;
    (void)room;
    block = out;
    c_encoded(raw, len, width, height, &size);
    block = NULL;
    return size;
}

static ENCODING(c_encode_vector) {
    int size = 0;
    void *made = c_encoded(raw, len, width, height, &size);
    return copied(out, room, made, size);
}

static DECODING(c_decode_buffer) {
    qoi_desc desc;
    (void)room;
    block = out;
    void *made = qoi_decode(file, len, &desc, channels);
    block = NULL;
    return made ? (size_t)desc.width * desc.height * (channels ? channels : desc.channels) : 0;
}

static DECODING(c_decode_vector) {
    qoi_desc desc;
    void *made = qoi_decode(file, len, &desc, channels);
    return copied(out, room, made, made ? (size_t)desc.width * desc.height * desc.channels : 0);
}

/* A file of a file: decoded whole, and encoded again. */
static DECODING(c_copy) {
    qoi_desc desc;
    int size = 0;
    void *made = qoi_decode(file, len, &desc, channels);
    if (!made) return 0;
    block = out;
    (void)room;
    qoi_encode(made, &desc, &size);
    block = NULL;
    free(made);
    return size;
}

static KEEPING(c_keep) {
    int size = 0;
    size_t made = 0;
    while (made < count && c_encoded(raw, len, width, height, &size)) made++;
    return made;
}

encode port_encode_buffer, port_encode_vector, port_encode_slice, port_encode_growing, port_encode_places,
    port_encode_tight, port_encode_rows;
decode port_decode_buffer, port_decode_vector, port_decode_stream, port_decode_stream_buffered, port_decode_buf_read,
    port_decode_rows, port_decode_rows_buf_read, port_copy, port_copy_by_loop, port_copy_tight, port_copy_tight_by_loop;
keep port_keep;
/* The last row, so many times: by an index with a point each `every` rows, which is made first, or if that is 0 with all
   rows above. */
size_t port_last_row(uint8_t *out, size_t room, const uint8_t *file, size_t len, uint32_t every, uint32_t times);

#define ENCODES(who, call) {who, .encode = call}
#define DECODES(who, call) {who, .decode = call}
#ifdef CRATE
encode crate_encode_buffer, crate_encode_vector, crate_encode_slice, crate_encode_growing;
decode crate_decode_buffer, crate_decode_vector, crate_decode_stream, crate_decode_stream_buffered;
keep crate_keep;
#define CRATE_ENCODES(call) ENCODES("crate", call)
#define CRATE_DECODES(call) DECODES("crate", call)
#else
#define CRATE_ENCODES(call) {NULL}
#define CRATE_DECODES(call) {NULL}
#endif
#ifdef BEFORE
/* Weak but for one, for which the linker takes the library: a call that the earlier state lacks isn't made. */
#define WEAK __attribute__((weak))
encode before_encode_buffer, before_encode_vector WEAK, before_encode_slice WEAK, before_encode_growing WEAK,
    before_encode_places WEAK, before_encode_tight WEAK, before_encode_rows WEAK;
decode before_decode_buffer WEAK, before_decode_vector WEAK, before_decode_stream WEAK, before_decode_stream_buffered WEAK,
    before_decode_buf_read WEAK, before_decode_rows WEAK, before_decode_rows_buf_read WEAK, before_copy WEAK,
    before_copy_tight WEAK;
#define PORT_ENCODES(call) ENCODES("before", before_##call), ENCODES("port", port_##call)
#define PORT_DECODES(call) DECODES("before", before_##call), DECODES("port", port_##call)
#else
#define PORT_ENCODES(call) {NULL}, ENCODES("port", port_##call)
#define PORT_DECODES(call) {NULL}, DECODES("port", port_##call)
#endif
#define OF_SLICE {DECODES("qoi.h", c_decode_buffer), CRATE_DECODES(crate_decode_buffer), PORT_DECODES(decode_buffer)}

struct way { const char *who; encode *encode; decode *decode; };

/* What is timed, the port last. `vector`: the call makes a vector. `style`: the file may differ from that of qoi.h.
   `copies`: decoding calls make a file again. */
static const struct row { const char *name; int vector, channels, style, copies; struct way ways[4]; } rows[] = {
    {"encoding into a buffer", .ways = {ENCODES("qoi.h", c_encode_buffer), CRATE_ENCODES(crate_encode_buffer),
        PORT_ENCODES(encode_buffer)}},
    {"encoding into a new vector", .vector = 1, .ways = {ENCODES("qoi.h", c_encode_vector),
        CRATE_ENCODES(crate_encode_vector), PORT_ENCODES(encode_vector)}},
    {"encoding to a writer, a slice", .ways = {CRATE_ENCODES(crate_encode_slice), PORT_ENCODES(encode_slice)}},
    {"encoding to a writer, a vector", .ways = {CRATE_ENCODES(crate_encode_growing), PORT_ENCODES(encode_growing)}},
    {"row by row to a writer, a slice", .ways = {ENCODES("at once", port_encode_slice), PORT_ENCODES(encode_rows)}},
    {"style `Places`", .style = 1, .ways = {ENCODES("`Reference`", port_encode_buffer), PORT_ENCODES(encode_places)}},
    {"style `Tight`", .style = 1, .ways = {ENCODES("`Reference`", port_encode_buffer), PORT_ENCODES(encode_tight)}},
    {"decoding into a buffer", .ways = OF_SLICE},
    {"decoding into a new vector", .vector = 1, .ways = {DECODES("qoi.h", c_decode_vector),
        CRATE_DECODES(crate_decode_vector), PORT_DECODES(decode_vector)}},
    {"decoding in three channels", .channels = 3, .ways = OF_SLICE},
    {"decoding in four channels", .channels = 4, .ways = OF_SLICE},
    {"`from_buf_read` of a `BufReader`", .ways = {CRATE_DECODES(crate_decode_stream_buffered),
        PORT_DECODES(decode_buf_read)}},
    {"`from_stream` of a `BufReader`", .ways = {CRATE_DECODES(crate_decode_stream_buffered),
        PORT_DECODES(decode_stream_buffered)}},
    {"`from_stream` of a slice", .ways = {CRATE_DECODES(crate_decode_stream), PORT_DECODES(decode_stream)}},
    {"decoding row by row", .ways = {DECODES("`decode_to_buf`", port_decode_buffer), PORT_DECODES(decode_rows)}},
    {"decoding row by row from a `BufReader`", .ways = {DECODES("`from_buf_read`", port_decode_buf_read),
        PORT_DECODES(decode_rows_buf_read)}},
    {"a file again, by `copy_to`", .copies = 1, .ways = {DECODES("qoi.h", c_copy), PORT_DECODES(copy)}},
    {"the same beside a loop", .copies = 1, .ways = {DECODES("the loop", port_copy_by_loop), DECODES("port", port_copy)}},
    {"a file in style `Tight`, by `copy_to`", .copies = 1, .style = 1, .ways = {DECODES("qoi.h", c_copy),
        PORT_DECODES(copy_tight)}},
    {"the same in style `Tight` beside a loop", .copies = 1, .style = 1, .ways = {DECODES("the loop", port_copy_tight_by_loop),
        DECODES("port", port_copy_tight)}},
};
enum { ROWS = sizeof rows / sizeof *rows, WAYS = 4, MOST = 4000 };

struct picture { uint32_t width, height, channels; size_t len, room, size; uint8_t *raw, *file, *out; };
static struct picture pictures[MOST];
static int count;

static void fail(const char *why, const char *what) {
    fprintf(stderr, "%s: %s\n", what, why);
    exit(1);
}

static void load(const char *path) {
    struct picture *p = &pictures[count++];
    const char *slash = strrchr(path, '/'), *dot = strchr(slash ? slash : path, '.');
    if (count > MOST) fail("too many pictures", path);
    if (!dot || sscanf(dot, ".%ux%ux%u", &p->width, &p->height, &p->channels) != 3) fail("not a picture's name", path);
    size_t pixels = (size_t)p->width * p->height;
    p->len = pixels * p->channels, p->room = QOI_HEADER_SIZE + pixels * 5 + sizeof qoi_padding;
    p->raw = malloc(p->len), p->file = malloc(p->room), p->out = calloc(1, p->room);
    FILE *stream = fopen(path, "rb");
    if (!stream || fread(p->raw, 1, p->len, stream) != p->len) fail("can't be read", path);
    fclose(stream);
    p->size = c_encode_buffer(p->file, p->room, p->raw, p->len, p->width, p->height);
}

/* Whether there is such a call. */
static int is_there(const struct way *way) { return way->encode || way->decode; }

/* `room` is 0 if the call is timed and makes a vector, which then isn't copied. */
static size_t called(const struct row *row, const struct way *way, struct picture *p, size_t room) {
    return way->encode ? way->encode(p->out, room, p->raw, p->len, p->width, p->height)
                       : way->decode(p->out, room, p->file, p->size, row->channels);
}

/* Whether these are a picture's raw bytes, in so many channels. */
static int has_pixels(const struct picture *p, const uint8_t *out, size_t size, uint32_t channels) {
    size_t pixels = (size_t)p->width * p->height;
    if (!channels) channels = p->channels;
    if (size != pixels * channels) return 0;
    for (size_t i = 0; i < pixels; i++) {
        const uint8_t *from = p->raw + i * p->channels, *to = out + i * channels;
        if (memcmp(from, to, 3) || (channels == 4 && to[3] != (p->channels == 4 ? from[3] : 255))) return 0;
    }
    return 1;
}

/* Whether a way makes the file of qoi.h, in a style any file of the picture, or the picture's pixels. */
static int is_right(const struct row *row, const struct way *way, struct picture *p) {
    memset(p->out, 1, p->room);
    size_t size = called(row, way, p, p->room);
    if (way->decode && !row->copies) return has_pixels(p, p->out, size, row->channels);
    if (!row->style) return size == p->size && !memcmp(p->out, p->file, size);
    uint8_t *back = malloc(p->room);
    int right = has_pixels(p, back, c_decode_buffer(back, p->room, p->out, size, 0), 0);
    free(back);
    return right;
}

static double now(void) {
    struct timespec t;
    clock_gettime(CLOCK_THREAD_CPUTIME_ID, &t);
    return t.tv_sec + t.tv_nsec * 1e-9;
}

static size_t pixels_of(int i) { return (size_t)pictures[i].width * pictures[i].height; }

/* The least seconds of each picture so far. Those of fewer than `LARGE` pixels that follow each other are timed together,
   again and again until they have about a million pixels. */
enum { LARGE = 10000 };
static void pass(const struct row *row, const struct way *way, double *least) {
    for (int first = 0, end; first < count; first = end) {
        size_t pixels = pixels_of(first);
        int repeats = 1;
        end = first + 1;
        if (pixels < LARGE) {
            for (; end < count && pixels_of(end) < LARGE; end++) pixels += pixels_of(end);
            repeats += 1000000 / pixels;
        }
        double start = now();
        for (int r = 0; r < repeats; r++)
            for (int i = first; i < end; i++)
                if (!called(row, way, &pictures[i], row->vector ? 0 : pictures[i].room)) fail(way->who, row->name);
        double taken = (now() - start) / repeats;
        if (taken < least[first]) least[first] = taken;
    }
}

static double least[WAYS][MOST];

static void time_row(const struct row *row, int rounds) {
    for (int w = 0; w < WAYS; w++) {
        const struct way *way = &row->ways[w];
        int wrong = 0;
        for (int i = 0; is_there(way) && i < count; i++) wrong += !is_right(row, way, &pictures[i]);
        if (wrong && !strcmp(way->who, "port")) fail("the port makes other bytes or pixels", row->name);
        if (wrong) printf("wrong\t%s\t%s\t%d\n", row->name, way->who, wrong);
    }
    for (int w = 0; w < WAYS; w++)
        for (int i = 0; i < count; i++) least[w][i] = 1e9;
    for (int r = 0; r < rounds; r++)
        for (int w = 0; w < WAYS; w++)
            if (is_there(&row->ways[w])) pass(row, &row->ways[w], least[w]);
    for (int w = 0; w < WAYS; w++) {
        double sum = 0;
        for (int i = 0; i < count; i++) sum += least[w][i] < 1e9 ? least[w][i] : 0;
        if (is_there(&row->ways[w])) printf("took\t%s\t%s\t%.9f\n", row->name, row->ways[w].who, sum);
    }
}

static double last_row(struct picture *p, uint32_t every, uint32_t times, int rounds) {
    size_t row = (size_t)p->width * p->channels;
    double least = 1e9;
    for (int r = 0; r < rounds; r++) {
        double start = now();
        size_t size = port_last_row(p->out, row, p->file, p->size, every, times);
        double taken = now() - start;
        int wrong = times && memcmp(p->out, p->raw + p->len - row, row);
        if (size != row || wrong) fail("the port reads another row", "an index");
        if (taken < least) least = taken;
    }
    return least;
}

static int time_indexes(int rounds) {
    enum { TIMES = 100, PLACE = 288 };
    for (int i = 0; i < count; i++) {
        struct picture *p = &pictures[i];
        double above = last_row(p, 0, 1, rounds);
        for (uint32_t every = 16; every <= 256; every *= 4) {
            double made = last_row(p, every, 0, rounds);
            double row = (last_row(p, every, TIMES, rounds) - made) / TIMES;
            unsigned bytes = PLACE * ((p->height - 1) / every);
            printf("%u\t%u\t%.9f\t%.9f\t%.9f\n", every, bytes, above, made, row);
        }
    }
    return 0;
}

static long kilobytes(const char *field) {
    char line[200];
    long found = 0;
    FILE *status = fopen("/proc/self/status", "r");
    while (fgets(line, sizeof line, status))
        if (!strncmp(line, field, strlen(field))) found = atol(line + strlen(field));
    fclose(status);
    return found;
}

static int keep_files(const char *who, size_t wanted) {
    struct picture *p = &pictures[0];
    keep *kept = !strcmp(who, "port") ? port_keep : c_keep;
#ifdef CRATE
    if (!strcmp(who, "crate")) kept = crate_keep;
#endif
    long before = kilobytes("VmRSS:");
    if (kept(p->raw, p->len, p->width, p->height, wanted) != wanted) fail("no memory", who);
    printf("%ld\t%zu\n", kilobytes("VmHWM:") - before, p->size);
    return 0;
}

/* Whether an earlier row has this call of the port or of its earlier state, too. */
static int is_again(int row, const struct way *way) {
    for (int r = 0; r < row; r++)
        for (int w = 0; w < WAYS; w++)
            if (rows[r].ways[w].encode == way->encode && rows[r].ways[w].decode == way->decode) return 1;
    return 0;
}

/* Each call of the port and of its earlier state, once for each picture, in the file's own channels. */
static int call_once(void) {
    for (int r = 0; r < ROWS; r++)
        for (int w = 0; w < WAYS; w++) {
            const struct way *way = &rows[r].ways[w];
            if (!is_there(way) || (strcmp(way->who, "port") && strcmp(way->who, "before")) || is_again(r, way)) continue;
            for (int i = 0; i < count; i++) called(&rows[r], way, &pictures[i], rows[r].vector ? 0 : pictures[i].room);
        }
    return 0;
}

static int count_chunks(void) {
    size_t chunks = 0, full = 0;
    for (int i = 0; i < count; i++) {
        const struct picture *p = &pictures[i];
        for (size_t at = QOI_HEADER_SIZE; at < p->size - sizeof qoi_padding; chunks++) {
            int tag = p->file[at], is_full = tag >= QOI_OP_RGB;
            full += is_full;
            at += tag == QOI_OP_RGBA ? 5 : is_full ? 4 : (tag & QOI_MASK_2) == QOI_OP_LUMA ? 2 : 1;
        }
    }
    printf("%zu %zu\n", chunks, full);
    return 0;
}

int main(int argc, char **argv) {
    if (argc < 5) return 2;
    for (int a = 4; a < argc; a++) load(argv[a]);
    if (!strcmp(argv[1], "chunks")) return count_chunks();
    if (!strcmp(argv[1], "once")) return call_once();
    if (!strcmp(argv[1], "index")) return time_indexes(atoi(argv[2]));
    if (!strcmp(argv[1], "keep")) return keep_files(argv[2], atoi(argv[3]));
    int anew = !strcmp(argv[3], "anew"), buffers = !strcmp(argv[3], "buffers");
    mallopt(M_MMAP_MAX, anew ? 65536 : 0);
    mallopt(M_TRIM_THRESHOLD, anew ? 128 * 1024 : -1);
    if (anew) mallopt(M_MMAP_THRESHOLD, 128 * 1024);
    for (int r = 0; r < ROWS; r++) {
        int is_timed = anew ? rows[r].vector : !buffers || strstr(rows[r].name, "into a buffer");
        if (is_timed) time_row(&rows[r], atoi(argv[2]));
    }
    return 0;
}
