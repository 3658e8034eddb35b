/* Times the calls of libqoi_proved beside those of the library that they call, and both beside qoi.h, by turns:

   speed ROUNDS PICTURE..   a line for each way: what, who, the least seconds for all pictures

   A picture is a file of raw bytes, NAME.WIDTHxHEIGHTxCHANNELS.raw. Memory that is freed is used again. */
#include "qoi_proved.h"
#include <malloc.h>
#include <stdio.h>
#include <stdlib.h>
#include <string.h>
#include <time.h>
#define QOI_IMPLEMENTATION
#include </usr/include/qoi.h>

/* The header in place of qoi.h, in speed_in_place.c. */
void *in_place_encode(const void *data, const qoi_desc *desc, int *out_len);
void *in_place_decode(const void *data, int size, qoi_desc *desc, int channels);

/* Calls of the library, of bench/entries.rt.txt. */
size_t port_encode_buffer(uint8_t *out, size_t room, const uint8_t *raw, size_t len, uint32_t width, uint32_t height);
size_t port_encode_vector(uint8_t *out, size_t room, const uint8_t *raw, size_t len, uint32_t width, uint32_t height);
size_t port_decode_buffer(uint8_t *out, size_t room, const uint8_t *file, size_t len, uint32_t channels);
size_t port_decode_vector(uint8_t *out, size_t room, const uint8_t *file, size_t len, uint32_t channels);

struct picture { qoi_desc desc; size_t len, room, size; uint8_t *raw, *file, *out; };
enum { MOST = 1000 };
static struct picture pictures[MOST];
static int count;

static size_t ended(void *made, size_t size) {
    free(made);
    return made ? size : 0;
}

static size_t entry_encode(struct picture *p) {
    struct qoi_proved_header header = {p->desc.width, p->desc.height, p->desc.channels, 0};
    struct qoi_proved_error error;
    size_t size = 0;
    qoi_proved_encode(p->out, p->room, p->raw, p->len, &header, 0, &size, &error);
    return size;
}

static size_t library_encode(struct picture *p) {
    return port_encode_buffer(p->out, p->room, p->raw, p->len, p->desc.width, p->desc.height);
}

static size_t in_place_encodes(struct picture *p) {
    int size = 0;
    void *made = in_place_encode(p->raw, &p->desc, &size);
    return ended(made, (size_t)size);
}

static size_t vector_encode(struct picture *p) {
    return port_encode_vector(p->out, 0, p->raw, p->len, p->desc.width, p->desc.height);
}

static size_t c_encode(struct picture *p) {
    int size = 0;
    void *made = qoi_encode(p->raw, &p->desc, &size);
    return ended(made, (size_t)size);
}

static size_t entry_decode(struct picture *p) {
    struct qoi_proved_header header;
    struct qoi_proved_error error;
    size_t left;
    return qoi_proved_decode(p->out, p->room, p->file, p->size, 0, &header, &left, &error) ? 0 : p->len;
}

static size_t library_decode(struct picture *p) { return port_decode_buffer(p->out, p->room, p->file, p->size, 0); }

static size_t in_place_decodes(struct picture *p) {
    qoi_desc desc;
    void *made = in_place_decode(p->file, (int)p->size, &desc, 0);
    return ended(made, p->len);
}

static size_t vector_decode(struct picture *p) { return port_decode_vector(p->out, 0, p->file, p->size, 0); }

static size_t c_decode(struct picture *p) {
    qoi_desc desc;
    void *made = qoi_decode(p->file, (int)p->size, &desc, 0);
    return ended(made, p->len);
}

/* What is timed, and whether it makes a file. */
static const struct way { const char *what, *who; size_t (*call)(struct picture *); int encodes; } ways[] = {
    {"encoding into a buffer", "entry", entry_encode, 1}, {"encoding into a buffer", "library", library_encode, 1},
    {"encoding into new memory", "in place", in_place_encodes, 1}, {"encoding into new memory", "library", vector_encode, 1},
    {"encoding into new memory", "qoi.h", c_encode, 1},
    {"decoding into a buffer", "entry", entry_decode, 0}, {"decoding into a buffer", "library", library_decode, 0},
    {"decoding into new memory", "in place", in_place_decodes, 0}, {"decoding into new memory", "library", vector_decode, 0},
    {"decoding into new memory", "qoi.h", c_decode, 0},
};
enum { WAYS = sizeof ways / sizeof *ways };

static void load(const char *path) {
    struct picture *p = &pictures[count++];
    const char *dot = strchr(strrchr(path, '/'), '.');
    unsigned channels;
    int size;
    FILE *stream = fopen(path, "rb");
    if (count > MOST || !dot || sscanf(dot, ".%ux%ux%u", &p->desc.width, &p->desc.height, &channels) != 3 || !stream) exit(2);
    p->desc.channels = (unsigned char)channels;
    p->len = (size_t)p->desc.width * p->desc.height * channels;
    p->room = qoi_proved_encode_max_len(p->desc.width, p->desc.height, p->desc.channels);
    p->raw = malloc(p->len);
    p->out = calloc(1, p->room);
    if (fread(p->raw, 1, p->len, stream) != p->len) exit(2);
    fclose(stream);
    p->file = qoi_encode(p->raw, &p->desc, &size);
    p->size = (size_t)size;
}

static double now(void) {
    struct timespec t;
    clock_gettime(CLOCK_THREAD_CPUTIME_ID, &t);
    return (double)t.tv_sec + (double)t.tv_nsec * 1e-9;
}

int main(int argc, char **argv) {
    static double least[WAYS][MOST];
    int rounds = atoi(argv[1]), r, w, i;
    mallopt(M_MMAP_MAX, 0);
    mallopt(M_TRIM_THRESHOLD, -1);
    for (i = 2; i < argc; i++) load(argv[i]);
    for (r = 0; r < rounds; r++)
        for (w = 0; w < WAYS; w++)
            for (i = 0; i < count; i++) {
                struct picture *p = &pictures[i];
                int n, repeats = 1 + (int)(1000000 / p->len);
                double taken, start = now();
                for (n = 0; n < repeats; n++)
                    if (ways[w].call(p) != (ways[w].encodes ? p->size : p->len)) exit(3);
                taken = (now() - start) / repeats;
                if (!r || taken < least[w][i]) least[w][i] = taken;
            }
    for (w = 0; w < WAYS; w++) {
        double sum = 0;
        for (i = 0; i < count; i++) sum += least[w][i];
        printf("%s\t%s\t%.9f\n", ways[w].what, ways[w].who, sum);
    }
    return 0;
}
