/* What the QOI specification 1.0, with this library's additions (README.md beside this file), says of files and images. It is
   written from the specification, plainly, and shares nothing with the library. */
#ifndef MODEL_H
#define MODEL_H
#include <stddef.h>
#include <stdint.h>

struct pixel { uint8_t r, g, b, a; };
struct header { uint32_t width, height, channels, colorspace; };
enum style { REFERENCE, PLACES, TIGHT };

/* An error of entries.h with its fields. */
struct refusal { uint64_t error, first, second, third; };

/* How the bytes after a header stand to an image: they begin with it, are cut, or have a wrong end marker. */
enum verdict { WHOLE, CUT, WRONG };
struct reading {
    enum verdict verdict;
    size_t pixels; /* that the whole chunks give, no more than are wanted */
    size_t before; /* pixels that chunks gave before fewer than eight bytes were left, those of an end marker */
    size_t text;   /* bytes of the whole chunks */
    size_t taken;  /* bytes of chunks and end marker, or all if they are cut */
};

/* The index position of a pixel. */
int model_place(struct pixel p);
/* The pixel that a chunk gives after `last`; a run gives `last` again. */
struct pixel model_chunk_pixel(const uint8_t *chunk, struct pixel last, const struct pixel seen[64]);
size_t pixel_count(struct header header);
int model_header(const uint8_t *bytes, size_t len, struct header *header, struct refusal *why);
/* `image` has room for `wanted` pixels, or 62 for each byte if that is less. */
struct reading model_read(const uint8_t *bytes, size_t len, size_t wanted, struct pixel *image);
/* How far whole chunks of an image of `wanted` pixels go that reach this offset or so many pixels. */
struct walked { size_t at, pixels; };
struct walked model_walk(const uint8_t *bytes, size_t len, size_t wanted, size_t offset, size_t pixels);
void model_raw(const struct pixel *image, size_t count, uint32_t file_channels, uint32_t channels, uint8_t *raw);
void model_pixels(const uint8_t *raw, size_t count, uint32_t channels, struct pixel *image);

void model_put_header(struct header header, uint8_t *file);
/* Writes the file of an image, and returns its length. `file` has room for 22 bytes and 5 for each pixel. */
size_t model_file(struct header header, const struct pixel *image, enum style style, uint8_t *file);
/* The least bytes that the chunks of an image have in a regular list, or in any list. */
size_t model_floor(const struct pixel *image, size_t count, int any_list);
/* How many more than in a regular list `Reference` may have. */
size_t model_slack(const struct pixel *image, size_t count, uint32_t channels);
#endif
