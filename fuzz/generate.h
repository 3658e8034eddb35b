/* Random files, whole and damaged, and random images. */
#ifndef GENERATE_H
#define GENERATE_H
#include <stddef.h>
#include <stdint.h>

#include "model.h"
#include "random.h"

#define FILE_ROOM (4u << 20)
#define IMAGE_PIXELS 200000u

struct bytes { uint8_t *at; size_t len; };

/* `file->at` has FILE_ROOM bytes. */
void make_file(struct random *random, struct bytes *file);
/* `raw` has 4 bytes for each of IMAGE_PIXELS; the header is that of the image. */
struct header make_image(struct random *random, uint8_t *raw);
#endif
