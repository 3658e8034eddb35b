/* In place of the C library's qoi.h: its names and meanings, over proved calls. Link with libqoi_proved.

   As there, one source file of a program defines QOI_IMPLEMENTATION before it includes this, and the functions are there;
   QOI_NO_STDIO leaves out those on files, and QOI_MALLOC and QOI_FREE take the place of malloc and free.

   Unlike there, a cut file and one without its end marker are refused; if the header says 3 channels, alpha is 255 whatever the
   chunks say; up to 400,000,000 pixels are accepted; and other names than these (QOI_OP_.., qoi_rgba_t, QOI_PIXELS_MAX) are
   missing. A QOI_MALLOC that returns a null pointer for large sizes sets a limit. A file of 2 GB or more isn't encoded, but
   refused. The C of this header is tested, not proved.

   `#include "qoi.h"` takes a qoi.h beside the source before this one: remove it. `cc -M` names the file that was taken. */
#ifndef QOI_H
#define QOI_H

#ifdef __cplusplus
extern "C" {
#endif

#define QOI_SRGB 0
#define QOI_LINEAR 1

/* An image's width and height in pixels, channels (3 or 4) and color space (QOI_SRGB or QOI_LINEAR). */
typedef struct {
    unsigned int width;
    unsigned int height;
    unsigned char channels;
    unsigned char colorspace;
} qoi_desc;

#ifndef QOI_NO_STDIO
/* Encodes raw bytes into a file of this name. Returns how many bytes it has, or 0 if it failed. */
int qoi_write(const char *filename, const void *data, const qoi_desc *desc);

/* Decodes a file of this name, in 3 or 4 channels or, for 0, in the file's, and fills `desc` with its header. Returns the raw
   bytes, which QOI_FREE frees, or a null pointer if it failed. */
void *qoi_read(const char *filename, qoi_desc *desc, int channels);
#endif

/* Encodes raw bytes. Returns the file, which QOI_FREE frees, and its length, or a null pointer if it failed. */
void *qoi_encode(const void *data, const qoi_desc *desc, int *out_len);

/* Decodes a file in memory; otherwise as qoi_read. */
void *qoi_decode(const void *data, int size, qoi_desc *desc, int channels);

#ifdef __cplusplus
}
#endif

#endif

#ifdef QOI_IMPLEMENTATION
#include <stddef.h>
#include <stdlib.h>
#ifndef QOI_NO_STDIO
#include <stdio.h>
#endif
#include "../qoi_proved.h"

#ifndef QOI_MALLOC
#define QOI_MALLOC(size) malloc(size)
#define QOI_FREE(pointer) free(pointer)
#endif

#ifdef __cplusplus
extern "C" {
#endif

void *qoi_encode(const void *data, const qoi_desc *desc, int *out_len) {
    struct qoi_proved_header header;
    struct qoi_proved_error error;
    size_t room, written, pixels;
    unsigned char *out;
    if (data == NULL || desc == NULL || out_len == NULL || desc->width == 0 || desc->height == 0) return NULL;
    if (desc->channels < 3 || desc->channels > 4 || desc->colorspace > 1) return NULL;
    pixels = (size_t)desc->width * desc->height;
    if (pixels > 400000000) return NULL;
    header.width = desc->width;
    header.height = desc->height;
    header.channels = desc->channels;
    header.colorspace = desc->colorspace;
    room = qoi_proved_encode_max_len(header.width, header.height, header.channels);
    out = (unsigned char *)QOI_MALLOC(room);
    if (out == NULL) return NULL;
    if (qoi_proved_encode(out, room, (const unsigned char *)data, pixels * header.channels, &header, QOI_PROVED_REFERENCE,
                          &written, &error) != 0 || written > 0x7fffffff) {
        QOI_FREE(out);
        return NULL;
    }
    *out_len = (int)written;
    return out;
}

void *qoi_decode(const void *data, int size, qoi_desc *desc, int channels) {
    const unsigned char *file = (const unsigned char *)data;
    struct qoi_proved_header header;
    struct qoi_proved_error error;
    size_t needed, left;
    unsigned char *out;
    if (data == NULL || desc == NULL || size < 0 || (channels != 0 && channels != 3 && channels != 4)) return NULL;
    if (qoi_proved_decode_len(file, (size_t)size, (unsigned int)channels, &header, &needed, &error) != 0) return NULL;
    out = (unsigned char *)QOI_MALLOC(needed);
    if (out == NULL) return NULL;
    if (qoi_proved_decode(out, needed, file, (size_t)size, (unsigned int)channels, &header, &left, &error) != 0) {
        QOI_FREE(out);
        return NULL;
    }
    desc->width = header.width;
    desc->height = header.height;
    desc->channels = header.channels;
    desc->colorspace = header.colorspace;
    return out;
}

#ifndef QOI_NO_STDIO
int qoi_write(const char *filename, const void *data, const qoi_desc *desc) {
    int size, failed;
    FILE *stream;
    void *file = qoi_encode(data, desc, &size);
    if (file == NULL) return 0;
    stream = fopen(filename, "wb");
    if (stream == NULL) {
        QOI_FREE(file);
        return 0;
    }
    failed = fwrite(file, 1, (size_t)size, stream) != (size_t)size;
    failed = fclose(stream) != 0 || failed;
    QOI_FREE(file);
    return failed ? 0 : size;
}

void *qoi_read(const char *filename, qoi_desc *desc, int channels) {
    FILE *stream = fopen(filename, "rb");
    void *file = NULL, *pixels = NULL;
    long size = 0;
    if (stream == NULL) return NULL;
    if (fseek(stream, 0, SEEK_END) == 0) size = ftell(stream);
    if (size > 0 && size <= 0x7fffffff && fseek(stream, 0, SEEK_SET) == 0) {
        file = QOI_MALLOC((size_t)size);
        if (file != NULL && fread(file, 1, (size_t)size, stream) == (size_t)size) {
            pixels = qoi_decode(file, (int)size, desc, channels);
        }
    }
    fclose(stream);
    if (file != NULL) QOI_FREE(file);
    return pixels;
}
#endif

#ifdef __cplusplus
}
#endif
#endif
