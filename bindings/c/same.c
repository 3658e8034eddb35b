/* A program that includes qoi.h, as programs do: once for the declarations, and once for the functions. It says what each call
   gives for each file that is named, `NAME.WIDTHxHEIGHTxCHANNELS.raw` or any bytes to decode. It is compiled twice, with the C
   library's qoi.h and with the header in place of it. The first argument names a file that it may write. */
#include "qoi.h"
#include <stdio.h>
#include <stdlib.h>
#include <string.h>

static size_t asked;
static void *take(size_t size) {
    if (size > asked) asked = size;
    return size > 100000000 ? NULL : malloc(size);
}
#define QOI_MALLOC(size) take(size)
#define QOI_FREE(pointer) free(pointer)
#define QOI_IMPLEMENTATION
#include "qoi.h"

static unsigned long sum_of(const void *bytes, size_t size) {
    const unsigned char *at = (const unsigned char *)bytes;
    unsigned long sum = 5381;
    while (size--) sum = sum * 33 + *at++;
    return sum;
}

static void show(const char *name, const char *call, int channels, void *pixels, const qoi_desc *desc) {
    if (pixels) {
        size_t size = (size_t)desc->width * desc->height * (size_t)(channels ? channels : desc->channels);
        printf("%s %s %d: %u %u %d %d %lx\n", name, call, channels, desc->width, desc->height, desc->channels,
               desc->colorspace, sum_of(pixels, size));
    } else {
        printf("%s %s %d: none\n", name, call, channels);
    }
    free(pixels);
}

static void decode(const char *name, const void *file, size_t size) {
    static const int channels[] = {0, 3, 4, 5, -1};
    qoi_desc desc;
    int i;
    for (i = 0; i < 5; i++) {
        memset(&desc, 0, sizeof desc);
        show(name, "decode", channels[i], qoi_decode(file, (int)size, &desc, channels[i]), &desc);
    }
}

static void encode(const char *name, const char *to, const void *raw, size_t size) {
    qoi_desc desc;
    int len = 0, colorspace, channels;
    const char *dot = strchr(name, '.');
    if (!dot || sscanf(dot, ".%ux%ux%d", &desc.width, &desc.height, &channels) != 3) exit(2);
    desc.channels = (unsigned char)channels;
    for (colorspace = 0; colorspace < 3; colorspace++) {
        void *file;
        desc.colorspace = (unsigned char)colorspace;
        file = qoi_encode(raw, &desc, &len);
        if (file) printf("%s encode %d: %d %lx\n", name, colorspace, len, sum_of(file, (size_t)len));
        else printf("%s encode %d: none\n", name, colorspace);
        if (file && !colorspace) decode(name, file, (size_t)len);
        free(file);
    }
    desc.colorspace = 0;
    len = qoi_write(to, raw, &desc);
    printf("%s write: %d\n", name, len);
    if (len) {
        qoi_desc found;
        memset(&found, 0, sizeof found);
        show(name, "read", 0, qoi_read(to, &found, 0), &found);
    }
    desc.channels = 5;
    printf("%s write of five channels: %d\n", name, qoi_write(to, raw, &desc));
    desc.channels = (unsigned char)channels;
    printf("%s write to a folder: %d\n", name, qoi_write("/", raw, &desc));
    (void)size;
}

int main(int argc, char **argv) {
    int i;
    for (i = 2; i < argc; i++) {
        const char *name = strrchr(argv[i], '/') + 1;
        FILE *stream = fopen(argv[i], "rb");
        size_t size, length;
        unsigned char *bytes;
        if (!stream || fseek(stream, 0, SEEK_END)) return 2;
        size = (size_t)ftell(stream);
        rewind(stream);
        bytes = (unsigned char *)malloc(size + 1);
        length = fread(bytes, 1, size, stream);
        fclose(stream);
        if (length != size) return 2;
        asked = 0;
        if (strstr(name, ".raw")) encode(name, argv[1], bytes, size);
        else decode(name, bytes, size);
        printf("%s asked for: %lu\n", name, (unsigned long)asked);
        free(bytes);
    }
    printf("no file: %p\n", qoi_read("/no/such/file", (qoi_desc *)argv, 0));
    return 0;
}
