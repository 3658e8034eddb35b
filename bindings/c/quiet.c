/* A program that has no files, and whose functions stand in C. */
#include <stddef.h>
#define QOI_NO_STDIO
#define QOI_IMPLEMENTATION
#include "qoi.h"
#ifdef BUFSIZ
#error qoi.h brought stdio.h
#endif

int main(void) {
    unsigned char raw[3] = {11, 121, 231}, *back;
    qoi_desc desc = {1, 1, 3, QOI_LINEAR};
    int size = 0, is_same;
    void *file = qoi_encode(raw, &desc, &size);
    desc.colorspace = QOI_SRGB;
    back = (unsigned char *)qoi_decode(file, size, &desc, 0);
    is_same = back && back[0] == 11 && back[1] == 121 && back[2] == 231 && desc.colorspace == QOI_LINEAR && size == 26;
    free(file);
    free(back);
    return !is_same;
}
