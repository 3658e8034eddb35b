/* Calls each entry of qoi_proved.h, also in ways that must be refused, and compares what it returns, writes and leaves. Each
   buffer is memory of its own, exactly as long as it may be used, so that -fsanitize=address sees a byte too many. It is
   compiled as C99 and as C++. */
#include "qoi_proved.h"
#include <stdio.h>
#include <stdlib.h>
#include <string.h>

static int failed;

static void is(const char *what, uint64_t found, uint64_t wanted) {
    if (found == wanted) return;
    printf("%s: %llu, and not %llu\n", what, (unsigned long long)found, (unsigned long long)wanted);
    failed = 1;
}

static uint8_t *copy_of(const void *bytes, size_t size) {
    uint8_t *copy = (uint8_t *)malloc(size ? size : 1);
    if (size) memcpy(copy, bytes, size);
    return copy;
}

static uint8_t *filled(size_t size) {
    uint8_t *buffer = (uint8_t *)malloc(size ? size : 1);
    memset(buffer, 0x5a, size ? size : 1);
    return buffer;
}

static void are(const char *what, const uint8_t *found, const void *wanted, size_t size) {
    if (size) is(what, memcmp(found, wanted, size) != 0, 0);
}

/* The bytes from `at` on are as `filled` left them. */
static void stay(const char *what, const uint8_t *buffer, size_t at, size_t size) {
    size_t i;
    for (i = at; i < size; i++) is(what, buffer[i], 0x5a);
}

static void says(const struct qoi_proved_error *error, const char *text) {
    uint8_t room[100];
    size_t size = qoi_proved_error_text(room, sizeof room, error), half = strlen(text) / 2;
    uint8_t *part = filled(half);
    is(text, size, strlen(text));
    are(text, room, text, size);
    is(text, qoi_proved_error_text(part, half, error), half);
    are(text, part, text, half);
    is(text, qoi_proved_error_text(NULL, 0, error), 0);
    free(part);
}

/* Two pixels of three channels, (11 121 231) twice, in two rows, and their file: the chunks fe 0b 79 e7 and c0. */
static const uint8_t RAW[6] = {11, 121, 231, 11, 121, 231};
static const uint8_t FILE_OF[27] = {'q', 'o', 'i', 'f', 0, 0, 0, 1, 0, 0, 0, 2, 3, 0, 0xfe, 11, 121, 231, 0xc0,
                                    0, 0, 0, 0, 0, 0, 0, 1};
static const uint8_t OPAQUE[8] = {11, 121, 231, 255, 11, 121, 231, 255};
static const struct qoi_proved_header HEADER = {1, 2, 3, 0};

static void encodes(void) {
    struct qoi_proved_error error;
    struct qoi_proved_header header = HEADER;
    size_t room = qoi_proved_encode_max_len(1, 2, 3), written = 7, style;
    uint8_t *raw = copy_of(RAW, sizeof RAW), *out = filled(room), *small = filled(room - 1);
    is("the most bytes", room, 14 + 2 * 4 + 8);
    is("the most bytes of all", qoi_proved_encode_max_len(4294967295u, 4294967295u, 4), (size_t)-1);
    for (style = 0; style < 3; style++) {
        memset(out, 0x5a, room);
        is("encoded", qoi_proved_encode(out, room, raw, 6, &header, (uint32_t)style, &written, &error), 0);
        is("its code", error.code, 0);
        is("its length", written, sizeof FILE_OF);
        are("its bytes", out, FILE_OF, sizeof FILE_OF);
        stay("bytes behind it", out, sizeof FILE_OF, room);
    }
    header.colorspace = 1;
    is("linear", qoi_proved_encode(out, room, raw, 6, &header, 0, &written, &error), 0);
    is("its byte", out[13], 1);
    header.colorspace = 2;
    memset(out, 0x5a, room);
    written = 7;
    is("a wrong color space", qoi_proved_encode(out, room, raw, 6, &header, 0, &written, &error), QOI_PROVED_WRONG_COLORSPACE);
    says(&error, "invalid color space asked for: 2 (expected 0 or 1)");
    header.colorspace = 0;
    is("a wrong style", qoi_proved_encode(out, room, raw, 6, &header, 3, &written, &error), QOI_PROVED_WRONG_STYLE);
    says(&error, "invalid style asked for: 3 (expected 0 to 2)");
    header.channels = 5;
    is("wrong channels", qoi_proved_encode(out, room, raw, 6, &header, 0, &written, &error), QOI_PROVED_WRONG_CHANNELS);
    says(&error, "invalid channels asked for: 5");
    header.channels = 4;
    is("too few bytes", qoi_proved_encode(out, room, raw, 6, &header, 0, &written, &error), QOI_PROVED_INVALID_IMAGE_LENGTH);
    says(&error, "invalid image length: 6 bytes for 1x2");
    header.width = 0;
    is("no pixels", qoi_proved_encode(out, room, NULL, 0, &header, 0, &written, &error), QOI_PROVED_INVALID_IMAGE_DIMENSIONS);
    says(&error, "invalid image dimensions: 0x2");
    header = HEADER;
    is("a byte short", qoi_proved_encode(small, room - 1, raw, 6, &header, 0, &written, &error),
       QOI_PROVED_OUTPUT_BUFFER_TOO_SMALL);
    says(&error, "output buffer size too small: 29 (required: 30)");
    is("no buffer", qoi_proved_encode(NULL, 0, raw, 6, &header, 0, &written, &error), QOI_PROVED_OUTPUT_BUFFER_TOO_SMALL);
    is("written", written, 7);
    stay("a buffer", out, 0, room);
    stay("a small buffer", small, 0, room - 1);
    free(raw);
    free(out);
    free(small);
}

/* Decodes a file of so many bytes, with `behind` bytes behind it, in so many channels into a buffer of `size` bytes. */
static void decodes(uint32_t channels, size_t behind, size_t size) {
    struct qoi_proved_error error;
    struct qoi_proved_header header = {0, 0, 0, 0};
    size_t needed = 0, left = 99, wanted = channels == 4 ? 8 : 6;
    uint8_t bytes[sizeof FILE_OF + 9];
    uint8_t *file, *out = filled(size);
    memset(bytes, 'q', sizeof bytes);
    memcpy(bytes, FILE_OF, sizeof FILE_OF);
    file = copy_of(bytes, sizeof FILE_OF + behind);
    is("measured", qoi_proved_decode_len(file, sizeof FILE_OF + behind, channels, &header, &needed, &error), 0);
    is("needed", needed, wanted);
    is("decoded", qoi_proved_decode(out, size, file, sizeof FILE_OF + behind, channels, &header, &left, &error), 0);
    is("its code", error.code, 0);
    is("left", left, behind);
    is("its header", header.width == 1 && header.height == 2 && header.channels == 3 && header.colorspace == 0, 1);
    are("its pixels", out, channels == 4 ? OPAQUE : RAW, wanted);
    stay("bytes behind them", out, wanted, size);
    free(file);
    free(out);
}

static void rows(void) {
    struct qoi_proved_error error;
    struct qoi_proved_header header = {0, 0, 0, 0};
    uint8_t *file = copy_of(FILE_OF, sizeof FILE_OF), *out = filled(5), *cut = copy_of(FILE_OF, 18);
    is("a row", qoi_proved_decode_rows(out, 5, file, sizeof FILE_OF, 4, 1, 1, &header, &error), 0);
    are("its pixels", out, OPAQUE, 4);
    stay("bytes behind it", out, 4, 5);
    is("its header", header.height, 2);
    is("no row", qoi_proved_decode_rows(NULL, 0, file, sizeof FILE_OF, 0, 2, 0, &header, &error), 0);
    is("a row too many", qoi_proved_decode_rows(out, 5, file, sizeof FILE_OF, 0, 1, 2, &header, &error), QOI_PROVED_WRONG_ROWS);
    says(&error, "invalid rows: 2 from row 1 on, of 2");
    is("all rows", qoi_proved_decode_rows(out, 5, file, sizeof FILE_OF, 0, 4294967295u, 4294967295u, &header, &error),
       QOI_PROVED_WRONG_ROWS);
    is("a byte short", qoi_proved_decode_rows(out, 5, file, sizeof FILE_OF, 0, 0, 2, &header, &error),
       QOI_PROVED_OUTPUT_BUFFER_TOO_SMALL);
    says(&error, "output buffer size too small: 5 (required: 6)");
    is("channels", qoi_proved_decode_rows(out, 5, file, sizeof FILE_OF, 5, 0, 1, &header, &error), QOI_PROVED_WRONG_CHANNELS);
    is("a cut file", qoi_proved_decode_rows(out, 5, cut, 18, 0, 1, 1, &header, &error), QOI_PROVED_UNEXPECTED_BUFFER_END);
    stay("bytes behind it", out, 4, 5);
    free(file);
    free(cut);
    free(out);
}

/* A file with another byte, or cut, must be refused with this code and text. */
static void refuses(size_t size, size_t at, uint8_t byte, uint32_t code, const char *text) {
    struct qoi_proved_error error;
    struct qoi_proved_header header = {0, 0, 0, 0};
    size_t left = 99, needed = 99;
    uint8_t *file = copy_of(FILE_OF, size), *out = filled(7);
    if (at < size) file[at] = byte;
    is(text, qoi_proved_decode(out, 7, file, size, 0, &header, &left, &error), code);
    is("its code", error.code, code);
    says(&error, text);
    is("left", left, 99);
    stay("bytes behind", out, code == QOI_PROVED_UNEXPECTED_BUFFER_END || code == QOI_PROVED_INVALID_PADDING ? 6 : 0, 7);
    is("the header", qoi_proved_read_header(file, size, &header, &error), at < 14 || size < 14 ? code : 0);
    if (at < 14 || size < 14) is("measured", qoi_proved_decode_len(file, size, 0, &header, &needed, &error), code), is("needed", needed, 99);
    free(file);
    free(out);
}

static void refusals(void) {
    struct qoi_proved_error error;
    struct qoi_proved_header header;
    size_t left = 99, needed = 99, size;
    uint8_t *file = copy_of(FILE_OF, sizeof FILE_OF), *out = filled(6);
    for (size = 0; size < sizeof FILE_OF; size++)
        refuses(size, 99, 0, QOI_PROVED_UNEXPECTED_BUFFER_END, "unexpected input buffer end while decoding");
    refuses(27, 0, 'Q', QOI_PROVED_INVALID_MAGIC, "invalid magic: expected 1903126886, got [81, 111, 105, 102]");
    refuses(27, 12, 5, QOI_PROVED_INVALID_CHANNELS, "invalid number of channels: 5");
    refuses(27, 13, 2, QOI_PROVED_INVALID_COLORSPACE, "invalid color space: 2 (expected 0 or 1)");
    refuses(27, 11, 0, QOI_PROVED_INVALID_IMAGE_DIMENSIONS, "invalid image dimensions: 1x0");
    refuses(27, 4, 255, QOI_PROVED_INVALID_IMAGE_DIMENSIONS, "invalid image dimensions: 4278190081x2");
    refuses(27, 26, 2, QOI_PROVED_INVALID_PADDING, "invalid padding (stream end marker mismatch)");
    is("channels", qoi_proved_decode(out, 6, file, 27, 1, &header, &left, &error), QOI_PROVED_WRONG_CHANNELS);
    is("channels", qoi_proved_decode_len(file, 27, 1, &header, &needed, &error), QOI_PROVED_WRONG_CHANNELS);
    is("a byte short", qoi_proved_decode(out, 6, file, 27, 4, &header, &left, &error), QOI_PROVED_OUTPUT_BUFFER_TOO_SMALL);
    stay("a buffer", out, 0, 6);
    is("no file", qoi_proved_decode(out, 6, NULL, 0, 0, &header, &left, &error), QOI_PROVED_UNEXPECTED_BUFFER_END);
    file[6] = 1; /* 257 pixels a row: five bytes hold no 514 */
    is("too few bytes", qoi_proved_decode_len(file, 27, 0, &header, &needed, &error), QOI_PROVED_UNEXPECTED_BUFFER_END);
    file[6] = 0, file[7] = 155; /* 310 pixels: five bytes may hold them */
    is("enough bytes", qoi_proved_decode_len(file, 27, 0, &header, &needed, &error), 0);
    is("needed", needed, 310 * 3);
    free(file);
    free(out);
}

int main(void) {
    encodes();
    decodes(0, 0, 6);
    decodes(3, 0, 9);
    decodes(4, 9, 8);
    decodes(0, 1, 7);
    rows();
    refusals();
    return failed;
}
