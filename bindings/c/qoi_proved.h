/* Proved encoding and decoding of QOI images: https://qoiformat.org/qoi-specification.pdf.

   Raw bytes are the pixels row by row, three or four bytes a pixel: red, green, blue and, if there are four, alpha.

   No call allocates or keeps a state: any thread may call at any time. A call reads and writes nothing but what it was given.
   No pointer may be null, but that of a buffer of length 0; the buffers and structs of one call mustn't overlap; and while it
   runs, nobody else may write to them, neither another thread nor a process that shares them (a mapped file). Else nothing is
   proved, not even that memory is safe: copy first what others can write to.

   Each call but the first and the last fills `error` and returns its `code`: 0, or why it refused. */
#ifndef QOI_PROVED_H
#define QOI_PROVED_H

#include <stddef.h>
#include <stdint.h>

#ifdef __cplusplus
extern "C" {
#endif

/* An image's width and height in pixels, 1 to 400,000,000 pixels in all; its channels, 3 or 4; and its color space: 0, sRGB
   with linear alpha, or 1, all channels linear. The color space changes no pixel. The channels do: in a file of 3, alpha is
   255, whatever its chunks say. */
struct qoi_proved_header {
    uint32_t width, height;
    uint8_t channels, colorspace;
};

/* Which chunks an encoder writes. A decoder that follows QOI 1.0 gets the same pixels in each style. */
enum qoi_proved_style {
    QOI_PROVED_REFERENCE, /* those of qoi.h */
    QOI_PROVED_PLACES,    /* some runs of 1 as index positions, nearly as the Rust crate; as long as the former */
    QOI_PROVED_TIGHT      /* the shortest file, for decoders that follow QOI 1.0; the Rust crate 0.4.1 may get it wrong */
};

/* Why a call refused, and which fields it then fills. The others are 0. */
enum qoi_proved_code {
    QOI_PROVED_OK,
    QOI_PROVED_INVALID_MAGIC,            /* A file doesn't begin with qoif: magic, its first four bytes. */
    QOI_PROVED_INVALID_CHANNELS,         /* A file's number of channels isn't 3 or 4: channels. */
    QOI_PROVED_INVALID_COLORSPACE,       /* A file's color space isn't 0 or 1: colorspace. */
    QOI_PROVED_INVALID_IMAGE_DIMENSIONS, /* No pixels, or over 400,000,000: width, height. */
    QOI_PROVED_INVALID_IMAGE_LENGTH,     /* Another number of raw bytes than the image has: size, width, height. */
    QOI_PROVED_OUTPUT_BUFFER_TOO_SMALL,  /* size, required, in bytes. */
    QOI_PROVED_UNEXPECTED_BUFFER_END,    /* The file is cut. */
    QOI_PROVED_INVALID_PADDING,          /* No end marker follows the pixels. */
    QOI_PROVED_OUT_OF_MEMORY = 10,       /* Never of these calls: for programs that allocate. */
    QOI_PROVED_WRONG_CHANNELS,           /* The channels that were passed: channels. */
    QOI_PROVED_WRONG_COLORSPACE,         /* The color space that was passed: colorspace. */
    QOI_PROVED_WRONG_STYLE,              /* The style that was passed: style. */
    QOI_PROVED_WRONG_ROWS                /* The image hasn't these rows: first_row, rows, height. */
};

struct qoi_proved_error {
    uint32_t code;
    uint32_t magic, channels, colorspace, style;
    uint32_t width, height;
    uint32_t first_row, rows;
    size_t size, required;
};

/* The most bytes that the file of an image of this size can have, and that `qoi_proved_encode` asks for:
   22 + width * height * (channels + 1), or SIZE_MAX if that is more, also for a size that no image can have. */
size_t qoi_proved_encode_max_len(uint32_t width, uint32_t height, uint8_t channels);

/* Reads the header at the start of `file`. Fourteen bytes are enough, and no others are looked at. It refuses, in this order,
   UNEXPECTED_BUFFER_END, INVALID_CHANNELS, INVALID_COLORSPACE, INVALID_MAGIC, INVALID_IMAGE_DIMENSIONS; then `header` is
   unchanged. So what isn't QOI mostly comes as INVALID_CHANNELS: compare the first four bytes with `qoif`. */
uint32_t qoi_proved_read_header(const uint8_t *file, size_t file_len, struct qoi_proved_header *header,
                                struct qoi_proved_error *error);

/* `needed` is how many bytes the image at the start of `file` has, in 3 or 4 channels or, for 0, in the file's. Call this
   before you ask for memory, and compare `needed`, which is unchanged by a refusal, with a limit: a file of 6.5 MB may be an
   image of 1.6 GB. It refuses, in this order:
   - what qoi_proved_read_header refuses: `header` is unchanged;
   - WRONG_CHANNELS: `header` is filled;
   - as UNEXPECTED_BUFFER_END a file with too few bytes for its pixels, of which a byte makes 62 at most: `header` is filled. No
     whole file is refused so. */
uint32_t qoi_proved_decode_len(const uint8_t *file, size_t file_len, uint32_t channels, struct qoi_proved_header *header,
                               size_t *needed, struct qoi_proved_error *error);

/* Encodes `raw`, width * height * channels bytes, with the header's color space, to the start of `out`, which must have
   qoi_proved_encode_max_len bytes or more. `written` is how many bytes the file has; later bytes of `out` are unchanged. It
   refuses, in this order, WRONG_CHANNELS, WRONG_COLORSPACE, INVALID_IMAGE_DIMENSIONS, WRONG_STYLE, INVALID_IMAGE_LENGTH,
   OUTPUT_BUFFER_TOO_SMALL; then `out` and `written` are unchanged. */
uint32_t qoi_proved_encode(uint8_t *out, size_t out_len, const uint8_t *raw, size_t raw_len,
                           const struct qoi_proved_header *header, uint32_t style, size_t *written,
                           struct qoi_proved_error *error);

/* Decodes the image at the start of `file` to the start of `out`, in 3 or 4 channels or, for 0, in the file's. `out` must have
   `needed` bytes (of qoi_proved_decode_len) or more; later ones are unchanged. `left` is how many bytes follow the file, and
   is unchanged by a refusal. It refuses, in this order:
   - what qoi_proved_read_header refuses: `header` and `out` are unchanged;
   - WRONG_CHANNELS, OUTPUT_BUFFER_TOO_SMALL: `header` is filled, `out` is unchanged;
   - UNEXPECTED_BUFFER_END (cut behind the header), INVALID_PADDING: `header` is filled, the image's bytes in `out` may be
     overwritten. */
uint32_t qoi_proved_decode(uint8_t *out, size_t out_len, const uint8_t *file, size_t file_len, uint32_t channels,
                           struct qoi_proved_header *header, size_t *left, struct qoi_proved_error *error);

/* Decodes `rows` rows, perhaps none, from row `first_row` on, counted from 0, to the start of `out`, which must have
   rows * width * channels bytes or more; later ones are unchanged. This costs the decoding of all rows above them, too. It
   refuses what qoi_proved_decode refuses, and between WRONG_CHANNELS and OUTPUT_BUFFER_TOO_SMALL also WRONG_ROWS; each leaves
   unchanged what it does there. No whole file is refused for what stands behind its header, but not each broken file is: up to
   3,072 raw bytes behind the rows are decoded as well, and eight bytes behind their chunks may be looked at; what follows
   doesn't matter. After INVALID_PADDING all pixels are there, and the end marker is wrong. */
uint32_t qoi_proved_decode_rows(uint8_t *out, size_t out_len, const uint8_t *file, size_t file_len, uint32_t channels,
                                uint32_t first_row, uint32_t rows, struct qoi_proved_header *header,
                                struct qoi_proved_error *error);

/* The words for an error, 100 bytes at most, without a 0 at their end (printf takes them by "%.*s"); none for code 0. Writes
   what fits into `out`, and returns how many bytes that is. */
size_t qoi_proved_error_text(uint8_t *out, size_t out_len, const struct qoi_proved_error *error);

#ifdef __cplusplus
}
#endif

#endif
