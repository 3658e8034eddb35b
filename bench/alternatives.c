/* Times this library beside other ways to keep a picture without a loss: FFmpeg's QOI, LZ4 and Zstandard of raw bytes, PNG, WebP.

   alternatives ROUNDS all|fast PICTURE..   a line for each way: the bytes of all files, seconds to make them and to read them
                                            back, and its name. Ways take turns at each picture, and the least time of each
                                            picture is added. With `fast` PNG and WebP, which take long, take no part

   A picture is a file of raw bytes, NAME.WIDTHxHEIGHTxCHANNELS.raw. All ways have one thread. What one needs for many pictures, and
   libavcodec for many of one size, is made before. It stops if a way gives back other pixels.

   So many bytes as SHIFT says stand ahead of all code, as in bench.c. */
#include <libavcodec/avcodec.h>
#include <lz4.h>
#include <malloc.h>
#include <png.h>
#include <stdint.h>
#include <stdio.h>
#include <stdlib.h>
#include <string.h>
#include <time.h>
#include <webp/decode.h>
#include <webp/encode.h>
#include <zstd.h>

#define WORDS_OF(number) #number
#define WORDS(number) WORDS_OF(number)
__asm__(".text\n.skip " WORDS(SHIFT));

enum { WAYS = 7, FAST = 4, MOST = 4000, LARGE = 10000 };

struct picture {
    uint32_t width, height, channels;
    size_t len, room, size[WAYS];
    uint8_t *raw, *out, *file[WAYS];
    AVCodecContext *encoder, *decoder;
    AVFrame *frame;
    AVPacket *packet;
};
static struct picture pictures[MOST];
static int count, taking_part = WAYS;
static int is_checked; /* while it is, what a call made in memory of its own is copied to `out` */

/* Both return how many bytes they made, or 0. An encoding call writes to `out`, which has `room`; a decoding one has room for
   the picture there. */
#define ENCODING(call) static size_t call(struct picture *p, uint8_t *out, size_t room)
#define DECODING(call) static size_t call(struct picture *p, uint8_t *out, const uint8_t *file, size_t size)
typedef size_t encode(struct picture *p, uint8_t *out, size_t room);
typedef size_t decode(struct picture *p, uint8_t *out, const uint8_t *file, size_t size);

static void fail(const char *why, const char *what) {
    fprintf(stderr, "%s: %s\n", what, why);
    exit(1);
}

size_t port_encode_buffer(uint8_t *out, size_t room, const uint8_t *raw, size_t len, uint32_t width, uint32_t height);
size_t port_decode_buffer(uint8_t *out, size_t room, const uint8_t *file, size_t len, uint32_t channels);

ENCODING(port_encode) { return port_encode_buffer(out, room, p->raw, p->len, p->width, p->height); }
DECODING(port_decode) { return port_decode_buffer(out, p->len, file, size, 0); }

static AVCodecContext *opened(const AVCodec *codec, const struct picture *p) {
    AVCodecContext *made = codec ? avcodec_alloc_context3(codec) : NULL;
    if (!made) fail("no QOI in this libavcodec", "FFmpeg");
    made->width = p->width, made->height = p->height, made->thread_count = 1;
    made->pix_fmt = p->channels == 4 ? AV_PIX_FMT_RGBA : AV_PIX_FMT_RGB24;
    made->time_base = (AVRational){1, 25};
    if (avcodec_open2(made, codec, NULL)) fail("can't be opened", "FFmpeg");
    return made;
}

static void leave(void *unused, uint8_t *bytes) { (void)unused, (void)bytes; }

/* Contexts for a picture, and a frame over its raw bytes. */
static void open_ffmpeg(struct picture *p) {
    AVFrame *frame = p->frame = av_frame_alloc();
    p->encoder = opened(avcodec_find_encoder(AV_CODEC_ID_QOI), p);
    p->decoder = opened(avcodec_find_decoder(AV_CODEC_ID_QOI), p);
    p->packet = av_packet_alloc();
    frame->format = p->encoder->pix_fmt, frame->width = p->width, frame->height = p->height;
    frame->buf[0] = av_buffer_create(p->raw, p->len, leave, NULL, AV_BUFFER_FLAG_READONLY);
    frame->data[0] = p->raw, frame->linesize[0] = p->width * p->channels;
}

ENCODING(ffmpeg_encode) {
    if (avcodec_send_frame(p->encoder, p->frame) || avcodec_receive_packet(p->encoder, p->packet)) return 0;
    size_t size = p->packet->size;
    if (is_checked && size <= room) memcpy(out, p->packet->data, size);
    av_packet_unref(p->packet);
    return size;
}

static AVFrame *decoded;

DECODING(ffmpeg_decode) {
    static AVPacket *packet;
    if (!packet) packet = av_packet_alloc(), decoded = av_frame_alloc();
    packet->data = (uint8_t *)file, packet->size = size;
    packet->buf = av_buffer_create(packet->data, size, leave, NULL, AV_BUFFER_FLAG_READONLY);
    if (avcodec_send_packet(p->decoder, packet) || avcodec_receive_frame(p->decoder, decoded)) return 0;
    av_packet_unref(packet);
    size_t row = (size_t)decoded->width * (decoded->format == AV_PIX_FMT_RGBA ? 4 : 3), made = row * decoded->height;
    for (int y = 0; is_checked && made <= p->len && y < decoded->height; y++)
        memcpy(out + row * y, decoded->data[0] + (ptrdiff_t)decoded->linesize[0] * y, row);
    return made;
}

ENCODING(lz4_encode) { return LZ4_compress_default((char *)p->raw, (char *)out, p->len, room); }
DECODING(lz4_decode) {
    int made = LZ4_decompress_safe((char *)file, (char *)out, size, p->len);
    return made < 0 ? 0 : made;
}

ENCODING(zstd_encode) {
    static ZSTD_CCtx *made;
    if (!made) made = ZSTD_createCCtx();
    size_t size = ZSTD_compressCCtx(made, out, room, p->raw, p->len, 1);
    return ZSTD_isError(size) ? 0 : size;
}
DECODING(zstd_decode) {
    static ZSTD_DCtx *made;
    if (!made) made = ZSTD_createDCtx();
    size_t taken = ZSTD_decompressDCtx(made, out, p->len, file, size);
    return ZSTD_isError(taken) ? 0 : taken;
}

/* The bytes that libpng has still to read, or the room that it has still to write to. */
struct bytes { uint8_t *at; size_t left; };

static uint8_t *next(png_structp png, size_t size) {
    struct bytes *bytes = png_get_io_ptr(png);
    if (size > bytes->left) png_error(png, "too few bytes");
    bytes->at += size, bytes->left -= size;
    return bytes->at - size;
}
static void put(png_structp png, png_bytep from, size_t size) { memcpy(next(png, size), from, size); }
static void get(png_structp png, png_bytep to, size_t size) { memcpy(to, next(png, size), size); }
static void flush(png_structp png) { (void)png; }

static size_t png_encode(struct picture *p, uint8_t *out, size_t room, int is_fast) {
    struct bytes bytes = {out, room};
    png_structp png = png_create_write_struct(PNG_LIBPNG_VER_STRING, NULL, NULL, NULL);
    png_infop info = png_create_info_struct(png);
    int color = p->channels == 4 ? PNG_COLOR_TYPE_RGB_ALPHA : PNG_COLOR_TYPE_RGB;
    png_set_write_fn(png, &bytes, put, flush);
    if (is_fast) png_set_compression_level(png, 1), png_set_filter(png, 0, PNG_FILTER_SUB);
    png_set_IHDR(png, info, p->width, p->height, 8, color, 0, 0, 0);
    png_write_info(png, info);
    for (uint32_t y = 0; y < p->height; y++) png_write_row(png, p->raw + (size_t)y * p->width * p->channels);
    png_write_end(png, info);
    png_destroy_write_struct(&png, &info);
    return room - bytes.left;
}
ENCODING(png_encode_fast) { return png_encode(p, out, room, 1); }
ENCODING(png_encode_own) { return png_encode(p, out, room, 0); }

DECODING(png_decode) {
    struct bytes bytes = {(uint8_t *)file, size};
    png_structp png = png_create_read_struct(PNG_LIBPNG_VER_STRING, NULL, NULL, NULL);
    png_infop info = png_create_info_struct(png);
    png_set_read_fn(png, &bytes, get);
    png_read_info(png, info);
    size_t row = png_get_rowbytes(png, info), made = row * png_get_image_height(png, info);
    for (size_t y = 0; made <= p->len && y * row < made; y++) png_read_row(png, out + y * row, NULL);
    png_read_end(png, NULL);
    png_destroy_read_struct(&png, &info, NULL);
    return made;
}

/* `exact` keeps the colors of transparent pixels. */
ENCODING(webp_encode) {
    WebPConfig config;
    WebPPicture picture;
    WebPMemoryWriter writer;
    if (!WebPConfigInit(&config) || !WebPConfigLosslessPreset(&config, 0) || !WebPPictureInit(&picture)) return 0;
    WebPMemoryWriterInit(&writer);
    config.exact = 1;
    picture.use_argb = 1, picture.width = p->width, picture.height = p->height;
    picture.writer = WebPMemoryWrite, picture.custom_ptr = &writer;
    int stride = p->width * p->channels;
    int is_right = (p->channels == 4 ? WebPPictureImportRGBA : WebPPictureImportRGB)(&picture, p->raw, stride)
        && WebPEncode(&config, &picture) && writer.size <= room;
    size_t size = is_right ? writer.size : 0;
    if (is_checked) memcpy(out, writer.mem, size);
    WebPPictureFree(&picture);
    WebPMemoryWriterClear(&writer);
    return size;
}
DECODING(webp_decode) {
    int stride = p->width * p->channels;
    return (p->channels == 4 ? WebPDecodeRGBAInto : WebPDecodeRGBInto)(file, size, out, p->len, stride) ? p->len : 0;
}

/* The first one's files are those of the second, byte for byte. The last ones are slow. */
static const struct way { const char *name; encode *encode; decode *decode; } ways[WAYS] = {
    {"this library", port_encode, port_decode},
    {"FFmpeg's QOI", ffmpeg_encode, ffmpeg_decode},
    {"LZ4", lz4_encode, lz4_decode},
    {"Zstandard 1", zstd_encode, zstd_decode},
    {"PNG, level 1, sub", png_encode_fast, png_decode},
    {"PNG", png_encode_own, png_decode},
    {"WebP, level 0", webp_encode, webp_decode},
};

static void load(const char *path) {
    struct picture *p = &pictures[count++];
    const char *slash = strrchr(path, '/'), *dot = strchr(slash ? slash : path, '.');
    if (count > MOST) fail("too many pictures", path);
    if (!dot || sscanf(dot, ".%ux%ux%u", &p->width, &p->height, &p->channels) != 3) fail("not a picture's name", path);
    p->len = (size_t)p->width * p->height * p->channels, p->room = p->len * 2 + 4096;
    p->raw = malloc(p->len + AV_INPUT_BUFFER_PADDING_SIZE), p->out = calloc(1, p->room);
    FILE *stream = fopen(path, "rb");
    if (!stream || fread(p->raw, 1, p->len, stream) != p->len) fail("can't be read", path);
    fclose(stream);
    open_ffmpeg(p);
}

/* Keeps each way's file, and compares what it gives back. */
static void check(struct picture *p) {
    is_checked = 1;
    for (int w = 0; w < taking_part; w++) {
        size_t size = p->size[w] = ways[w].encode(p, p->out, p->room);
        p->file[w] = calloc(1, size + AV_INPUT_BUFFER_PADDING_SIZE);
        memcpy(p->file[w], p->out, size);
        memset(p->out, 1, p->len);
        int is_same = size && ways[w].decode(p, p->out, p->file[w], size) == p->len && !memcmp(p->out, p->raw, p->len);
        if (!is_same) fail("gives back other pixels", ways[w].name);
    }
    int is_same = p->size[0] == p->size[1] && !memcmp(p->file[0], p->file[1], p->size[0]);
    if (!is_same) fail("makes another file", ways[1].name);
    is_checked = 0;
}

static double now(void) {
    struct timespec t;
    clock_gettime(CLOCK_THREAD_CPUTIME_ID, &t);
    return t.tv_sec + t.tv_nsec * 1e-9;
}

/* The pictures from `first` to `end`, encoded and decoded so many times: the least seconds so far of each. */
static void pass(const struct way *way, int first, int end, int repeats, double least[2]) {
    int w = way - ways;
    for (int decodes = 0; decodes < 2; decodes++) {
        double start = now();
        for (int r = 0; r < repeats; r++)
            for (struct picture *p = pictures + first; p < pictures + end; p++)
                if (!(decodes ? way->decode(p, p->out, p->file[w], p->size[w]) : way->encode(p, p->out, p->room)))
                    fail("refuses", way->name);
        double taken = (now() - start) / repeats;
        if (taken < least[decodes]) least[decodes] = taken;
    }
}

static size_t pixels_of(int i) { return (size_t)pictures[i].width * pictures[i].height; }

/* Those of fewer than `LARGE` pixels that follow each other are timed together, again and again until they have about a
   million pixels. */
static void time_ways(int rounds, double sums[WAYS][2]) {
    for (int first = 0, end; first < count; first = end) {
        size_t pixels = pixels_of(first);
        int repeats = 1;
        double least[WAYS][2];
        end = first + 1;
        if (pixels < LARGE) {
            for (; end < count && pixels_of(end) < LARGE; end++) pixels += pixels_of(end);
            repeats += 1000000 / pixels;
        }
        for (int w = 0; w < taking_part; w++) least[w][0] = least[w][1] = 1e9;
        for (int r = 0; r < rounds; r++)
            for (int w = 0; w < taking_part; w++) pass(&ways[w], first, end, repeats, least[w]);
        for (int w = 0; w < taking_part; w++) sums[w][0] += least[w][0], sums[w][1] += least[w][1];
    }
}

int main(int argc, char **argv) {
    static double sums[WAYS][2];
    if (argc < 4) return 2;
    if (!strcmp(argv[2], "fast")) taking_part = FAST;
    mallopt(M_MMAP_MAX, 0);
    mallopt(M_TRIM_THRESHOLD, -1);
    for (int a = 3; a < argc; a++) load(argv[a]);
    for (int i = 0; i < count; i++) check(&pictures[i]);
    time_ways(atoi(argv[1]), sums);
    for (int w = 0; w < taking_part; w++) {
        size_t size = 0;
        for (int i = 0; i < count; i++) size += pictures[i].size[w];
        printf("%zu\t%.9f\t%.9f\t%s\n", size, sums[w][0], sums[w][1], ways[w].name);
    }
    return 0;
}
