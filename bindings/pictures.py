"""Pictures for the tests, and files of them that our library didn't make: by a model of QOI 1.0 in plain Python, and by qoi.h."""
import ctypes
import pathlib
import random
import shutil
import struct
import subprocess

END_MARKER = bytes(7) + b"\1"
RUN_MAX = 62


def header(width, height, channels, colorspace=0):
    return b"qoif" + struct.pack(">IIBB", width, height, channels, colorspace)


def plain_file(raw, width, height, channels, colorspace=0):
    """A file with a chunk of its own for each pixel, RGB or RGBA."""
    tag = b"\xfe" if channels == 3 else b"\xff"
    chunks = b"".join(tag + raw[at : at + channels] for at in range(0, len(raw), channels))
    return header(width, height, channels, colorspace) + chunks + END_MARKER


def file(raw, width, height, channels, colorspace=0):
    """A file with chunks of all kinds."""
    chunks, table, before, run = bytearray(), [(0, 0, 0, 0)] * 64, (0, 0, 0, 255), 0
    for at in range(0, len(raw), channels):
        pixel = (*raw[at : at + channels], 255)[:4]
        if pixel == before:
            run += 1
            if run == RUN_MAX:
                chunks.append(0xC0 + run - 1)
                run = 0
            continue
        if run:
            chunks.append(0xC0 + run - 1)
            run = 0
        chunks += chunk(pixel, before, table)
        before = pixel
    if run:
        chunks.append(0xC0 + run - 1)
    return header(width, height, channels, colorspace) + chunks + END_MARKER


def chunk(pixel, before, table):
    """The chunk of a pixel that isn't the one before, which it puts into the table."""
    r, g, b, a = pixel
    place = (3 * r + 5 * g + 7 * b + 11 * a) % 64
    if table[place] == pixel:
        return bytes([place])
    table[place] = pixel
    if a != before[3]:
        return bytes([0xFF, *pixel])
    dr, dg, db = ((new - old + 128) % 256 - 128 for new, old in zip(pixel[:3], before))
    if all(-2 <= it <= 1 for it in (dr, dg, db)):
        return bytes([0x40 | dr + 2 << 4 | dg + 2 << 2 | db + 2])
    if -32 <= dg <= 31 and all(-8 <= it - dg <= 7 for it in (dr, db)):
        return bytes([0x80 | dg + 32, dr - dg + 8 << 4 | db - dg + 8])
    return bytes([0xFE, r, g, b])


def pictures():
    """A name, raw bytes, width, height and channels of each picture."""
    chosen = random.Random(7)
    noise = chosen.randbytes(31 * 17 * 4)
    palette = [chosen.randbytes(4) for _ in range(9)]
    yield "a pixel", bytes([11, 121, 231]), 1, 1, 3
    yield "a pixel that is hardly there", bytes([11, 121, 231, 1]), 1, 1, 4
    yield "opaque black", bytes([0, 0, 0, 255]) * 35, 7, 5, 4
    yield "nothing", bytes(4 * 35), 5, 7, 4
    yield "noise", noise[: 31 * 17 * 3], 31, 17, 3
    yield "noise with alpha", noise, 17, 31, 4
    yield "runs", b"".join(bytes([it]) * 3 * (58 + it % 8) for it in range(48))[: 3 * 59 * 48], 59, 48, 3
    yield "a column", noise[: 3 * 300], 1, 300, 3
    yield "a row", noise[: 4 * 300], 300, 1, 4
    yield "a palette", b"".join(chosen.choice(palette) for _ in range(40 * 40)), 40, 40, 4
    yield "a gradient", bytes(it for y in range(48) for x in range(64) for it in (x + y, 2 * x, 255 - x - y)), 64, 48, 3
    yield "a gradient of alpha", bytes(it for y in range(64) for x in range(64) for it in (x, y, x + y, 4 * y)), 64, 64, 4
    yield "steps", b"".join(bytes([it % 256, it // 5 % 256, it // 9 % 256]) for it in range(70 * 30)), 70, 30, 3


C_LIBRARY = """
#define QOI_IMPLEMENTATION
#include <qoi.h>
void *encoded(const void *data, unsigned width, unsigned height, unsigned char channels, unsigned char colorspace, int *size) {
    qoi_desc description = {width, height, channels, colorspace};
    return qoi_encode(data, &description, size);
}
void *decoded(const void *file, int size) {
    qoi_desc description;
    return qoi_decode(file, size, &description, 0);
}
void released(void *block) { free(block); }
"""


class CLibrary:
    """The C library, built in a folder. `why` says why it isn't there, and is None if it is."""

    why = None

    def __init__(self, folder):
        if not shutil.which("cc") or not pathlib.Path("/usr/include/qoi.h").exists():
            self.why = "no cc, or no qoi.h (Debian's libqoi-dev)"
            return
        source, built = pathlib.Path(folder, "qoi.c"), pathlib.Path(folder, "qoi.so")
        source.write_text(C_LIBRARY)
        subprocess.run(["cc", "-O3", "-shared", "-fPIC", "-o", built, source], check=True)
        self.library = ctypes.CDLL(str(built))
        for it in (self.library.encoded, self.library.decoded):
            it.restype = ctypes.c_void_p

    def encode(self, raw, width, height, channels, colorspace=0):
        size = ctypes.c_int()
        block = self.library.encoded(raw, width, height, channels, colorspace, ctypes.byref(size))
        file = ctypes.string_at(block, size.value)
        self.library.released(ctypes.c_void_p(block))
        return file


BACKGROUNDS = ["adwaita-l", "licorice-l", "pixels-d", "vnc-d", "wood-d"]  # of Debian's gnome-backgrounds, as bench/run has them


def large():
    """Pictures of 8 megapixels for timing: those backgrounds that are there, if Pillow is, and two that are made. Yields as `pictures`."""
    width, height = 3840, 2160
    for it in BACKGROUNDS:
        path = pathlib.Path(f"/usr/share/backgrounds/gnome/{it}.webp")
        if path.exists():
            from PIL import Image

            with Image.open(path) as image:
                yield it, image.convert("RGB").resize((width, height)).tobytes(), width, height, 3
    row = bytes(it for x in range(width) for it in (x // 15, x // 30, 255 - x // 15, 255 - x // 60))
    yield "made, four channels", row * height, width, height, 4
    yield "made, noise", random.Random(3).randbytes(3 * width * 8) * (height // 8), width, height, 3
