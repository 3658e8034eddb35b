"""Draws docs/choices.svg, which README.md shows: size against throughput of other ways to keep a picture, relative to this
library, encoding above and decoding below."""
import math

from chart import COLORS, legend, text

LEFT, WIDE, HIGH = 60, 680, 230
TOPS = (62, 342)
SLOWEST, FASTEST = 0.005, 2.5
SMALLEST, LARGEST = 0.5, 1.6
SPEEDS = (0.01, 0.02, 0.05, 0.1, 0.2, 0.5, 1, 2)
SIZES = (0.6, 0.8, 1, 1.2, 1.4, 1.6)

# Where a way's name stands beside its first dot: of encoding, and of decoding.
ON_THE_LEFT, ON_THE_RIGHT = ("end", -10, 4), ("start", 10, 4)
PLACES = {
    "FFmpeg's QOI": (("end", -9, -5), ("middle", 8, 18)),
    "LZ4": (ON_THE_LEFT, ON_THE_RIGHT),
    "Zstandard 1": (ON_THE_RIGHT, ON_THE_LEFT),
    "PNG, level 1, sub": (("end", -9, -5), ("end", -9, -5)),
    "WebP, level 0": (ON_THE_LEFT, ON_THE_RIGHT),
}


def across(speed):
    return LEFT + WIDE * math.log(speed / SLOWEST) / math.log(FASTEST / SLOWEST)


def down(top, size):
    return top + HIGH * (LARGEST - size) / (LARGEST - SMALLEST)


def line(x1, y1, x2, y2, how):
    return f'<line x1="{x1:.1f}" y1="{y1:.1f}" x2="{x2:.1f}" y2="{y2:.1f}" {how}/>'


def axes(top, title):
    """A frame with numbers below and on the left, and lines where this library stands."""
    yield f'<rect x="{LEFT}" y="{top}" width="{WIDE}" height="{HIGH}" fill="none" stroke="#999999"/>'
    yield text(LEFT, top - 8, title)
    for speed in SPEEDS:
        yield text(across(speed), top + HIGH + 15, f"{speed:g}", "middle")
    for size in SIZES:
        yield text(LEFT - 6, down(top, size) + 4, f"{size:g}", "end")
    red = 'stroke="#b03030" stroke-dasharray="4 3"'
    yield line(across(1), top, across(1), top + HIGH, red)
    yield line(LEFT, down(top, 1), LEFT + WIDE, down(top, 1), red)
    yield text(across(1) + 5, down(top, 1) - 5, "this library")


def way(top, name, place, dots):
    """A dot for each set of pictures, joined by a line, and the name beside the first."""
    places = [(across(speed), down(top, size)) for size, speed in dots]
    for one, other in zip(places, places[1:]):
        yield line(*one, *other, 'stroke="#999999"')
    for (x, y), color in reversed([*zip(places, COLORS)]):
        yield f'<circle cx="{x:.1f}" cy="{y:.1f}" r="5" fill="{color}"/>'
    anchor, right, below = place
    yield text(places[0][0] + right, places[0][1] + below, name, anchor)


def svg(columns, head):
    """The picture. `columns` has for each set of pictures, and each way, size, encoding and decoding."""
    names = next(iter(columns.values()))
    lines = [*legend(12, "", columns)]
    for half, (top, title) in enumerate(zip(TOPS, ("encoding", "decoding"))):
        lines += axes(top, title)
        for name in names:
            place = PLACES.get(name, (ON_THE_LEFT, ON_THE_LEFT))[half]
            lines += way(top, name, place, [(its[name][0], its[name][1 + half]) for its in columns.values()])
    words = "across: throughput; up: size of the files; both relative to this library"
    lines.append(text(LEFT, TOPS[-1] + HIGH + 36, words))
    body = "\n".join(lines)
    return (f'<svg xmlns="http://www.w3.org/2000/svg" width="{LEFT + WIDE + 20}" height="{TOPS[-1] + HIGH + 50}" '
            f'font-family="sans-serif" font-size="12">\n<title>{head}</title>\n'
            f'<rect width="100%" height="100%" fill="white"/>\n{body}\n</svg>\n')


def draw(path, columns, head):
    path.write_text(svg(columns, head))
