"""The pictures of bench/run by kind: out of games, those changed as pictures are, and made ones, the same in each run."""
import concurrent.futures
import pathlib
import random
import shutil

import builds

SIDE = 1024
GAMES_AT = "/usr/share/games"
WESNOTH = "wesnoth/1.16/data/core/images"

# Of each kind Debian's package, which of its pictures, and how many of them are taken, evenly.
GAMES = {
    "textures": ("extremetuxracer-data", f"{GAMES_AT}/etr/terrains/*.png", 30),
    "block textures": ("minetest-data", f"{GAMES_AT}/minetest/games/minetest_game/mods/default/textures/default_*.png", 160),
    "buildings": ("lincity-ng-data", f"{GAMES_AT}/lincity-ng/images/tiles/*.png", 40),
    "portraits": ("wesnoth-1.16-data", f"{GAMES_AT}/{WESNOTH}/portraits/**/*.png", 16),
    "sheets of tiles": ("crawl-tiles-data", "/usr/share/crawl/dat/tiles/[fgimpw]*.png", 7),
    "sprites": ("pingus-data", f"{GAMES_AT}/pingus/data/images/groundpieces/**/*.png", 60),
    "game icons": ("wesnoth-1.16-data", f"{GAMES_AT}/{WESNOTH}/attacks/*.png", 60),
    "units": ("wesnoth-1.16-data", f"{GAMES_AT}/{WESNOTH}/units/**/*.png", 60),
    "tile sets": ("freeciv-data", f"{GAMES_AT}/freeciv/*mplio*/*.png", 20),
    "terrain": ("wesnoth-1.16-data", f"{GAMES_AT}/{WESNOTH}/terrain/**/*.png", 60),
}
PACKAGES = sorted({package for package, _, _ in GAMES.values()})


def few_colors(count, dither):
    """A filter that leaves so many colors, which are chosen for the picture."""
    return f"split[a][b];[a]palettegen=max_colors={count}[p];[b][p]paletteuse=dither={dither},format=rgb24"


# Of each kind the kind that is changed, and by which filter of ffmpeg. The textures are photographs.
CHANGED = {
    "noisy photographs": ("textures", "noise=alls=12:allf=t"),
    "gray photographs": ("textures", "format=gray"),
    "256 colors, Bayer": ("textures", few_colors(256, "bayer")),
    "256 colors, Sierra": ("textures", few_colors(256, "sierra2_4a")),
    "32 colors, Bayer": ("textures", few_colors(32, "bayer")),
    "32 colors, Sierra": ("textures", few_colors(32, "sierra2_4a")),
    "edges": ("textures", "edgedetect"),
    "units twice as large": ("units", "scale=2*iw:2*ih:flags=neighbor"),
    "units three times": ("units", "scale=3*iw:3*ih:flags=neighbor"),
    "sprites twice as large": ("sprites", "scale=2*iw:2*ih:flags=neighbor"),
    "sprites three times": ("sprites", "scale=3*iw:3*ih:flags=neighbor"),
}


def noise(chosen, channels):
    return chosen.randbytes(SIDE * SIDE * channels)


def gray_noise(chosen, channels):
    return b"".join(bytes((it,)) * channels for it in chosen.randbytes(SIDE * SIDE))


def grain(chosen, channels):
    """A gradient, and in each channel a little noise of its own."""
    base = [32 + (x + y) * 96 / SIDE for y in range(SIDE) for x in range(SIDE)]
    return bytes(round(it + chosen.gauss(0, 4)) for it in base for _ in range(channels))


def palette(chosen, channels):
    """Forty colors in any order."""
    colors = [chosen.randbytes(channels) for _ in range(40)]
    return b"".join(chosen.choices(colors, k=SIDE * SIDE))


def runs(chosen, channels, length):
    """Each pixel so many times, and always another one."""
    pixels = (chosen.randbytes(channels) * length for _ in range(SIDE * SIDE // length + 1))
    return b"".join(pixels)[: SIDE * SIDE * channels]


def moved(chosen, pixel, most, few):
    """A pixel with another red, green and blue: green by so much at most, the others by nearly as much."""
    green = chosen.choice((-1, 1)) * chosen.randint(few, most)
    steps = (green + chosen.randint(-few, few), green, green + chosen.randint(-few, few))
    return bytes((it + step) % 256 for it, step in zip(pixel, steps)) + pixel[3:]


def luma(chosen, channels):
    pixel, made = bytes(channels), bytearray()
    for _ in range(SIDE * SIDE):
        pixel = moved(chosen, pixel, 31, 7)
        made += pixel
    return bytes(made)


def chunks(chosen, weights, longest):
    """Pixels whose chunks come in any order: index position, difference, luma, run, RGB and RGBA, by weight."""
    pixel, made, seen = bytes((0, 0, 0, 255)), bytearray(), [bytes(4)] * 64
    while len(made) < SIDE * SIDE * 4:
        kind = chosen.choices(range(6), weights)[0]
        if kind == 0:
            pixel = chosen.choice(seen)
        elif kind == 1:
            pixel = bytes((it + chosen.choice((-1, 1))) % 256 for it in pixel[:3]) + pixel[3:]
        elif kind == 2:
            pixel = moved(chosen, pixel, 31, 7)
        elif kind == 4:
            pixel = chosen.randbytes(3) + pixel[3:]
        elif kind == 5:
            pixel = chosen.randbytes(4)
        made += pixel * (chosen.randint(1, longest) if kind == 3 else 1)
        red, green, blue, alpha = pixel
        seen[(red * 3 + green * 5 + blue * 7 + alpha * 11) % 64] = pixel
    return bytes(made[: SIDE * SIDE * 4])


def mix(chosen, _channels):
    return chunks(chosen, (6, 6, 6, 2, 3, 1), 20)


def any_chunk(chosen, _channels):
    """The picture of the least pixels a second: nothing tells what kind of chunk comes next."""
    return chunks(chosen, (1, 1, 1, 0, 1, 1), 1)


def any_run(chosen, _channels):
    """The picture whose file has the least bytes a second: nothing tells whether a run comes next, and how long it is."""
    return chunks(chosen, (1, 0, 0, 1, 0, 0), 62)


# Of each kind how many channels, and who makes it.
MADE = {
    "palette, RGB": (3, palette),
    "palette, RGBA": (4, palette),
    "noise, RGB": (3, noise),
    "noise, RGBA": (4, noise),
    "gray noise": (3, gray_noise),
    "grain": (3, grain),
    "runs of two": (4, lambda chosen, channels: runs(chosen, channels, 2)),
    "runs of ten": (4, lambda chosen, channels: runs(chosen, channels, 10)),
    "luma": (3, luma),
    "mix": (4, mix),
    "any chunk": (4, any_chunk),
    "any run": (4, any_run),
}


def of_game(pattern, count):
    """So many of the pictures with such a name, evenly."""
    found = sorted(it for it in pathlib.Path("/").glob(pattern[1:]) if it.is_file() and not it.is_symlink())
    count = min(count, len(found))
    return [found[(2 * i + 1) * len(found) // (2 * count)] for i in range(count)]


def changed(source, to, by):
    """A picture, changed by a filter: the file that it is written to."""
    builds.run("ffmpeg", "-v", "error", "-i", source, "-filter_complex", by, "-frames:v", "1", to)
    return to


def convert(kind, new, raw):
    """Converts the pictures of a kind that come out of games, changed or as they are."""
    of, by = CHANGED.get(kind, (kind, None))
    numbered = [(it, new / f"{i:03}") for i, it in enumerate(of_game(*GAMES[of][1:]))]
    with concurrent.futures.ThreadPoolExecutor() as pool:
        list(pool.map(lambda it: raw(changed(it[0], it[1].with_suffix(".png"), by) if by else it[0], it[1]), numbered))


def pictures(room, raw):
    """Each kind's name, and its pictures, which `raw` converts: a folder of each below `room`, made once."""
    for kind in (*GAMES, *CHANGED, *MADE):
        folder = room / kind.replace(",", "").replace(" ", "-")
        if not folder.exists():
            shutil.rmtree(room / "new", ignore_errors=True)
            (room / "new").mkdir(parents=True)
            if kind in MADE:
                channels, make = MADE[kind]
                made = make(random.Random(kind), channels)
                (room / "new" / f"made.{SIDE}x{SIDE}x{channels}.raw").write_bytes(made)
            else:
                convert(kind, room / "new", raw)
            (room / "new").rename(folder)
        yield kind, sorted(folder.glob("*.raw"))
