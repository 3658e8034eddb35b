"""The pictures that the commands of this folder time: converted to raw bytes, and kept in a folder."""
import pathlib
import random
import re

from builds import ROOM, run

PICTURES = ROOM / "pictures"
FOLDER = "/usr/share/backgrounds/gnome"
BACKGROUNDS = ["adwaita-l", "grid-l", "licorice-l", "pixels-d", "symbolic-l", "truchet-l", "vnc-d", "wood-d"]
PACKAGES = ["ffmpeg", "gnome-backgrounds", "gnome-icon-theme"]


def probe(source):
    """The format of a picture's pixels, and its size."""
    shown = ("-select_streams", "v:0", "-show_entries", "stream=width,height,pix_fmt", "-of", "csv=p=0:s=x")
    width, height, pixels = run("ffprobe", "-v", "error", *shown, source).split()[0].split("x")
    return pixels, f"{width}x{height}"


def raw(source, name, channels, size="", anew=False):
    """Converts a picture to raw bytes, at another size if one is given, unless an earlier run did."""
    size = size or probe(source)[1]
    to = PICTURES / f"{name}.{size}x{channels}.raw"
    if anew or not to.exists():
        scale = ["-vf", f"scale={size.replace('x', ':')}", "-frames:v", "1"]
        pixels = "rgba" if channels == 4 else "rgb24"
        run("ffmpeg", "-v", "error", "-y", "-i", source, *scale, "-f", "rawvideo", "-pix_fmt", pixels, to)
    return to


def as_it_is(path, name):
    """Converts a picture, with a fourth channel if it has one."""
    pixels, size = probe(path)
    has_alpha = re.match("ya|yuva|rgba|bgra|argb|abgr|gbrap|pal8", pixels)
    return raw(path, name, 4 if has_alpha else 3, size, anew=True)


def large():
    """Nine of 8 megapixels, the last one in four channels."""
    found = [raw(f"{FOLDER}/{it}.webp", it, 3, "3840x2160") for it in BACKGROUNDS]
    return [*found, raw(f"{FOLDER}/licorice-d.webp", "licorice-d", 4)]


def icons(size, each):
    """Every so many icons of a size, one."""
    found = sorted(pathlib.Path(f"/usr/share/icons/gnome/{size}x{size}").rglob("*.png"))
    found = [it for it in found if it.is_file() and not it.is_symlink()]
    return [raw(it, f"icon{size}_{i}", 4) for i, it in enumerate(found[::each])]


def squares(sources, side):
    """Four parts of each icon, so many pixels wide and high."""
    chosen = random.Random(side)
    for source in sources:
        width, height, channels = map(int, re.search(r"\.(\d+)x(\d+)x(\d)\.raw$", source.name).groups())
        data = source.read_bytes()
        for part in range(4):
            x, y = chosen.randrange(width - side + 1), chosen.randrange(height - side + 1)
            to = PICTURES / f"part{side}_{part}_{source.name.split('.')[0]}.{side}x{side}x{channels}.raw"
            if not to.exists():
                starts = [((y + line) * width + x) * channels for line in range(side)]
                to.write_bytes(b"".join(data[it : it + side * channels] for it in starts))
            yield to


def named(paths):
    """Those that a command names."""
    return [as_it_is(it, f"named{i}") for i, it in enumerate(paths)]
