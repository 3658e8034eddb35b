"""Teaches Pillow the format: after `import qoi_proved.pillow` its `Image.open` reads `.qoi`, and `save` writes it.

    >>> from PIL import Image
    >>> import qoi_proved.pillow
    >>> Image.new("RGB", (640, 480)).save("picture.qoi")
    >>> Image.open("picture.qoi").info
    {'colorspace': 'srgb'}

`save` takes `colorspace="linear"` (else that of `info`, or "srgb") and `style="places"` or `"tight"`, and only pictures of mode RGB or
RGBA. A broken picture is an `OSError`, as Pillow's own are, and Pillow's limit of pixels holds. Pillow has a plugin of its own from
version 9.5 on; this one takes its place, for reading and for writing.
"""

from __future__ import annotations

import contextlib
from typing import IO, Any, Type, TypeVar

from PIL import Image, ImageFile

from . import ColorSpace, Error, Style, decode, encode, read_header

with contextlib.suppress(ImportError):
    # Pillow would import its own later, and register it in place of this one.
    import PIL.QoiImagePlugin  # type: ignore[import]  # noqa: F401

FORMAT = "QOI"
_MODES = {3: "RGB", 4: "RGBA"}
_Choice = TypeVar("_Choice", ColorSpace, Style)


class QoiImageFile(ImageFile.ImageFile):
    """A picture whose header was read; its pixels are decoded when they are first wanted."""

    format = FORMAT
    format_description = "Quite OK Image"

    def _open(self) -> None:
        try:
            header = read_header(self.fp.read(14))
        except Error as error:
            raise SyntaxError(str(error)) from error
        self._size = header.width, header.height
        # A property since version 10.1, an attribute before
        setattr(self, "_mode" if hasattr(Image.Image, "mode") else "mode", _MODES[header.channels])
        self.info["colorspace"] = header.colorspace.name.lower()
        self.tile = [("raw", (0, 0, *self._size), 0, self.mode)]

    def load(self) -> Any:
        """Decodes the picture; before that Pillow asks for no memory."""
        if self.tile:
            self.fp.seek(0)
            try:
                pixels = decode(self.fp.read())[1]
            except Error as error:
                raise OSError(str(error)) from error
            self.tile = []
            self.load_prepare()
            self.frombytes(pixels)
            if self._exclusive_fp:
                self.fp.close()
            self.fp = None
        return super().load()


def _chosen(kind: Type[_Choice], value: Any) -> _Choice:
    """A member of an enumeration, by its name or its number."""
    if isinstance(value, str):
        if value.upper() not in kind.__members__:
            names = ", ".join(it.lower() for it in kind.__members__)
            raise ValueError(f"{value!r} is none of {names}")
        return kind[value.upper()]
    return kind(value)


def _save(image: Image.Image, fp: IO[bytes], filename: Any) -> None:
    if image.mode not in _MODES.values():
        raise OSError(f"cannot write mode {image.mode} as QOI: convert it to RGB or RGBA")
    options = getattr(image, "encoderinfo", {})
    found = image.info.get("colorspace")
    colorspace = options.get("colorspace", found if found in ("srgb", "linear") else "srgb")
    style = _chosen(Style, options.get("style", "reference"))
    fp.write(encode(image.tobytes(), *image.size, colorspace=_chosen(ColorSpace, colorspace), style=style))


def _accept(prefix: bytes) -> bool:
    return prefix[:4] == b"qoif"


Image.register_open(FORMAT, QoiImageFile, _accept)
Image.register_save(FORMAT, _save)
Image.register_extension(FORMAT, ".qoi")
Image.register_mime(FORMAT, "image/qoi")
