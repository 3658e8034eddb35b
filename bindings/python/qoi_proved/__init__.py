"""QOI pictures, encoded and decoded by a library whose functions are proved.

    >>> import qoi_proved
    >>> file = qoi_proved.encode(bytes([11, 121, 231, 11, 121, 231]), 2, 1)
    >>> header, pixels = qoi_proved.decode(file)
    >>> header
    Header(width=2, height=1, channels=3, colorspace=<ColorSpace.SRGB: 0>)
    >>> list(pixels)
    [11, 121, 231, 11, 121, 231]

Raw bytes are R, G, B and perhaps A of each pixel, row by row. Files and raw bytes go in as any contiguous buffer of bytes (`bytes`,
`bytearray`, `memoryview`, `mmap`, arrays of numpy), without a copy. Other threads run meanwhile: if one of them changes the buffer, or
another process a mapped file, nothing is proved, not even that memory is safe, so pass `bytes(..)` of it. An array of numpy knows its
size, and a decoded picture becomes one:

    encode(array)  # of shape (height, width, 3 or 4) and type uint8
    numpy.frombuffer(pixels, numpy.uint8).reshape(header.height, header.width, -1)

A refusal is an exception below `Error`, of the Rust crate's name and words. Not below it are an `IndexError` for rows that a picture
doesn't have, a `TypeError` for what isn't a buffer, and a `ValueError` for a number that no picture could have. For untrusted files
pass `max_pixels`: 6.5 MB may be a picture of 400,000,000 pixels, 1.6 GB. `import qoi_proved.pillow` teaches Pillow the format.
"""

from __future__ import annotations

import enum
import operator
import os
from typing import TYPE_CHECKING, Any, NamedTuple, Optional, SupportsIndex, Tuple, Union

from ._library import Bytes, CError, CHeader, check, fresh, held, library, no_rows, size, start
from .errors import (
    Error,
    InvalidChannels,
    InvalidColorSpace,
    InvalidImageDimensions,
    InvalidImageLength,
    InvalidMagic,
    InvalidPadding,
    OutOfMemory,
    OutputBufferTooSmall,
    TooManyPixels,
    UnexpectedBufferEnd,
)

if TYPE_CHECKING:
    from _typeshed import ReadableBuffer
else:
    ReadableBuffer = Any

__all__ = [
    "ColorSpace",
    "Error",
    "Header",
    "InvalidChannels",
    "InvalidColorSpace",
    "InvalidImageDimensions",
    "InvalidImageLength",
    "InvalidMagic",
    "InvalidPadding",
    "MAX_PIXELS",
    "OutOfMemory",
    "OutputBufferTooSmall",
    "Style",
    "TooManyPixels",
    "UnexpectedBufferEnd",
    "decode",
    "decode_rows",
    "encode",
    "read",
    "read_header",
    "write",
]

MAX_PIXELS = 400_000_000
"""The most pixels that a picture of this format may have."""

_Path = Union[str, bytes, "os.PathLike[str]", "os.PathLike[bytes]"]


class ColorSpace(enum.IntEnum):
    """What a file says of its numbers; no call changes them for it."""

    SRGB = 0
    LINEAR = 1


class Style(enum.IntEnum):
    """The choice of chunks. Each makes a file of the same picture."""

    REFERENCE = 0
    """The files of the C library."""
    PLACES = 1
    """Some runs of one pixel as index positions, nearly as the Rust crate's default build writes them; no shorter."""
    TIGHT = 2
    """The shortest files, for decoders that follow QOI 1.0; the Rust crate may decode them wrongly."""


class Header(NamedTuple):
    """The size of a picture in pixels, its channels (3 or 4) and its color space."""

    width: int
    height: int
    channels: int
    colorspace: ColorSpace


def read_header(file: ReadableBuffer) -> Header:
    """The header of the file at the start of the bytes, of which the first fourteen suffice.

    Raises `UnexpectedBufferEnd`, `InvalidChannels`, `InvalidColorSpace`, `InvalidMagic` or `InvalidImageDimensions`, the first that
    applies. So what isn't QOI is mostly `InvalidChannels`: compare the first four bytes with `b"qoif"`.
    """
    header, error = CHeader(), CError()
    with held(file, "file") as given:
        library.qoi_proved_read_header(*given.slice, header, error)
    check(error)
    return _header(header)


def decode(
    file: ReadableBuffer, channels: Optional[int] = None, *, max_pixels: int = MAX_PIXELS
) -> Tuple[Header, bytes]:
    """The header and the raw bytes of the file at the start of the bytes, in its channels or in those that are named (3 or 4).

    In three channels alpha is left out. If the header says three, it is 255 in four, whatever the chunks say. What follows the file
    doesn't matter.

    Raises what `read_header` raises, `InvalidChannels` for other channels, `TooManyPixels` if the picture has more than `max_pixels`
    (400,000,000 unless named, the most that any has), `UnexpectedBufferEnd`, `InvalidPadding`, `OutOfMemory`. No memory is asked for
    if the bytes can't hold so many pixels.
    """
    wanted = _channels(channels)
    header, left, error = CHeader(), size(), CError()
    with held(file, "file") as given:
        pixels = fresh(_needed(given, wanted, max_pixels)[1])
        library.qoi_proved_decode(start(pixels), len(pixels), *given.slice, wanted, header, left, error)
    check(error)
    return _header(header), pixels


def decode_rows(
    file: ReadableBuffer, first: int, count: int, channels: Optional[int] = None, *, max_pixels: int = MAX_PIXELS
) -> Tuple[Header, bytes]:
    """The header of the file at the start of the bytes, and the raw bytes of `count` rows from row `first` on, counted from 0.

    All rows above are decoded, too, but only these take memory. What is broken below them may go unnoticed. No rows are `b""`.

    Raises what `decode` raises, and `IndexError`, which is no `Error`, if the picture doesn't have these rows. `max_pixels` bounds the
    whole picture.
    """
    wanted = _channels(channels)
    first, count = _number(first, "first"), _number(count, "count")
    header, error = CHeader(), CError()
    with held(file, "file") as given:
        whole = _needed(given, wanted, max_pixels)[0]
        if first + count > whole.height:
            raise no_rows(first, count, whole.height)
        if not count:
            return whole, b""
        rows = fresh(count * whole.width * (wanted or whole.channels))
        library.qoi_proved_decode_rows(start(rows), len(rows), *given.slice, wanted, first, count, header, error)
    check(error)
    return _header(header), rows


def encode(
    pixels: ReadableBuffer,
    width: Optional[int] = None,
    height: Optional[int] = None,
    *,
    colorspace: int = ColorSpace.SRGB,
    style: int = Style.REFERENCE,
) -> bytes:
    """The file of a picture, of three or four channels, as there are bytes for each pixel.

    A buffer of shape (height, width, 3 or 4), as an array of numpy, needs no width and height; if they are given, they must be its own.

    Raises `InvalidImageDimensions`, `InvalidImageLength`, `InvalidChannels`, `OutOfMemory`.
    """
    colorspace, style = ColorSpace(colorspace), Style(style)
    written, error = size(), CError()
    with held(pixels, "pixels") as given:
        width, height = _size(given.shape, width, height)
        header = CHeader(width, height, _channels_found(given.slice[1], width, height), colorspace)
        file = fresh(library.qoi_proved_encode_max_len(width, height, header.channels))
        library.qoi_proved_encode(start(file), len(file), *given.slice, header, style, written, error)
    check(error)
    return file[: written.value]


def read(
    path: _Path, channels: Optional[int] = None, *, max_pixels: int = MAX_PIXELS
) -> Tuple[Header, bytes]:
    """Reads a file, the whole of it, and decodes it as `decode` does. Also raises an `OSError`, if it can't be read."""
    with open(path, "rb") as source:
        return decode(source.read(), channels, max_pixels=max_pixels)


def write(
    path: _Path,
    pixels: ReadableBuffer,
    width: Optional[int] = None,
    height: Optional[int] = None,
    *,
    colorspace: int = ColorSpace.SRGB,
    style: int = Style.REFERENCE,
) -> int:
    """Encodes a picture as `encode` does, and writes it to a file: how many bytes it has.

    Also raises an `OSError`, if it can't be written. A picture that is refused leaves an older file as it is.
    """
    file = encode(pixels, width, height, colorspace=colorspace, style=style)
    with open(path, "wb") as target:
        return target.write(file)


def _header(header: CHeader) -> Header:
    return Header(header.width, header.height, header.channels, ColorSpace(header.colorspace))


def _needed(file: Bytes, channels: int, max_pixels: int) -> Tuple[Header, int]:
    """The header, and how many bytes a buffer for its picture needs, unless the bytes can't hold it, or it is too large."""
    header, needed, error = CHeader(), size(), CError()
    library.qoi_proved_decode_len(*file.slice, channels, header, needed, error)
    check(error)
    if header.width * header.height > max_pixels:
        raise TooManyPixels(header.width, header.height, max_pixels)
    return _header(header), needed.value


def _channels(channels: Optional[int]) -> int:
    """As the entries take them: 0 for the file's own."""
    if channels is None:
        return 0
    if channels not in (3, 4):
        raise InvalidChannels(operator.index(channels))
    return operator.index(channels)


def _number(value: SupportsIndex, name: str) -> int:
    """A number of pixels or rows, as the entries take it."""
    number = operator.index(value)
    if not 0 <= number < 2**32:
        raise ValueError(f"{name} is {number}, and must be 0 to 4294967295")
    return number


def _size(shape: Tuple[int, ...], width: Optional[int], height: Optional[int]) -> Tuple[int, int]:
    """The size that is given, or that of a buffer of this shape."""
    if len(shape) == 3:
        for given, found, name in ((width, shape[1], "width"), (height, shape[0], "height")):
            if given is not None and given != found:
                raise ValueError(f"{name} is {given}, but the buffer has the shape (height, width, channels) {shape}")
        height, width, _ = shape
    if width is None or height is None:
        raise ValueError("width and height are wanted, unless the buffer has the shape (height, width, channels)")
    return _number(width, "width"), _number(height, "height")


def _channels_found(length: int, width: int, height: int) -> int:
    """How many bytes there are for each pixel."""
    pixels = width * height
    if not 1 <= pixels <= MAX_PIXELS:
        raise InvalidImageDimensions(width, height)
    if length % pixels:
        raise InvalidImageLength(length, width, height)
    if length // pixels not in (3, 4):
        raise InvalidChannels(min(length // pixels, 255))
    return length // pixels
