"""Why a picture is refused: names, fields and words are those of the Rust crate `qoi`, but for `OutOfMemory` and `TooManyPixels`."""

from __future__ import annotations

MAGIC = b"qoif"


class Error(Exception):
    """What each refusal of this package is."""


class InvalidMagic(Error):
    """The first four bytes aren't `qoif`; `magic` is their value, highest byte first."""

    def __init__(self, magic: int) -> None:
        super().__init__(magic)
        self.magic = magic

    def __str__(self) -> str:
        return f"invalid magic: expected {int.from_bytes(MAGIC, 'big')}, got {list(self.magic.to_bytes(4, 'big'))}"


class InvalidChannels(Error):
    """A number of channels other than 3 and 4, of a header, of raw bytes or of a call. So are most files that aren't QOI."""

    def __init__(self, channels: int) -> None:
        super().__init__(channels)
        self.channels = channels

    def __str__(self) -> str:
        return f"invalid number of channels: {self.channels}"


class InvalidColorSpace(Error):
    """A color space number other than 0 and 1."""

    def __init__(self, colorspace: int) -> None:
        super().__init__(colorspace)
        self.colorspace = colorspace

    def __str__(self) -> str:
        return f"invalid color space: {self.colorspace} (expected 0 or 1)"


class InvalidImageDimensions(Error):
    """Width times height is 0 or above 400,000,000 pixels."""

    def __init__(self, width: int, height: int) -> None:
        super().__init__(width, height)
        self.width = width
        self.height = height

    def __str__(self) -> str:
        return f"invalid image dimensions: {self.width}x{self.height}"


class InvalidImageLength(Error):
    """The number of raw bytes, `size`, isn't a multiple of the number of pixels."""

    def __init__(self, size: int, width: int, height: int) -> None:
        super().__init__(size, width, height)
        self.size = size
        self.width = width
        self.height = height

    def __str__(self) -> str:
        return f"invalid image length: {self.size} bytes for {self.width}x{self.height}"


class OutputBufferTooSmall(Error):
    """A buffer has `size` bytes, and `required` are needed. A file that another thread changes meanwhile can bring it about."""

    def __init__(self, size: int, required: int) -> None:
        super().__init__(size, required)
        self.size = size
        self.required = required

    def __str__(self) -> str:
        return f"output buffer size too small: {self.size} (required: {self.required})"


class UnexpectedBufferEnd(Error):
    """The file ends before header, chunks and end marker are whole."""

    def __str__(self) -> str:
        return "unexpected input buffer end while decoding"


class InvalidPadding(Error):
    """The eight bytes after the chunks aren't the end marker."""

    def __str__(self) -> str:
        return "invalid padding (stream end marker mismatch)"


class OutOfMemory(Error, MemoryError):
    """An allocation failed."""

    def __str__(self) -> str:
        return "out of memory"


class TooManyPixels(Error):
    """The picture has more pixels than the call's `max_pixels`."""

    def __init__(self, width: int, height: int, max_pixels: int) -> None:
        super().__init__(width, height, max_pixels)
        self.width = width
        self.height = height
        self.max_pixels = max_pixels

    def __str__(self) -> str:
        return f"too many pixels: {self.width}x{self.height}, and at most {self.max_pixels} are allowed"
