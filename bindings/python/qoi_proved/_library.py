"""The library's entries, by ctypes, and the memory that goes in and out of them."""

from __future__ import annotations

import contextlib
import ctypes
import pathlib
from typing import TYPE_CHECKING, Any, Iterator, NamedTuple, Optional, Tuple

from . import errors

if TYPE_CHECKING:
    from _typeshed import ReadableBuffer
else:
    ReadableBuffer = Any

SONAME = "libqoi_proved.so.0"

address = ctypes.c_void_p
size = ctypes.c_size_t
u32 = ctypes.c_uint32


class CHeader(ctypes.Structure):
    """`struct qoi_proved_header`."""

    _fields_ = [("width", u32), ("height", u32), ("channels", ctypes.c_uint8), ("colorspace", ctypes.c_uint8)]


class CError(ctypes.Structure):
    """`struct qoi_proved_error`."""

    _fields_ = [
        *((it, u32) for it in ("code", "magic", "channels", "colorspace", "style", "width", "height", "first_row", "rows")),
        ("size", size),
        ("required", size),
    ]


class PyBuffer(ctypes.Structure):
    """CPython's `Py_buffer`."""

    _fields_ = [
        ("buf", address),
        ("obj", address),
        ("len", ctypes.c_ssize_t),
        ("itemsize", ctypes.c_ssize_t),
        ("readonly", ctypes.c_int),
        ("ndim", ctypes.c_int),
        ("format", address),
        ("shape", address),
        ("strides", address),
        ("suboffsets", address),
        ("internal", address),
    ]


# How each entry is called. A slice is an address and then a length.
HEADER = ctypes.POINTER(CHeader)
SIZE = ctypes.POINTER(size)
ERROR = ctypes.POINTER(CError)
SLICE = (address, size)
ENTRIES = {
    "qoi_proved_encode_max_len": (size, u32, u32, ctypes.c_uint8),
    "qoi_proved_read_header": (u32, *SLICE, HEADER, ERROR),
    "qoi_proved_decode_len": (u32, *SLICE, u32, HEADER, SIZE, ERROR),
    "qoi_proved_encode": (u32, *SLICE, *SLICE, HEADER, u32, SIZE, ERROR),
    "qoi_proved_decode": (u32, *SLICE, *SLICE, u32, HEADER, SIZE, ERROR),
    "qoi_proved_decode_rows": (u32, *SLICE, *SLICE, u32, u32, u32, HEADER, ERROR),
}


def load() -> ctypes.CDLL:
    """The library beside this file or, without one, where the system has its libraries."""
    beside = pathlib.Path(__file__).with_name("libqoi_proved.so")
    try:
        library = ctypes.CDLL(str(beside) if beside.exists() else SONAME)
    except OSError as error:
        raise ImportError(f"bindings/build makes libqoi_proved.so, which qoi_proved needs: {error}") from error
    for name, (result, *arguments) in ENTRIES.items():
        entry = getattr(library, name)
        entry.restype, entry.argtypes = result, arguments
    return library


library = load()

_get_buffer = ctypes.pythonapi.PyObject_GetBuffer
_get_buffer.argtypes = [ctypes.py_object, ctypes.POINTER(PyBuffer), ctypes.c_int]
_release_buffer = ctypes.pythonapi.PyBuffer_Release
_release_buffer.argtypes = [ctypes.POINTER(PyBuffer)]
_release_buffer.restype = None
_new_bytes = ctypes.pythonapi.PyBytes_FromStringAndSize
_new_bytes.argtypes = [address, ctypes.c_ssize_t]
_new_bytes.restype = ctypes.py_object
start = ctypes.pythonapi.PyBytes_AsString
start.argtypes = [ctypes.py_object]
start.restype = address


class Bytes(NamedTuple):
    """Bytes as a slice, which the entries take, and the shape of the buffer that they were given in."""

    slice: Tuple[Optional[int], int]
    shape: Tuple[int, ...]


@contextlib.contextmanager
def held(data: ReadableBuffer, what: str) -> Iterator[Bytes]:
    """An object's bytes, which stay where they are until the block ends."""
    try:
        view = memoryview(data)
    except TypeError:
        raise TypeError(f"{what} must be bytes or a buffer of bytes, not {type(data).__name__}") from None
    with view:
        if view.itemsize != 1:
            raise TypeError(f"{what} must be a buffer of bytes, and its items have {view.itemsize} bytes each (format {view.format!r})")
        if not view.c_contiguous:
            raise ValueError(f"{what} must be contiguous, row by row: numpy.ascontiguousarray makes such a copy, and so does tobytes()")
        raw = PyBuffer()
        _get_buffer(view, raw, 0)
        try:
            yield Bytes((raw.buf, raw.len), view.shape or ())
        finally:
            _release_buffer(raw)


def fresh(length: int) -> bytes:
    """So many bytes of any values, three or more, which an entry writes at their `start` before anyone else sees them."""
    try:
        made: bytes = _new_bytes(None, length)
    except MemoryError:
        raise errors.OutOfMemory from None
    return made


def check(error: CError) -> None:
    """Raises the exception of an error that an entry has written, if it is one."""
    if error.code:
        raise _exception(error)


def no_rows(first: int, count: int, height: int) -> IndexError:
    """The refusal of rows that a picture of this height doesn't have."""
    return IndexError(f"rows {first} to {first + count} are wanted, and the picture has {height}")


def _exception(e: CError) -> Exception:
    if e.code == 1:
        return errors.InvalidMagic(e.magic)
    if e.code in (2, 11):
        return errors.InvalidChannels(e.channels)
    if e.code in (3, 12):
        return errors.InvalidColorSpace(e.colorspace)
    if e.code == 4:
        return errors.InvalidImageDimensions(e.width, e.height)
    if e.code == 5:
        return errors.InvalidImageLength(e.size, e.width, e.height)
    if e.code == 6:
        return errors.OutputBufferTooSmall(e.size, e.required)
    if e.code == 7:
        return errors.UnexpectedBufferEnd()
    if e.code == 8:
        return errors.InvalidPadding()
    if e.code == 14:
        return no_rows(e.first_row, e.rows, e.height)
    return RuntimeError(f"libqoi_proved.so answers with number {e.code}, which this package doesn't know")
