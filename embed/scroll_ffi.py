"""The sections of ELF files and the stored files of ZIP archives, read by code that is proved.

    for section in scroll_ffi.sections(open("a.o", "rb").read()):
        print(section.name, section.size)

A buffer is bytes, a bytearray, an mmap, or anything else whose bytes lie in one piece. The library and its declarations are in the
folder that the variable SCROLL_FFI names, or beside this file.
"""

import ctypes
import importlib.util
import os
from contextlib import contextmanager
from pathlib import Path
from typing import Any, Iterator, NamedTuple, Tuple

_FOLDER = Path(os.environ.get("SCROLL_FFI") or Path(__file__).resolve().parent)
_SPEC = importlib.util.spec_from_file_location("scroll_ffi_raw", _FOLDER / "scroll_ffi_raw.py")
assert _SPEC and _SPEC.loader
raw: Any = importlib.util.module_from_spec(_SPEC)
_SPEC.loader.exec_module(raw)
_LIBRARY = raw.load(_FOLDER / "libscroll_ffi.so")


class _Buffer(ctypes.Structure):
    """Python's `Py_buffer`."""

    _fields_ = [
        ("buf", ctypes.c_void_p),
        ("obj", ctypes.py_object),
        ("len", ctypes.c_ssize_t),
        ("itemsize", ctypes.c_ssize_t),
        ("readonly", ctypes.c_int),
        ("ndim", ctypes.c_int),
        ("rest", ctypes.c_void_p * 5),
    ]


class Error(Exception):
    """Why a read or a write failed: its number, its offset, and the number that is wrong there."""

    def __init__(self, code: int, offset: int, value: int) -> None:
        self.code, self.offset, self.value = code, offset, value
        super().__init__(f"offset {offset}: {_LIBRARY.scroll_ffi_text(code).decode()}")


class Section(NamedTuple):
    """A section, with the format's names for its fields."""

    name: bytes
    kind: int
    flags: int
    address: int
    offset: int
    size: int
    link: int
    info: int
    alignment: int
    entry_size: int


class Entry(NamedTuple):
    """A stored file."""

    name: bytes
    extra: bytes
    contents: bytes
    header: Any


@contextmanager
def _lent(buffer: Any, writable: bool = False) -> Iterator[Tuple[int, int]]:
    """Lends the address and the length of a buffer, which can't be moved or freed meanwhile."""
    view = _Buffer()
    ctypes.pythonapi.PyObject_GetBuffer(ctypes.py_object(buffer), ctypes.byref(view), int(writable))
    try:
        yield view.buf or 0, view.len
    finally:
        ctypes.pythonapi.PyBuffer_Release(ctypes.byref(view))


def _check(code: int, error: Any) -> int:
    if code < 0:
        raise Error(code, error.offset, error.value)
    return code


def sections(file: Any) -> Iterator[Section]:
    """Yields the sections of an ELF file."""
    left, section, error = raw.ScrollElfSections(), raw.ScrollElfSection(), raw.ScrollError()
    with _lent(file) as (at, length):
        _check(_LIBRARY.scroll_elf_open(at, length, left, error), error)
        while _check(_LIBRARY.scroll_elf_next(at, length, left, section, error), error):
            name = ctypes.string_at(at + section.name_offset, section.name_len)
            yield Section(name, *(getattr(section, it) for it in Section._fields[1:]))


def end(archive: Any) -> Tuple[Any, bytes]:
    """Returns the record at the end of a ZIP archive, and its comment."""
    record, error = raw.ScrollZipEnd(), raw.ScrollError()
    with _lent(archive) as (at, length):
        _check(_LIBRARY.scroll_zip_open(at, length, record, error), error)
        return record, ctypes.string_at(at + record.comment_offset, record.comment_len)


def entries(archive: Any) -> Iterator[Entry]:
    """Yields the stored files of a ZIP archive, in the order in which they lie there."""
    limit, offset, error = end(archive)[0].directory_place, ctypes.c_uint64(), raw.ScrollError()
    with _lent(archive) as (at, length):
        while True:
            header = raw.ScrollZipFile()
            if not _check(_LIBRARY.scroll_zip_next(at, length, offset, limit, header, error), error):
                return
            parts = ((header.name_offset, header.name_len), (header.extra_offset, header.extra_len), (header.contents_offset, header.contents_len))
            yield Entry(*(ctypes.string_at(at + from_, count) for from_, count in parts), header)


def put_entry(archive: Any, offset: int, entry: Entry) -> int:
    """Writes a stored file into a buffer at an offset, and returns the offset after it."""
    place, error = ctypes.c_size_t(offset), raw.ScrollError()
    with _lent(archive, True) as to, _lent(entry.name) as name, _lent(entry.extra) as extra, _lent(entry.contents) as contents:
        _check(_LIBRARY.scroll_zip_put(*to, place, entry.header, *name, *extra, *contents, error), error)
    return place.value


def put_end(archive: Any, offset: int, record: Any, comment: bytes) -> int:
    """Writes the record at the end of an archive into a buffer at an offset, and returns the offset after it."""
    place, error = ctypes.c_size_t(offset), raw.ScrollError()
    with _lent(archive, True) as to, _lent(comment) as text:
        _check(_LIBRARY.scroll_zip_put_end(*to, place, record, *text, error), error)
    return place.value
