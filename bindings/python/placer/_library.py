"""The shared library: found, held against the package's version and declared once. Every call of the C interface goes through `call`."""

from __future__ import annotations

import ctypes
import ctypes.util
import functools
import mmap
import os
from array import array
from pathlib import Path
from typing import Any, Dict, Iterator, Tuple, Union

from . import version
from .refused import OF_ANY_FILE, File, Refused

BytesLike = Union[bytes, bytearray, memoryview, mmap.mmap, "array[int]", "ctypes.Array[Any]"]
Writable = Union[bytearray, memoryview, mmap.mmap, "array[int]", "ctypes.Array[Any]"]

NAME = "libplacer.so"


class _Reply(ctypes.Structure):
    _fields_ = [("number", ctypes.c_uint32), ("verdict", ctypes.c_uint32), ("values", ctypes.c_uint64 * 4)]


class _Stretch(ctypes.Structure):
    _fields_ = [("start", ctypes.c_size_t), ("len", ctypes.c_size_t)]


# The files that each call is lent, in the order in which they are tested and handed over, and what follows them.
_FILE, _NUMBER = [ctypes.c_void_p, ctypes.c_size_t], [ctypes.c_size_t]
_BUFFER = _FILE
_CALLS: Dict[str, Tuple[Tuple[File, ...], Any]] = {
    "read_book": (("book",), []),
    "pair_cost": (("book",), _NUMBER * 2),
    "find_order": (("book",), _BUFFER),
    "read_amounts": (("book", "amounts"), []),
    "check_order": (("book", "order"), []),
    "run_order": (("book", "order", "amounts"), _BUFFER),
    "find_and_run": (("book", "amounts"), _BUFFER),
    "find_and_run_idle": (("book", "amounts"), _BUFFER),
    "find_and_run_panel": (("book", "amounts"), _BUFFER),
}
# The call that reads a file, with those before it.
_READERS = {"book": "read_book", "order": "check_order"}


def _paths() -> Iterator[str]:
    """Where the library may be, the first found being taken."""
    package = Path(__file__).resolve().parent
    folders = [package]
    if package.parts[-3:] == ("bindings", "python", "placer"):
        folders.append(package.parents[2] / "build")
    if package.parts[-4:] == ("share", "placer", "python", "placer"):
        folders.append(package.parents[3] / "lib")
    yield from (str(folder / NAME) for folder in folders if (folder / NAME).exists())
    yield ctypes.util.find_library("placer") or NAME


def _declare(loaded: ctypes.CDLL, name: str, result: Any, arguments: Any) -> None:
    function = getattr(loaded, "placer_" + name)
    function.argtypes, function.restype = arguments, result


def load(path: str) -> ctypes.CDLL:
    """Return the library of a path, declared; raise ImportError if it cannot be loaded or does not fit this package."""
    try:
        loaded = ctypes.CDLL(path)
    except (OSError, UnicodeError) as error:
        advice = "build it with `make` in the repository, or name it in PLACER_LIBRARY"
        raise ImportError(f"the placer library cannot be loaded ({error}); {advice}") from error
    of = "a version before 1.0.0"
    try:
        _declare(loaded, "version", ctypes.c_uint32, [])
        number = loaded.placer_version()
        of = f"version {version.text(number)}"
        if not version.fits(number):
            raise ImportError(f"the library {path} is of {of}, {version.NEEDS}")
        for name, (files, rest) in _CALLS.items():
            _declare(loaded, name, _Reply, _FILE * len(files) + rest)
        _declare(loaded, "lot_costs", _Stretch, _FILE + _NUMBER)
    except AttributeError as error:
        raise ImportError(f"the library {path} is of {of}, {version.NEEDS} ({error})") from None
    return loaded


@functools.lru_cache(maxsize=None)
def library() -> ctypes.CDLL:
    """Return the loaded library: that of PLACER_LIBRARY, beside the package, of the repository or the release, or the system's."""
    return load(os.environ.get("PLACER_LIBRARY") or next(_paths()))


def library_version() -> str:
    """Return the version of the library that is loaded.

    Raises:
        ImportError: there is no library, or none that fits this package, as by every call that needs it.

    Examples:
        >>> library_version()
        '1.0.0'
    """
    return version.text(library().placer_version())


def lend(data: BytesLike) -> Tuple[Any, int]:
    """Return what ctypes passes for a slice to read, and its bytes: the caller's own memory, or a copy of a read-only view."""
    if isinstance(data, bytes):
        return data, len(data)
    view = memoryview(data)
    if view.readonly or not view.c_contiguous:
        return lend(view.tobytes())
    return (ctypes.c_uint8 * view.nbytes).from_buffer(view), view.nbytes


def lend_items(buffer: Writable, size: int) -> Tuple[Any, int]:
    """Return what ctypes passes for a slice to write, and its count of items of `size` bytes."""
    view = memoryview(buffer)
    # In Python 3.9 the items of a ctypes array that has none are 0 bytes long.
    if view.readonly or not view.c_contiguous or view.itemsize not in (size, 0) or view.format[-1] not in "bBcIiLl":
        raise TypeError(f"a writable buffer of {8 * size}-bit whole numbers is needed")
    return (ctypes.c_uint8 * view.nbytes).from_buffer(view), view.nbytes // size


def apart(lent: Tuple[Any, int], *files: Tuple[Any, int]) -> None:
    """Raise ValueError if a buffer to write shares memory with a file, which the library does not allow."""
    start = ctypes.addressof(lent[0])
    end = start + ctypes.sizeof(lent[0])
    for data, length in files:
        if not isinstance(data, bytes) and max(start, ctypes.addressof(data)) < min(end, ctypes.addressof(data) + length):
            raise ValueError("the buffer to write overlaps a file that is read")


def _reply(name: str, *arguments: Tuple[Any, ...]) -> Any:
    return getattr(library(), "placer_" + name)(*(word for part in arguments for word in part))


def _refused_file(name: str, *arguments: Tuple[Any, ...]) -> File:
    """Return which of its files a call refused, by reading those before the last one by one."""
    *tested, last = _CALLS[name][0]
    for count, file in enumerate(tested, 1):
        if _reply(_READERS[file], *arguments[:count]).number:
            return file
    return last


def call(name: str, *arguments: Tuple[Any, ...]) -> Tuple[int, Tuple[int, ...]]:
    """Return the verdict and the four values of `placer_` + name; raise Refused if its number is not 0."""
    reply = _reply(name, *arguments)
    if reply.number:
        file = _refused_file(name, *arguments) if reply.number in OF_ANY_FILE else None
        raise Refused(reply.number, tuple(reply.values), file)
    return reply.verdict, tuple(reply.values)


def stretch(book: Tuple[Any, int], lot: int) -> slice:
    """Return the stretch of the book's bytes that holds the costs of a lot."""
    found = library().placer_lot_costs(*book, lot)
    return slice(found.start, found.start + found.len)
