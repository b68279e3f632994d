"""What the command writes: standard output, messages, and files, none over another."""

from __future__ import annotations

import contextlib
import io
import os
import sys
from pathlib import Path
from typing import Iterable, Optional, TextIO

from .tables import BadInput


def _send(stream: TextIO, text: str) -> None:
    """Write and flush. What cannot be written is dropped, so that leaving the program does not fail by it again."""
    try:
        stream.write(text)
        stream.flush()
    except OSError:
        os.dup2(os.open(os.devnull, os.O_WRONLY), stream.fileno())
        raise


def write_out(text: str) -> None:
    """Write to standard output, as UTF-8 in any locale."""
    if sys.stdout is None:
        raise BadInput("standard output", None, "is closed")
    if isinstance(sys.stdout, io.TextIOWrapper):
        sys.stdout.reconfigure(encoding="utf-8")
    try:
        _send(sys.stdout, text)
    except OSError as error:
        raise BadInput("standard output", None, str(error.strerror)) from None


def say(line: str) -> None:
    """Write a line to standard error, if that can be written: the exit status says the same."""
    if sys.stderr is not None:
        with contextlib.suppress(OSError):
            _send(sys.stderr, line + "\n")


def write_file(path: str, data: bytes) -> None:
    """Write a file."""
    try:
        Path(path).write_bytes(data)
    except OSError as error:
        raise BadInput(path, None, str(error.strerror)) from None


def write_text(path: str, text: str) -> None:
    """Write a text to a file, or to standard output for "-"."""
    if path == "-":
        write_out(text)
    else:
        write_file(path, text.encode())


def _identity(path: str) -> object:
    """Return what is the same of two paths to one file."""
    try:
        found = os.stat(path)
    except OSError:
        return os.path.realpath(path)
    return found.st_dev, found.st_ino


def apart(read: Iterable[Optional[str]], written: Iterable[Optional[str]]) -> None:
    """Raise BadInput if a file is to be written twice, or over one that is read; devices and pipes may be."""
    seen = {_identity(path) for path in read if path is not None}
    for path in written:
        if path is None or path == "-" or (os.path.exists(path) and not os.path.isfile(path)):
            continue
        if _identity(path) in seen:
            raise BadInput(path, None, "would be written over: it is read too, or written by another option")
        seen.add(_identity(path))
