"""The command's input: three CSV tables, or a book and an amounts file."""

from __future__ import annotations

import csv
import io
import sys
from dataclasses import dataclass
from typing import Any, Callable, Dict, Iterator, List, Optional, Sequence, Tuple

from .entry_points import read_amounts, read_book
from .files import amounts_bytes, book_bytes
from .limits import AMOUNT_MAX, CALLS_MAX, COST_MAX, COST_MIN, LOTS_MAX
from .refused import Cause, Refused

SOLVER = "use a flow solver on what `placer dimacs` writes"


def named(path: str) -> str:
    """Return a path as it is told."""
    return "standard input" if path == "-" else path


class BadInput(Exception):
    """A file that cannot be used, with the line where there is one."""

    def __init__(self, path: str, line: Optional[int], cause: str) -> None:
        """Name the file, the line and the cause."""
        super().__init__(f"{named(path)}:{line}: {cause}" if line else f"{named(path)}: {cause}")


@dataclass(frozen=True)
class Problem:
    """A book and amounts, with the names of their lots and calls."""

    lots: Sequence[str]
    calls: Sequence[str]
    book: bytes
    amounts: bytes


def told(path: str, call: Callable[..., Any], *arguments: Any) -> Any:
    """Return what a call of the library returns; its refusal is told of this file, whose path stands for its kind."""
    try:
        return call(*arguments)
    except Refused as refused:
        cause = str(Refused(refused.number, refused.values))
        raise BadInput(path, None, f"{cause}; {SOLVER}" if refused.cause is Cause.NO_ORDER else cause) from None


def contents(path: str) -> bytes:
    """Return the bytes of a file, or of standard input for "-", which is closed by it."""
    if path == "-":
        if sys.stdin is None or sys.stdin.closed:
            raise BadInput(path, None, "is closed, or was read before: it can be read once only")
        with sys.stdin as stream:
            return stream.buffer.read()
    try:
        with open(path, "rb") as file:
            return file.read()
    except OSError as error:
        raise BadInput(path, None, str(error.strerror)) from None


def _lines(path: str) -> Iterator[Tuple[int, List[str]]]:
    """Yield the line and the fields of the header line, and then of each row, which has as many; blank rows are passed over."""
    try:
        text = contents(path).decode("utf-8-sig")
    except UnicodeDecodeError:
        raise BadInput(path, None, "is not UTF-8 text") from None
    if "\0" in text:
        raise BadInput(path, text.count("\n", 0, text.index("\0")) + 1, "a null character")
    reader = csv.reader(io.StringIO(text, newline=""), strict=True)
    try:
        header: List[str] = next(reader, [])
        yield 1, header
        for fields in reader:
            if fields and len(fields) != len(header):
                raise BadInput(path, reader.line_num, f"{len(fields)} fields, not {len(header)}")
            if fields:
                yield reader.line_num, fields
    except csv.Error as error:
        raise BadInput(path, reader.line_num, str(error)) from None


def _table(path: str, *headers: str) -> Tuple[str, Iterator[Tuple[int, List[str]]]]:
    """Return which of these header lines a table has, and the line and the fields of each row."""
    rows = _lines(path)
    fields = next(rows)[1]
    for header in headers:
        if fields == header.split(","):
            return header, rows
    raise BadInput(path, 1, f"the header line must be {' or '.join(headers)}")


def _whole(path: str, line: int, what: str, text: str, most: int, number: Cause, least: int = 0, of: str = "") -> int:
    """Return a whole number of `least` to `most`, of which `of` says what it is; one with a minus only if `least` is below 0."""
    whole = text.strip()
    below = least < 0 and whole.startswith("-")
    digits = whole[1:] if below else whole
    if not (digits.isascii() and digits.isdigit()):
        raise BadInput(path, line, f"the {what} {text!r} is not a whole number")
    digits = digits.lstrip("0") or "0"  # `int` takes no more than some thousands of digits
    bound = -least if below else most
    if len(digits) > len(str(bound)) or int(digits) > bound:
        passed = f"below {least:,}" if below else f"above {most:,}{of}"
        raise BadInput(path, line, f"the {what} {whole} is {passed} (refusal {number.value})")
    return -int(digits) if below else int(digits)


def _amounts(path: str, what: str, most: int, *headers: str) -> Tuple[Dict[str, int], Optional[List[int]]]:
    """Return the amount of each lot or call by its name, in order of first appearance, and the reserves, None without such a column.

    A table that is its header line alone has no lots or calls.
    """
    header, rows = _table(path, f"{what},amount", *headers)
    amounts: Dict[str, int] = {}
    reserves: List[int] = []
    for line, (name, amount, *reserve) in rows:
        if name in amounts:
            raise BadInput(path, line, f"the {what} {name!r} stands here a second time")
        if len(amounts) == most:
            raise BadInput(path, line, f"more than {most} {what}s (refusal {Cause.COUNT_OUTSIDE.value})")
        has = amounts[name] = _whole(path, line, "amount", amount, AMOUNT_MAX, Cause.AMOUNT_TOO_HIGH)
        for text in reserve:  # one, or none without such a column
            whole, of = text if text.strip() else "0", f", what {name!r} holds"
            reserves.append(_whole(path, line, "reserve", whole, has, Cause.RESERVE_EXCEEDS_LOT, of=of))
    return amounts, reserves if header in headers else None


def _from_tables(pairs: str, lots: str, calls: str) -> Problem:
    """Return the problem of the three tables; a pair that is absent is not eligible, and a reserve that is left out is 0."""
    has, reserves = _amounts(lots, "lot", LOTS_MAX, "lot,amount,reserve")
    asks, _ = _amounts(calls, "call", CALLS_MAX)
    costs: Dict[Tuple[str, str], int] = {}
    for line, (lot, call, cost) in _table(pairs, "lot,call,cost")[1]:
        for what, name, path, names in (("lot", lot, lots, has), ("call", call, calls, asks)):
            if name not in names:
                raise BadInput(pairs, line, f"the {what} {name!r} is not in {path}")
        if (lot, call) in costs:
            raise BadInput(pairs, line, f"the pair {lot!r}, {call!r} stands here a second time")
        costs[lot, call] = _whole(pairs, line, "cost", cost, COST_MAX, Cause.COST_TOO_HIGH, COST_MIN)
    book = book_bytes([[costs.get((lot, call)) for call in asks] for lot in has], len(asks))
    return Problem(list(has), list(asks), book, amounts_bytes(list(has.values()), list(asks.values()), reserves))


def _from_files(book: str, amounts: str) -> Problem:
    """Return the problem of a book and an amounts file, whose lots and calls are named by their numbers."""
    data = contents(book), contents(amounts)
    lots, calls = told(book, read_book, data[0])
    told(amounts, read_amounts, *data)
    return Problem([str(lot) for lot in range(lots)], [str(call) for call in range(calls)], *data)


def load(paths: Sequence[str]) -> Problem:
    """Return the problem of three CSV tables (pairs, lots, calls) or of two files (book, amounts)."""
    return _from_tables(*paths) if len(paths) == 3 else _from_files(*paths)
