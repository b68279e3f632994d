"""The three files of document 01, made from lists. What the library refuses is not tested here."""

from __future__ import annotations

import operator
import struct
from typing import Iterable, Optional, Sequence, Tuple

Costs = Sequence[Sequence[Optional[int]]]


def _opening(mark: bytes, last: bytes, version: int = 1) -> bytes:
    return mark + struct.pack("<H", version) + last


def words(numbers: Iterable[int], signed: bool = False) -> bytes:
    """Return the bytes of 32-bit numbers."""
    whole = [operator.index(number) for number in numbers]
    try:
        return struct.pack(f"<{len(whole)}{'i' if signed else 'I'}", *whole)
    except struct.error:
        least = -(2**31) if signed else 0
        outside = next(number for number in whole if not least <= number < least + 2**32)
        limits = "costs are -1,000,000 to 1,000,000, amounts 0 to 1,000,000,000, reserves 0 to what the lot holds"
        raise ValueError(f"{outside} is outside the limits: {limits}") from None


def _small(numbers: Iterable[int]) -> bytes:
    """Return the bytes of 8-bit numbers."""
    whole = [operator.index(number) for number in numbers]
    if not all(0 <= number < 256 for number in whole):
        raise ValueError("counts, lot numbers and call numbers are 0 to 255 in the files")
    return bytes(whole)


def book_bytes(costs: Costs, calls: Optional[int] = None) -> bytes:
    """Make a book file: of version 2 if a cost is below 0, a rebate, else of version 1.

    Args:
        costs: for each lot in turn the cost of each call, whole hundredths of a cent per unit; None where not eligible. A desk without
            lots has no rows, one without calls a row of no costs for each lot.
        calls: the count of calls; by default that of the first row's costs, and 0 if there are no rows.

    Returns:
        The bytes of the book, to be read by any call of this package.

    Raises:
        ValueError: a row has not as many costs as there are calls, or a number does not fit its field.
        TypeError: a cost is neither None nor a whole number.

    Examples:
        >>> book_bytes([[1, 2], [3, 5]]).hex(" ", 4)
        '434c42 01000202 03000000 01000000 02000000 03000000 03000000 05000000'
        >>> book_bytes([[-1]]).hex(" ", 4)
        '434c42 02000101 01000000 ffffffff'
        >>> book_bytes([], calls=2).hex(" ", 4), book_bytes([[]]).hex(" ", 4)
        ('434c42 01000002', '434c42 01000100 00000000')
    """
    if calls is None:
        calls = len(costs[0]) if len(costs) else 0
    signed = any(operator.index(cost) < 0 for row in costs for cost in row if cost is not None)
    parts = [_opening(b"CLB", _small([len(costs), calls]), 2 if signed else 1)]
    for lot, row in enumerate(costs):
        if len(row) != calls:
            raise ValueError(f"lot {lot} has {len(row)} costs for {calls} calls")
        word = sum(1 << call for call, cost in enumerate(row) if cost is not None)
        # Of more than 32 calls the word holds the first 32: such a book is refused before its words are read.
        parts.append(words([word % 2**32]) + words((cost for cost in row if cost is not None), signed))
    return b"".join(parts)


def order_bytes(pairs: Iterable[Tuple[int, int]]) -> bytes:
    """Make an order file.

    Args:
        pairs: (lot, call) in the order wanted.

    Returns:
        The bytes of the order.

    Raises:
        ValueError: a lot or call number is outside 0 to 255, or there are more than 65,535 pairs.

    Examples:
        >>> order_bytes([(0, 1), (0, 0), (1, 0), (1, 1)]).hex(" ")
        '43 4c 4f 01 00 04 00 00 01 00 00 01 00 01 01'
    """
    flat = _small(number for lot, call in pairs for number in (lot, call))
    if len(flat) > 2 * 65535:
        raise ValueError("an order file holds at most 65,535 pairs")
    return _opening(b"CLO", struct.pack("<H", len(flat) // 2)) + flat


def amounts_bytes(lots: Sequence[int], calls: Sequence[int], reserves: Optional[Sequence[int]] = None) -> bytes:
    """Make an amounts file: of version 2 with reserves, else of version 1.

    Args:
        lots: what each lot holds, in whole units.
        calls: what each call asks for.
        reserves: what the desk holds back of each lot, up to all that it holds; by default the file has none, and nothing is held back.

    Returns:
        The bytes of the amounts.

    Raises:
        ValueError: there are not as many reserves as lots, or a number does not fit its field.
        TypeError: an amount or a reserve is no whole number.

    Examples:
        >>> amounts_bytes([5, 4], [3, 6]).hex(" ", 4)
        '434c41 01000202 05000000 04000000 03000000 06000000'
        >>> amounts_bytes([7, 4], [3, 6], reserves=[2, 0]).hex(" ", 4)
        '434c41 02000202 07000000 04000000 03000000 06000000 02000000 00000000'
    """
    counts = _small([len(lots), len(calls)])
    if reserves is None:
        return _opening(b"CLA", counts) + words([*lots, *calls])
    if len(reserves) != len(lots):
        raise ValueError(f"{len(reserves)} reserves for {len(lots)} lots")
    return _opening(b"CLA", counts, 2) + words([*lots, *calls, *reserves])
