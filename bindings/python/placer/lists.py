"""The three files of document 01, taken apart into lists."""

from __future__ import annotations

import struct
from typing import Collection, List, NamedTuple, Optional, Sequence, Tuple

from ._library import BytesLike
from .entry_points import read_book
from .refused import Cause, File, Refused


def numbers(data: bytes, signed: bool = False) -> List[int]:
    """Return the 32-bit numbers of some bytes."""
    return list(struct.unpack(f"<{len(data) // 4}{'i' if signed else 'I'}", data))


def _opened(name: File, data: BytesLike, mark: bytes, versions: Collection[int] = (1,)) -> bytes:
    """Return the bytes of a file that opens with a mark and one of the versions."""
    file = memoryview(data).tobytes()
    if len(file) < 7:
        raise Refused(Cause.UNDER_SEVEN, file=name)
    if file[:3] != mark:
        raise Refused(Cause.MARK_DIFFERS, file=name)
    if int.from_bytes(file[3:5], "little") not in versions:
        raise Refused(Cause.VERSION_NOT_ONE, file=name)
    return file


def _fields(name: File, file: bytes, length: int) -> bytes:
    """Return what follows the opening, `length` bytes."""
    if len(file) != 7 + length:
        raise Refused(Cause.ENDS_EARLY if len(file) < 7 + length else Cause.BYTES_AFTER, file=name)
    return file[7:]


def book_costs(book: BytesLike) -> List[List[Optional[int]]]:
    """Return the costs of a book: for each lot the cost of each call, None where not eligible.

    A book without lots has no rows; `read_book` tells its count of calls, which `book_bytes` takes.

    Raises:
        Refused: as `read_book`.

    Examples:
        >>> from placer import book_bytes
        >>> book_costs(book_bytes([[1, None], [None, -5]]))
        [[1, None], [None, -5]]
    """
    lots, calls = read_book(book)
    file = memoryview(book).tobytes()
    rows: List[List[Optional[int]]] = []
    at = 7
    for _ in range(lots):
        word = numbers(file[at : at + 4])[0]
        end = at + 4 + 4 * bin(word).count("1")
        costs = iter(numbers(file[at + 4 : end], signed=file[3] == 2))
        rows.append([next(costs) if word >> call & 1 else None for call in range(calls)])
        at = end
    return rows


def order_pairs(order: BytesLike) -> List[Tuple[int, int]]:
    """Return the pairs of an order file, held against no book.

    Raises:
        Refused: 1, 2, 3, 6 or 8.

    Examples:
        >>> from placer import order_bytes
        >>> order_pairs(order_bytes([(0, 1), (0, 0)]))
        [(0, 1), (0, 0)]
    """
    file = _opened("order", order, b"CLO")
    flat = _fields("order", file, 2 * (file[5] + 256 * file[6]))
    return list(zip(flat[::2], flat[1::2]))


class Amounts(NamedTuple):
    """What an amounts file holds, in the order of `amounts_bytes`.

    Attributes:
        lots: what each lot holds, with what is reserved of it.
        calls: what each call asks for.
        reserves: what the desk holds back of each lot; None if the file is of version 1.
    """

    lots: List[int]
    calls: List[int]
    reserves: Optional[List[int]]

    @property
    def reduced(self) -> List[int]:
        """The lots' amounts in every run: what each holds less its reserve. Refused by 21 where a reserve is above that."""
        reduced = [lot - reserve for lot, reserve in zip(self.lots, self.reserves or [0] * len(self.lots))]
        if any(amount < 0 for amount in reduced):
            raise Refused(Cause.RESERVE_EXCEEDS_LOT)
        return reduced

    def remains(self, flow: Sequence[Sequence[int]]) -> Tuple[List[int], List[int]]:
        """Return what each lot has left after a flow, reserves taken off, and what each call still lacks.

        Examples:
            >>> Amounts([7, 4], [3, 6], [1, 0]).remains([[0, 5], [3, 0]])
            ([1, 1], [0, 1])
        """
        left = [has - sum(row) for has, row in zip(self.reduced, flow)]
        lacks = [asks - sum(row[call] for row in flow) for call, asks in enumerate(self.calls)]
        return left, lacks


def amounts_lists(amounts: BytesLike) -> Amounts:
    """Return what the lots hold, what the calls ask for, and the reserves, held against no book.

    Raises:
        Refused: 1, 2, 3, 6 or 8.

    Examples:
        >>> from placer import amounts_bytes
        >>> amounts_lists(amounts_bytes([5, 4], [3, 6]))
        Amounts(lots=[5, 4], calls=[3, 6], reserves=None)
        >>> amounts = amounts_lists(amounts_bytes([7, 4], [3, 6], reserves=[2, 0]))
        >>> amounts, amounts.reduced
        (Amounts(lots=[7, 4], calls=[3, 6], reserves=[2, 0]), [5, 4])
    """
    file = _opened("amounts", amounts, b"CLA", (1, 2))
    lots, both = file[5], file[5] + file[6]
    fields = numbers(_fields("amounts", file, 4 * (both + lots * (file[3] == 2))))
    return Amounts(fields[:lots], fields[lots:both], fields[both:] if file[3] == 2 else None)
