"""The entry points of document 01 over bytes, and `place` over lists."""

from __future__ import annotations

import ctypes
import operator
from typing import Any, NamedTuple, Optional, Sequence, Tuple

from . import _library
from ._library import BytesLike, Writable
from .files import Costs, amounts_bytes, book_bytes
from .limits import FLOW_MAX, ORDER_MAX
from .placing import Placing, Verdict


class Counts(NamedTuple):
    """How many lots and calls a book has."""

    lots: int
    calls: int


def read_book(book: BytesLike) -> Counts:
    """Read a book.

    Returns:
        Its counts of lots and calls.

    Raises:
        Refused: 1 to 8, the first of document 01's sequence that applies.

    Examples:
        >>> read_book(book_bytes([[1, 2], [3, 5]]))
        Counts(lots=2, calls=2)
        >>> read_book(book_bytes([], calls=2))
        Counts(lots=0, calls=2)
    """
    return Counts(*_library.call("read_book", _library.lend(book))[1][:2])


def _sized(name: str, number: int) -> int:
    """Return the number of a lot or a call, if the library can be handed it."""
    if not 0 <= operator.index(number) < 2**64:
        raise ValueError(f"a {name} number is 0 or more, and fits 64 bits")
    return number


def lot_costs(book: BytesLike, lot: int) -> memoryview:
    """Return the costs of one lot: that stretch of the caller's own book, not copied.

    Returns:
        A view of the book, one 32-bit cost for each eligible call, lowest call first, signed if the book is of version 2.
        It is empty if the book is refused, if the lot number is n or more, or if the lot is eligible for no call.

    Raises:
        ValueError: the lot number is below 0 or does not fit 64 bits.
        TypeError: the book is a view with gaps, of which no part can be returned.

    Examples:
        >>> book = book_bytes([[1, 2], [3, 5]])
        >>> list(lot_costs(book, 1)), lot_costs(book, 1).obj is book
        ([3, 5], True)
        >>> list(lot_costs(book, 2))
        []
    """
    _sized("lot", lot)
    view = memoryview(book).cast("B")
    return view[_library.stretch(_library.lend(book), lot)].cast("i" if view[3:4] == b"\x02" else "I")


def _signed(cost: int) -> int:
    """Return a cost with its sign, of its 64 bits."""
    return ctypes.c_int64(cost).value


def pair_cost(book: BytesLike, lot: int, call: int) -> Optional[int]:
    """Return the cost of one pair, in hundredths of a cent per unit.

    Returns:
        The cost; None if the pair is not eligible, if the lot number is n or more, or if the call number is m or more.

    Raises:
        Refused: 1 to 8, the first of document 01's sequence that applies.
        ValueError: a number is below 0 or does not fit 64 bits.

    Examples:
        >>> book = book_bytes([[1, None], [-3, 5]])
        >>> pair_cost(book, 1, 0), pair_cost(book, 0, 1), pair_cost(book, 2, 0)
        (-3, None, None)
    """
    eligible, cost = _library.call("pair_cost", _library.lend(book), (_sized("lot", lot), _sized("call", call)))[1][:2]
    return _signed(cost) if eligible else None


def read_amounts(book: BytesLike, amounts: BytesLike) -> Counts:
    """Read amounts with their book.

    Returns:
        The counts of lots and calls.

    Raises:
        Refused: the book's refusal; then 1, 2, 3, 15, 6, 8, 16 or 21 of the amounts.

    Examples:
        >>> read_amounts(book_bytes([[1, 2], [3, 5]]), amounts_bytes([5, 4], [3, 6]))
        Counts(lots=2, calls=2)
    """
    return Counts(*_library.call("read_amounts", _library.lend(book), _library.lend(amounts))[1][:2])


def check_order(book: BytesLike, order: BytesLike) -> int:
    """Check that an order is a Monge sequence of the book: good for all amounts.

    Returns:
        Its count of pairs.

    Raises:
        Refused: the book's refusal; then 1, 2, 3, 6, 8, 9, 10, 14, 11 or 12 of the order.

    Examples:
        >>> from placer import order_bytes
        >>> book = book_bytes([[1, 2], [3, 5]])
        >>> check_order(book, order_bytes([(0, 1), (1, 0), (0, 0), (1, 1)]))
        4
        >>> check_order(book, order_bytes([(0, 0), (0, 1), (1, 0), (1, 1)]))  # doctest: +ELLIPSIS
        Traceback (most recent call last):
        ...
        placer.refused.Refused: refused 12: the order has (i, j) before (i, l) and (k, j), which cost less ... [i 0, j 0, k 1, l 1]
    """
    return _library.call("check_order", _library.lend(book), _library.lend(order))[1][0]


def find_order(book: BytesLike, buffer: Optional[Writable] = None) -> bytes:
    """Find an order that is good for all amounts.

    Args:
        book: the book file.
        buffer: bytes to write the order file into as well, apart from the book; those after the file keep their contents.
            By default none.

    Returns:
        The order file.

    Raises:
        Refused: the book's refusal; then 17, or 13 if no order exists.

    Examples:
        >>> from placer import order_pairs
        >>> order_pairs(find_order(book_bytes([[1, 2], [3, 5]])))
        [(0, 1), (0, 0), (1, 0), (1, 1)]
    """
    lent = _library.lend_items(bytearray(ORDER_MAX) if buffer is None else buffer, 1)
    file = _library.lend(book)
    _library.apart(lent, file)
    length = _library.call("find_order", file, lent)[1][0]
    return bytes(lent[0][:length])


def _placing(name: str, flow: Optional[Writable], book: BytesLike, *files: BytesLike) -> Placing:
    """Call a run, and return its placing; the flow goes to the lent buffer, or to one of our own."""
    lent = _library.lend_items((ctypes.c_uint32 * FLOW_MAX)() if flow is None else flow, 4)
    slices: Sequence[Tuple[Any, int]] = [_library.lend(data) for data in (book, *files)]
    _library.apart(lent, *slices)
    verdict, values = _library.call(name, *slices, lent)
    lots, calls = slices[0][0][5:7]
    units = memoryview(lent[0]).cast("B").cast("I")
    rows = tuple(tuple(units[lot * calls : (lot + 1) * calls]) for lot in range(lots))
    return Placing(Verdict(verdict), values[0], _signed(values[1]), rows)


def run_order(book: BytesLike, order: BytesLike, amounts: BytesLike, flow: Optional[Writable] = None) -> Placing:
    """Place the amounts by an order that passes the check.

    Args:
        book: the book file.
        order: the order file, as `find_order` returns it.
        amounts: the amounts file.
        flow: a buffer of 32-bit items to write the flow into as well, entry lot * calls + call; later ones keep their contents.

    Returns:
        The placing. If its verdict is not FULL its cost need not be the least.

    Raises:
        Refused: the book's refusal; the order's; the amounts'; then 17.

    Examples:
        >>> book = book_bytes([[1, 2], [3, 5]])
        >>> run_order(book, find_order(book), amounts_bytes([5, 4], [3, 6]))
        Placing(verdict=Verdict.FULL, units=9, cost=24, flow=((0, 5), (3, 1)))
    """
    return _placing("run_order", flow, book, order, amounts)


def find_and_run(book: BytesLike, amounts: BytesLike, flow: Optional[Writable] = None) -> Placing:
    """Find an order and place the amounts by it, in one call.

    Returns:
        The placing, as `run_order` by the order of `find_order` returns it; `flow` as there.

    Raises:
        Refused: the book's refusal; the amounts'; 17; or 13 if no order exists.

    Examples:
        >>> find_and_run(book_bytes([[1, 2], [3, 5]]), amounts_bytes([5, 4], [3, 6]))
        Placing(verdict=Verdict.FULL, units=9, cost=24, flow=((0, 5), (3, 1)))
    """
    return _placing("find_and_run", flow, book, amounts)


def find_and_run_idle(book: BytesLike, amounts: BytesLike, flow: Optional[Writable] = None) -> Placing:
    """Find an order and place the amounts by it, with an idle call that takes what stays in the box, at cost 0.

    The idle call is the last call of an enlarged book: every lot is eligible for it, and its amount is the lots' total less the calls'.

    Returns:
        The placing of the book's own calls; `flow` as for `run_order`. It is SHORT only if no allocation meets every call. Else no
        allocation that meets every call costs less, and it is FULL where the totals are equal, COVERED where they differ.

    Raises:
        Refused: the book's refusal; the amounts'; 18 if the calls ask for more than the lots have; 19 if the book has 32 calls; 17;
            or 13 if the enlarged book has no order, which can be so where the book has one.

    Examples:
        >>> book, amounts = book_bytes([[3, 5], [1, 2]]), amounts_bytes([3, 4], [3, 2])
        >>> find_and_run_idle(book, amounts)
        Placing(verdict=Verdict.COVERED, units=5, cost=9, flow=((1, 0), (2, 2)))
        >>> find_and_run(book, amounts)
        Placing(verdict=Verdict.COVERED, units=5, cost=13, flow=((3, 0), (0, 2)))
    """
    return _placing("find_and_run_idle", flow, book, amounts)


def find_and_run_panel(book: BytesLike, amounts: BytesLike, flow: Optional[Writable] = None) -> Placing:
    """Find an order and place the amounts by it for a ticket panel, which shows at most 8 lots and 8 calls.

    Within eight by eight it replies and writes as `find_and_run` does, on all inputs; its work state is for 64 pairs instead of 1,024.

    Returns:
        The placing, as `find_and_run` returns it; `flow` as there, 64 entries being always enough.

    Raises:
        Refused: as by `find_and_run`, and 20, directly after 4, if the book's count of lots or calls is above 8.

    Examples:
        >>> find_and_run_panel(book_bytes([[1, 2], [3, 5]]), amounts_bytes([5, 4], [3, 6]))
        Placing(verdict=Verdict.FULL, units=9, cost=24, flow=((0, 5), (3, 1)))
        >>> find_and_run_panel(book_bytes([[1]] * 9), amounts_bytes([1] * 9, [9]))
        Traceback (most recent call last):
        ...
        placer.refused.Refused: refused 20: the book's count of lots or calls is above 8, the most that a ticket panel shows
    """
    return _placing("find_and_run_panel", flow, book, amounts)


def place(
    costs: Costs,
    lots: Sequence[int],
    calls: Sequence[int],
    reserves: Optional[Sequence[int]] = None,
    *,
    idle: bool = False,
    panel: bool = False,
) -> Placing:
    """Place lots to calls.

    Args:
        costs: for each lot in turn the cost of each call, whole hundredths of a cent per unit, below 0 for a rebate; None where not
            eligible. Without calls each lot's row is empty.
        lots: what each lot holds, in whole units; empty if there are none yet.
        calls: what each call asks for; likewise.
        reserves: what the desk holds back of each lot, which is not placed and does not count as left; by default nothing.
        idle: whether to make, with stock to spare, the cheapest choice of what stays in the box, as `find_and_run_idle` does.
        panel: whether to keep to a ticket panel's limit, at most 8 lots and 8 calls, as `find_and_run_panel` does; not with `idle`.

    Returns:
        The placing.

    Raises:
        Refused: a limit of document 01 is passed, the counts differ (15), or no order exists (13): use a flow solver then. With `idle`
            also 18 and 19, and 13 where the book alone may have an order. With `panel` also 20, with `reserves` 21.
        ValueError: the rows of costs differ in length, there are not as many reserves as lots, a number does not fit its field, or both
            `idle` and `panel` are asked for.
        TypeError: a cost, an amount or a reserve is no whole number.

    Examples:
        >>> place([[1, 2], [3, 5]], [5, 4], [3, 6])
        Placing(verdict=Verdict.FULL, units=9, cost=24, flow=((0, 5), (3, 1)))
        >>> place([[0, 0], [0, None]], [2, 0], [1, 0])
        Placing(verdict=Verdict.COVERED, units=1, cost=0, flow=((1, 0), (0, 0)))
        >>> place([[0, 0], [0, None]], [0, 1], [0, 1])
        Placing(verdict=Verdict.SHORT, units=0, cost=0, flow=((0, 0), (0, 0)))
        >>> place([[3, 5], [1, 2]], [3, 4], [3, 2], idle=True)
        Placing(verdict=Verdict.COVERED, units=5, cost=9, flow=((1, 0), (2, 2)))
        >>> place([[1, -2], [-3, 5]], [5, 4], [3, 6])
        Placing(verdict=Verdict.FULL, units=9, cost=-14, flow=((0, 5), (3, 1)))
        >>> place([], [], [3, 6])
        Placing(verdict=Verdict.SHORT, units=0, cost=0, flow=())
        >>> place([[1, 2], [3, 5]], [7, 4], [3, 6], reserves=[2, 0])
        Placing(verdict=Verdict.FULL, units=9, cost=24, flow=((0, 5), (3, 1)))
    """
    if idle and panel:
        raise ValueError("a ticket panel's run has no idle call: choose `idle` or `panel`")
    run = find_and_run_idle if idle else find_and_run_panel if panel else find_and_run
    book = book_bytes(costs, None if len(costs) else len(calls))  # without rows the amounts tell how many calls there are
    return run(book, amounts_bytes(lots, calls, reserves))
