"""The files as tables of text: a book, an order, amounts, and a flow with what it leaves, marked for a terminal."""

from __future__ import annotations

from typing import Callable, Dict, List, Optional, Sequence, Tuple

from .entry_points import read_book
from .lists import Amounts, amounts_lists, book_costs, numbers, order_pairs
from .placing import Verdict
from .tables import BadInput

Codes = Dict[Tuple[int, int], str]  # ANSI codes of some cells, by row and column
_BOLD, _REVERSE = "1", "7"
_LEGEND = "A marked heading is of a lot that has nothing left, or of a call that lacks nothing.\n"


def _text(rows: Sequence[Sequence[object]], codes: Optional[Codes] = None) -> str:
    """Return a table with its columns lined up on the right."""
    cells = [[str(cell) for cell in row] for row in rows]
    widths = [max(map(len, column)) for column in zip(*cells)]

    def drawn(row: int, column: int, text: str) -> str:
        code = (codes or {}).get((row, column))
        return " " * (widths[column] - len(text)) + (f"\x1b[{code}m{text}\x1b[0m" if code else text)

    lines = ("  ".join(drawn(row, column, text) for column, text in enumerate(line)) for row, line in enumerate(cells))
    return "".join(line.rstrip() + "\n" for line in lines)


def _matrix(cells: Sequence[Sequence[Optional[int]]], calls: int) -> List[List[object]]:
    """Return the rows of a table of lots by calls, with - where a pair is not eligible."""
    head: List[object] = ["lot\\call", *range(calls)]
    return [head, *([lot, *("-" if cell is None else cell for cell in row)] for lot, row in enumerate(cells))]


def book_text(data: bytes) -> str:
    """Return the costs of a book, lots by calls."""
    costs, (lots, calls) = book_costs(data), read_book(data)
    pairs = sum(cost is not None for row in costs for cost in row)
    title = f"book: {lots} lots, {calls} calls, {pairs} eligible pairs, costs in hundredths of a cent\n"
    return title + _text(_matrix(costs, calls))


def order_text(data: bytes) -> str:
    """Return the pairs of an order with their places."""
    pairs = order_pairs(data)
    return f"order: {len(pairs)} pairs\n" + _text([["place", "lot", "call"], *([place, *pair] for place, pair in enumerate(pairs))])


def amounts_text(data: bytes) -> str:
    """Return what lots and calls hold and ask for, and the reserves of amounts of version 2."""
    lots, calls, reserves = amounts_lists(data)
    title = f"amounts: the lots have {sum(lots)} units"
    rows: List[List[object]] = [["", "number", "amount"]]
    rows += [[what, number, amount] for what, side in (("lot", lots), ("call", calls)) for number, amount in enumerate(side)]
    if reserves is not None:
        title += f", {sum(reserves)} of them reserved"
        rows = [[*row, cell] for row, cell in zip(rows, ["reserve", *reserves, *"-" * len(calls)])]
    return f"{title}, the calls ask for {sum(calls)}\n" + _text(rows)


# What a file is by its mark, in words, and its text; a flow has no mark.
MARKED: Dict[bytes, Tuple[str, Callable[[bytes], str]]] = {
    b"CLB": ("a book", book_text),
    b"CLO": ("an order", order_text),
    b"CLA": ("amounts", amounts_text),
}


def _flow(path: str, data: bytes, costs: Sequence[Sequence[Optional[int]]], calls: int) -> List[List[int]]:
    """Return the units of each lot and call, if a flow fits its book."""
    length = 4 * len(costs) * calls
    if len(data) != length:
        cause = f"a flow of this book has {length} bytes, not {len(data)}"
        if data[:3] in MARKED:
            cause = f"marked as {MARKED[data[:3]][0]}, to be shown without --book, which goes with a flow"
        raise BadInput(path, None, cause)
    units = numbers(data)
    flow = [units[lot * calls : (lot + 1) * calls] for lot in range(len(costs))]
    for lot, row in enumerate(costs):
        for call, cost in enumerate(row):
            if cost is None and flow[lot][call]:
                raise BadInput(path, None, f"{flow[lot][call]} units of lot {lot} on call {call}, and the pair is not eligible")
    return flow


def _remains(path: str, flow: Sequence[Sequence[int]], amounts: Amounts) -> Tuple[List[int], List[int]]:
    """Return what a flow leaves in each lot, and what each call lacks, if it fits the amounts."""
    left, lacks = amounts.remains(flow)
    for lot, (units, has) in enumerate(zip(left, amounts.reduced)):
        if units < 0:
            raise BadInput(path, None, f"{has - units} units of lot {lot}, which has {has} to place")
    for call, (units, asks) in enumerate(zip(lacks, amounts.calls)):
        if units < 0:
            raise BadInput(path, None, f"{asks - units} units on call {call}, which asks for {asks}")
    return left, lacks


def _codes(flow: Sequence[Sequence[int]], left: Sequence[int], lacks: Sequence[int]) -> Codes:
    """Return the marks of a flow: the headings of full lots and calls reversed, their units bold."""
    codes = {(lot, 0): _REVERSE for lot, units in enumerate(left, 1) if not units}
    codes.update({(0, call): _REVERSE for call, units in enumerate(lacks, 1) if not units})
    for lot, row in enumerate(flow, 1):
        for call, units in enumerate(row, 1):
            if units and ((lot, 0) in codes or (0, call) in codes):
                codes[lot, call] = _BOLD
    return codes


def flow_text(path: str, data: bytes, book: bytes, amounts: Optional[bytes] = None, marks: bool = False) -> str:
    """Return the units of a flow, lots by calls; with amounts, which fit the book, also what is left and lacking, marked if wanted."""
    costs, calls = book_costs(book), read_book(book).calls
    units = _flow(path, data, costs, calls)
    rows = _matrix([[None if cost is None else of for cost, of in zip(*row)] for row in zip(costs, units)], calls)
    title = f"flow: {sum(sum(row) for row in units)} units"
    if amounts is None:
        return f"{title}\n" + _text(rows)
    left, lacks = _remains(path, units, amounts_lists(amounts))
    cost = sum(of * (each or 0) for row in zip(costs, units) for each, of in zip(*row))
    verdict = Verdict.SHORT if any(lacks) else Verdict.COVERED if any(left) else Verdict.FULL
    rows = [[*row, cell] for row, cell in zip([*rows, ["lacks", *lacks]], ["left", *left, ""])]
    codes = _codes(units, left, lacks) if marks else {}
    return f"{title}, cost {cost}, {verdict.name.lower()}\n" + _text(rows, codes) + (_LEGEND if codes else "")
