"""The collateral placer: bond lots go to margin calls, as many units as can be placed, and at the least cost where everything can be met.

Simplest call: `place(costs, lots, calls)`; with stock to spare, `idle=True` makes the cheapest choice of what stays in the box, and
`reserves` are what the desk holds back of each lot. The others work on the files of document 01, over any bytes-like object.

Proved: the library behind every call, its replies and what it writes to each buffer.
Trusted: this package, ctypes, the declaration of the C interface, the C compiler.

Examples:
    >>> place([[1, 2], [3, 5]], [5, 4], [3, 6])
    Placing(verdict=Verdict.FULL, units=9, cost=24, flow=((0, 5), (3, 1)))
"""

from ._library import library_version
from .entry_points import (
    Counts,
    check_order,
    find_and_run,
    find_and_run_idle,
    find_and_run_panel,
    find_order,
    lot_costs,
    pair_cost,
    place,
    read_amounts,
    read_book,
    run_order,
)
from .files import amounts_bytes, book_bytes, order_bytes
from .limits import (
    AMOUNT_MAX,
    AMOUNTS_MAX,
    BOOK_MAX,
    CALLS_MAX,
    COST_MAX,
    COST_MIN,
    FLOW_MAX,
    LOTS_MAX,
    ORDER_MAX,
    PANEL_FLOW_MAX,
    PANEL_SIDE_MAX,
)
from .lists import Amounts, amounts_lists, book_costs, order_pairs
from .placing import Placing, Verdict
from .refused import Cause, Refused
from .version import __version__

__all__ = [
    "AMOUNT_MAX",
    "AMOUNTS_MAX",
    "BOOK_MAX",
    "CALLS_MAX",
    "COST_MAX",
    "COST_MIN",
    "FLOW_MAX",
    "LOTS_MAX",
    "ORDER_MAX",
    "PANEL_FLOW_MAX",
    "PANEL_SIDE_MAX",
    "Amounts",
    "Cause",
    "Counts",
    "Placing",
    "Refused",
    "Verdict",
    "__version__",
    "amounts_bytes",
    "amounts_lists",
    "book_bytes",
    "book_costs",
    "check_order",
    "find_and_run",
    "find_and_run_idle",
    "find_and_run_panel",
    "find_order",
    "library_version",
    "lot_costs",
    "order_bytes",
    "order_pairs",
    "pair_cost",
    "place",
    "read_amounts",
    "read_book",
    "run_order",
]
