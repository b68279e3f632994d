"""The parts of docs/BENCHMARKS.md on a desk's books, on what is kept from call to call, on books without an order, and on threads."""

from statistics import median

from tables import SIZES, costs_head, costs_of, families, middle, plain, quantity, ratio_table, table, units_of

DESK = {
    "natural -1": "*natural*, less one pair: of the first lot and the last call, or of the last lot and the first call",
    "permuted -1": "the same, shuffled",
    "few levels -1": "*few levels* less such a pair",
    "all equal -1": "all costs equal, less a pair at any place",
    "haircut": "rating, venue fee and tenor: a number of the lot, one of the call, and a rate of the lot times a term of the call; lots\n"
    "  by rising rate, calls by falling term",
    "haircut shuffled": "the same, shuffled",
    "haircut -1": "*haircut* less a pair as in *natural -1*, shuffled",
    "sums, one gap": "a number of the lot plus one of the call, less a pair at any place",
    "grades": "such sums; each lot has one of ten grades, each call asks for one, and gets lots of that grade or a higher one",
    "two levels": "two costs, all pairs eligible: the low one where a number of the lot reaches one of the call",
    "intervals": "Monge costs; each lot serves an interval of calls, both ends of which rise from lot to lot; shuffled",
}
WITHOUT_ORDER = {
    "one cost spoilt": "*permuted*, one cost raised or lowered such that no order is left",
    "any costs": "any costs, all pairs eligible",
    "3 by 3 blocks": "as *haircut shuffled*, but for three lots and three calls whose nine pairs block each other; all other pairs are\n"
    "  taken before the search stops",
}
DESK_CALLS = ["find_order", "find_and_run", "LEMON"]
WITHOUT_ORDER_CALLS = ["find_and_run", "LEMON"]

KEPT = """
How many times faster than *LEMON, graph kept*: for each book LEMON keeps its graph with the costs, and its solver, as we keep the order,
and only the amounts are new in each call. (It solves from nothing all the same, since it takes no earlier solution to start from.) 11 rounds
over 8 books, each with 8 sets of amounts one after another. The families after *sparse* are
[those of a desk](#books-that-a-desk-has-how-many-times-faster-than-lemon).

"""

NONE = """
## Books without an order, microseconds

`find_and_run` replies 13 once the search has stopped, and places nothing; LEMON places. So the search comes before the solver's time, and
not in its stead. 11 rounds over 64 books of each family:

"""


def kept_table(times, six):
    """Return how many times faster placing by an order that is kept is than LEMON with its graph kept."""
    return KEPT + ratio_table(times, "run_order, kept", "LEMON, graph kept", [*six, *DESK])


def desk_tables(times, counts):
    """Return the figures of the books that a desk has: ratios at each size, and times and instructions at 32."""
    text = "\n## Books that a desk has: how many times faster than LEMON\n\n"
    text += "Finding an order and placing, in one call; 11 rounds over 64 books of each family:\n\n"
    text += families(DESK) + "\n" + ratio_table(times, "find_and_run", "LEMON", DESK)
    text += f"\n32 lots and 32 calls: {units_of(counts)}.\n\n"
    return text + table(["", *costs_head(DESK_CALLS, counts)], [[name, *costs_of(times, counts, DESK_CALLS, name)] for name in DESK])


def without_order_tables(times, counts):
    """Return the times of the search that finds no order, and of LEMON, at each size, and instructions at 32."""
    cases = [(name, call) for name in WITHOUT_ORDER for call in WITHOUT_ORDER_CALLS]
    rows = [[name, plain(call), *(middle(times[name, size, call]) for size in SIZES)] for name, call in cases]
    text = NONE + families(WITHOUT_ORDER) + "\n" + table(["family", "call", *SIZES], rows)
    if counts:
        searches = (f"*{name}* {quantity(counts[name, 32, 'find_and_run'] / 1000)}" for name in WITHOUT_ORDER)
        text += f"\nThousands of instructions of `find_and_run` at 32: {', '.join(searches)}.\n"
    return text


def rate(number):
    """Return a number of calls a second with the digits that mean something."""
    return f"{round(number, -3 if number >= 100_000 else -2):,.0f}"


def threads_line(rates):
    """Return the calls a second of one core, on books of two families, and how many times as many two threads make."""
    cases = list(dict.fromkeys((name, size, call) for name, size, call, _ in rates))
    gains = [median(two / one for one, two in zip(rates[(*case, 1)], rates[(*case, 2)])) for case in cases]
    words = {}
    for name, size, call in cases:
        words.setdefault(call, {}).setdefault(size, []).append(rate(median(rates[name, size, call, 1])))
    each = (f"`{call}` " + ", ".join(f"{' and '.join(some)} at {size} by {size}" for size, some in by.items()) for call, by in words.items())
    text = "\n## Calls a second\n\nOne core, by the wall clock, on books of *natural* and of *permuted*: " + ";\n".join(each)
    return text + f". Two threads make {min(gains):.2f} to {max(gains):.2f} times as many: a call has no state.\n"
