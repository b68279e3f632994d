"""Repeats what docs/WHEN-TO-USE.md says of other solvers. Called by bench/claims.

Each claim stands here in the page's own words; those on speed are made of the figures of docs/BENCHMARKS.md. Its line has these, what was
seen, and `as said` or `NOT as said`; words that the page does not have are not as said. The exit status is 1 if one is not.
"""

import random
import re
import sys
import time

import networkx
from claims_solvers import (
    PACKAGES,
    ROOT,
    WORK,
    Book,
    by_networkx,
    by_scipy,
    coin,
    diagonal,
    dimacs_solver,
    glpsol,
    glpsol_cost,
    lemon,
    ran,
    version,
)
from placer import Cause, Refused, book_bytes, find_order, place
from speed_words import sentences

DOCS = ROOT / "docs"
VERSIONS = "LEMON 1.3.1, GLPK 5.0, CLP 1.17.6, CBC 2.10.8, scipy 1.10.1 and networkx 2.8.8"
F12 = diagonal(1, 1_000_000, 1_000_000_000)
TIED = Book([[1, 2], [3, 4]], [5, 4], [3, 6])
LACKING = Book([[0]], [1], [2])  # a call lacks a unit
LEAVING = Book([[0]], [2], [1])  # a lot has a unit left
SHORT = Book([[2, 1]], [2], [2, 3])
SPARE = Book([[3, 5], [1, 2]], [3, 4], [3, 2])
CLAIMS = {}


def claim(words):
    """Mark the check of a claim. It returns what was seen, and whether that is as said."""

    def add(check):
        CLAIMS[words] = check
        return check

    return add


@claim(VERSIONS)
def versions():
    *most, last = map(version, PACKAGES)
    seen = f"{', '.join(most)} and {last}"
    return seen, seen == VERSIONS


@claim('10^9 units at a cost of 10^6 (F12) make LEMON with its default 32-bit type answer "optimal" with a negative cost')
def lemon_negative():
    verdict, cost, _ = lemon(F12)
    return f"{version('LEMON')}: {verdict}, cost {cost}", verdict == "optimal" and cost < 0


@claim("three lots and calls of 10^9 units are refused as data by GLPK's integer flow routine")
def glpk_refuses():
    said = ran(WORK / "glpk", diagonal(3, 1, 1_000_000_000).export())[1].strip()
    return f"{version('GLPK')}, glp_mincost_okalg: {said}", said == "refused as data"


@claim("32 lots and calls of 999,999,999 units at 999,999 have by scipy a cost, a floating point number, that is off by 20")
def scipy_off():
    book = diagonal(32, 999_999, 999_999_999)
    off = int(by_scipy(book).fun) - place(*book).cost
    return f"{version('scipy')}: off by {off}", abs(off) == 20


@claim("costs 1 2 / 3 4, lots 5 4, calls 3 6 get one flow from LEMON and scipy and another from GLPK, CLP, CBC and networkx")
def two_flows():
    flows = {
        "LEMON": TIED.flow(lemon(TIED)[2]),
        "scipy": tuple(round(units) for units in by_scipy(TIED).x),
        "GLPK": TIED.flow(glpsol(TIED)[2]),
        "CLP": TIED.flow(coin("clp", TIED)[1]),
        "CBC": TIED.flow(coin("cbc", TIED)[1]),
        "networkx": by_networkx(TIED),
    }
    first, *others = flows.values()
    seen = "; ".join(f"{version(solver)}: {flow}" for solver, flow in flows.items())
    same_cost = all(flow[0] + 2 * flow[1] + 3 * flow[2] + 4 * flow[3] == place(*TIED).cost for flow in flows.values())
    return seen, same_cost and [flow == first for flow in others] == [True] + [False] * 4 and len(set(others)) == 2


@claim("GLPK, CLP and CBC call a book whose calls lack one unit infeasible and exit with status 0")
def infeasible():
    status, printed, *_ = glpsol(LACKING)
    seen = {"GLPK": (status, re.search("NO PRIMAL FEASIBLE SOLUTION", printed))}
    for solver in ("CLP", "CBC"):
        status, solution = coin(solver.lower(), LACKING)
        seen[solver] = status, solution.startswith("Infeasible")
    words = (f"{version(solver)}: {'infeasible' if none else 'feasible'}, status {status}" for solver, (status, none) in seen.items())
    return "; ".join(words), all(none and status == 0 for status, none in seen.values())


@claim("networkx raises an exception")
def raises():
    try:
        return f"{version('networkx')}: {by_networkx(LACKING)}", False
    except networkx.NetworkXUnfeasible as error:
        return f"{version('networkx')}: {type(error).__name__}, {error}", True


@claim("LEMON answers by the side that it was told beforehand may have units open")
def by_side():
    books = {"a call lacks a unit": LACKING, "a lot has one left": LEAVING}
    verdicts = {(name, side): lemon(book, side)[0] for name, book in books.items() for side in ("GEQ", "LEQ")}
    seen = "; ".join(f"{name}, {side}: {verdict}" for (name, side), verdict in verdicts.items())
    return f"{version('LEMON')}: {seen}", list(verdicts.values()) == ["optimal", "infeasible", "infeasible", "optimal"]


@claim("A row number outside its range ends the whole process in GLPK")
def row_outside():
    status, printed = ran(WORK / "glpk")
    return f"{version('GLPK')}: status {status}, {' '.join(printed.split())}", status < 0 and "went on" not in printed


@claim("Where the totals differ `glpsol` has no solution, and `dimacs-solver` leaves units of the larger side open")
def totals_differ():
    costs = [(glpsol_cost(book), dimacs_solver(book, "-long")) for book in (SHORT, SPARE)]
    return f"{version('GLPK')} and {version('LEMON')}, costs by each: {costs}", costs == [(None, 2), (None, place(*SPARE, idle=True).cost)]


@claim("add a call that takes the rest of every lot at cost 0, or a lot that stands for borrowed stock at its price")
def made_equal():
    idle, borrowed = Book([[3, 5, 0], [1, 2, 0]], [3, 4], [3, 2, 2]), Book([[2, 1], [10, 10]], [2, 3], [2, 3])
    costs = [(glpsol_cost(book), dimacs_solver(book, "-long")) for book in (idle, borrowed)]
    return f"{version('GLPK')} and {version('LEMON')}, costs by each: {costs}", costs == [(9, 9), (32, 32)]


@claim("where units may stay open, a rebate may draw more units to a call than it asks for, or from a lot than it has")
def rebates():
    costs = [dimacs_solver(book, "-long") for book in (Book([[-1], [-1]], [1, 1], [1]), Book([[-1, -1]], [1], [1, 1]))]
    return f"{version('LEMON')}: costs {costs} where one unit can be placed, at -1", costs == [-2, -2]


@claim("`dimacs-solver` prints the cost alone")
def cost_alone():
    _, printed = ran("dimacs-solver", "-long", diagonal(1, 3, 1_234_567).export())
    numbers = {what: number in printed for what, number in {"the cost": "3703701", "the units": "1234567"}.items()}
    return f"{version('LEMON')}: printed are {numbers}", list(numbers.values()) == [True, False]


@claim("without `-long` it counts in 32 bits: it finds no flow for three lots of 10^9 units and a call for one")
def narrow():
    book = Book([[1], [1], [1]], [1_000_000_000] * 3, [1])
    costs = dimacs_solver(book), dimacs_solver(book, "-long")
    return f"{version('LEMON')}: cost {costs[0]}, with -long {costs[1]}", costs == (None, 1)


@claim("`glpsol` writes the flow, `-o` with six digits of a number and the pairs' nodes, `-w` with all digits")
def digits():
    _, _, shown, exact = glpsol(diagonal(1, 1, 1_234_567))
    units = re.search(r"x\[1,2\]\s+\S+\s+(\S+)", shown)[1], re.search(r"^j 1 \S (\S+)", exact, re.M)[1]
    return f"{version('GLPK')}: 1234567 units are {units[0]} by -o, {units[1]} by -w", units == ("1.23457e+06", "1234567")


@claim("without an eligible pair the text has no arcs, and `glpsol` does not read it")
def no_arcs():
    book = Book([[None]], [0], [0])
    status, printed, *_ = glpsol(book)
    error = re.search(r"error: .*", printed)
    seen = f"{version('GLPK')}: status {status}, {error and error[0]}; {version('LEMON')}: cost {dimacs_solver(book, '-long')}"
    return seen, status != 0 and error is not None


@claim("cross-check the cost of a Full run, and by `dimacs-solver`, without rebates, that of a Covered run with an idle call")
def cross_check():
    rng, same, books = random.Random(1), 0, 60
    for spare, rebate in [(0, 0), (0, 400_000), (500, 0)] * (books // 3):
        lots, calls = ([rng.randint(0, 999) for _ in range(rng.randint(1, 6))] for _ in range(2))
        costs = [[lot * call - rebate for call in calls] for lot in lots]
        lots[-1] += max(0, sum(calls) - sum(lots)) + spare
        calls[-1] += max(0, sum(lots) - sum(calls) - spare)
        book = Book(costs, lots, calls)
        cost = place(*book, idle=spare > 0).cost
        same += dimacs_solver(book, "-long") == cost and (spare > 0 or glpsol_cost(book) == cost)
    return f"{version('LEMON')} and {version('GLPK')}: the same cost on {same} of {books} books", same == books


def measured():
    """Say where the figures are from that the words on speed are made of."""
    return "these are the figures of BENCHMARKS.md", True


CLAIMS.update((" ".join(words.split()), measured) for words in sentences())


def searched(book):
    """Return the seconds that the search for an order takes."""
    start = time.perf_counter()
    try:
        find_order(book)
    except Refused as refused:
        if refused.cause is not Cause.NO_ORDER:
            raise
    return time.perf_counter() - start


@claim("Products that lack a pair or two, at any place, take under a millisecond to search at 32 by 32")
def search():
    rng, slowest = random.Random(1), 0
    for _ in range(200):
        lots, calls = ([rng.randint(0, 999) for _ in range(32)] for _ in range(2))
        costs = [[lot * call for call in calls] for lot in lots]
        for _ in range(rng.randint(1, 2)):
            costs[rng.randrange(32)][rng.randrange(32)] = None
        slowest = max(slowest, min(searched(book_bytes(costs)) for _ in range(5)))
    return f"products on 200 books: {slowest * 1000:.2f} ms at most", slowest < 0.001


def main():
    """Print a line for each claim."""
    page = " ".join((DOCS / "WHEN-TO-USE.md").read_text().split())
    wrong = 0
    for words, check in CLAIMS.items():
        try:
            seen, holds = check()
        except Exception as error:  # such as a solver whose words are other than expected
            seen, holds = repr(error), False
        if words not in page:
            seen, holds = f"{seen}, but the page does not have these words", False
        wrong += not holds
        print(f"{words} | {seen} | {'as said' if holds else 'NOT as said'}")
    sys.exit(wrong > 0)


if __name__ == "__main__":
    main()
