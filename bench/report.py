"""Writes docs/BENCHMARKS.md and docs/benchmarks.svg from the figures of bench: report.py FOLDER DOCS.

FOLDER holds times.1.txt and on, as `bench time` and `bench threads` print them, stack.txt, as tests/stack.c does, and the dumps of
`bench count` under callgrind, if that was run.
"""

import os
import subprocess
import sys
from pathlib import Path
from statistics import median

from chart import plot
from desk_report import desk_tables, kept_table, threads_line, without_order_tables
from figures import read_answers, read_counts, read_runs, read_stack
from tables import costs_head, costs_of, families, plain, quantity, ratio_table, ratios_to, slower, spread, table, units_of

FAMILIES = {
    "natural": "Monge costs in natural order, all pairs eligible",
    "permuted": "Monge costs, lots and calls shuffled",
    "few levels": "Monge costs of a few levels, shuffled",
    "all equal": "all costs equal",
    "band": "a staircase: Monge costs, only pairs near the diagonal eligible",
    "sparse": "a tree of eligible pairs, any costs, shuffled",
}
CALLS = ["read_book", "check_order", "run_order", "find_order", "find_and_run", "LEMON", "CLP", "GLPK"]
IDLE_CALLS = ["find_and_run_idle", "LEMON, idle"]
IDLE_FAMILIES = list(FAMILIES)[:4]
PANEL_CALLS = ["find_and_run_panel", "find_and_run, panel", "LEMON, panel"]
PANEL_SIZES = [1, 2, 4, 8]

HEAD = """# Benchmarks

Written by `bench/run`; run it again to renew this page. Not a part of the gate.

- The timing program runs {runs} times, one run after another. In a run a figure is the median over 21 interleaved rounds in one process (CLP
  and GLPK: 3; where it is said, 11), a round being one pass over 64 different books of the family (CLP and GLPK: 8; for the ticket panel:
  256), so that no branch is learnt by heart. The tables show the median of the {runs} runs, and the lowest and highest of them. No run is
  left out.
- Microseconds are of processor time a call. A ratio is of two figures of the same run, and the median is taken of the ratios.
- Our calls start from the bytes of the files and end with the flow; `run_order` checks the order each time. The solvers are handed
  lists of pairs in memory, build their problem and solve it. LEMON is its network simplex with 64-bit numbers.
- Lots and calls are equal in number. The amounts are such that some allocation meets everything, so that every solver has an answer.
- Machine: one core of a {cores}-core {machine} Linux server that others may have been using; {compiler} -O3, for any x86-64. What others run
  beside it changes the times, which the spread shows; the instruction counts do not depend on it.
- {compared:,} answers (units and cost) were compared with LEMON's; {differing} differ.
"""

PANEL = """
## The ticket panel, up to eight by eight

`find_and_run_panel` beside `find_and_run` and LEMON (building and solving), on the same books. LEMON has its turn before each of our two
calls in every round, since of two calls in a row on the same books the second is a little faster. Up to 4 the books of *band* have the
pairs of the diagonal only. The smaller the book, the more of its amounts are 0: at 1 those of about three books in four.
"""

CLEARING = """
callgrind counts glibc's `rep stosb` once per byte (clearing an array of 4,096 bytes counts 4,115), so that calls which clear large arrays
look dearer at small sizes than they are in time.
"""


def times_tables(times):
    """Return the tables of times at 32: the medians, and the spread."""
    text = "\n## 32 lots and 32 calls, microseconds\n\n"
    text += table(["", *CALLS], [[name, *(quantity(median(times[name, 32, call])) for call in CALLS)] for name in FAMILIES])
    text += "\nThe lowest and highest of the runs:\n\n"
    text += table(["", *CALLS], [[name, *(spread(times[name, 32, call]) for call in CALLS)] for name in FAMILIES])
    return text + "\n![Microseconds a call by size, for each family](benchmarks.svg)\n"


def idle_tables(times, counts):
    """Return the figures of the run with an idle call: ratios at each size, and times and instructions at 32."""
    text = "\n## With an idle call: how many times faster than LEMON\n\n"
    text += "Books with all pairs eligible, one call fewer than lots, and stock to spare. LEMON is handed the enlarged book.\n\n"
    text += ratio_table(times, *IDLE_CALLS, IDLE_FAMILIES)
    text += f"\n32 lots, 31 calls and the idle call: {units_of(counts)}.\n\n"
    return text + table(["", *costs_head(IDLE_CALLS, counts)], [[name, *costs_of(times, counts, IDLE_CALLS, name)] for name in IDLE_FAMILIES])


def panel_ratios(times):
    """Return how many times faster the ticket panel's call is than LEMON and than find_and_run, and in how many cases it is slower."""
    ours, general, lemon = PANEL_CALLS
    text, usual, worst = "", set(), set()
    for other in (lemon, general):
        text += f"\nHow many times faster than {plain(other)}:\n\n" + ratio_table(times, ours, other, FAMILIES, PANEL_SIZES)
        ratios = ratios_to(times, ours, other, FAMILIES, PANEL_SIZES)
        usual |= slower(ratios, median)
        worst |= slower(ratios, min)
    text += f"\n{plain(ours)} is slower than one of the two, or than both, in {len(usual)} of these {len(ratios)} cases. "
    return text + f"By the lowest ratio of the runs: in {len(worst)}.\n"


def panel_tables(times, counts):
    """Return the figures of the ticket panel's call: ratios, times and instructions, at each size."""
    text = PANEL + panel_ratios(times) + f"\n{units_of(counts).capitalize()}.\n\n"
    rows = [[name, size, *costs_of(times, counts, PANEL_CALLS, name, size)] for name in FAMILIES for size in PANEL_SIZES]
    text += table(["", "size", *costs_head([plain(call) for call in PANEL_CALLS], counts)], rows)
    return text + CLEARING if counts else text


def stack_table(calls, bound, panel_bound):
    """Return the stack that each call takes."""
    text = "\n## Stack a call, bytes\n\n"
    text += "On the largest book, with an idle call that of 31 calls; on that book less one pair; and on one of two levels, whose pairs are\n"
    text += "tried without ranks. The ticket panel's call on the largest book that it takes, of 8 lots and 8 calls, and on it less one pair.\n"
    text += f"By `tests/stack.c`, which fails above the bounds in `placer.h`: `PLACER_STACK`, {bound:,}, and for the ticket panel's call\n"
    text += f"`PLACER_PANEL_STACK`, {panel_bound:,}.\n\n"
    return text + table(["call", "bytes"], [[name, f"{int(count):,}"] for name, count in calls])


def solver_tables(times):
    """Return the ratios of placing by an order that is kept and of finding and placing, to the solvers."""
    text = "\n## Placing by an order that is kept: how many times faster than LEMON\n\n" + ratio_table(times, "run_order", "LEMON", FAMILIES)
    text += kept_table(times, FAMILIES)
    text += "\n## Finding an order and placing, in one call: how many times faster than LEMON\n\n"
    text += ratio_table(times, "find_and_run", "LEMON", FAMILIES)
    for solver in ("CLP", "GLPK"):
        ratios = [median(times[name, 32, solver]) / median(times[name, 32, "find_and_run"]) for name in FAMILIES]
        text += f"\nAt 32 `find_and_run` takes {quantity(min(ratios))} to {quantity(max(ratios))} times less than {solver}.\n"
    return text


def instructions_table(counts):
    """Return the instructions of all calls at 32."""
    text = "\n## Instructions a call at 32, thousands\n\n"
    text += "By callgrind, over 8 books of each family; these do not depend on the machine's load.\n\n"
    return text + table(["", *CALLS], [[name, *(quantity(counts[name, 32, call] / 1000) for call in CALLS)] for name in FAMILIES]) + CLEARING


def page(folder, times):
    """Return the text of docs/BENCHMARKS.md."""
    counts = read_counts(folder)
    compared, differing = read_answers(folder)
    compiler = subprocess.run(["g++", "-dumpfullversion"], capture_output=True, text=True, check=True).stdout.strip()
    machine = {"cores": os.cpu_count(), "machine": os.uname().machine, "compiler": f"g++ {compiler}"}
    text = HEAD.format(**machine, runs=len(times["natural", 32, "LEMON"]), compared=compared, differing=differing)
    text += "\nThe families:\n\n" + families(FAMILIES)
    text += times_tables(times) + solver_tables(times) + threads_line(read_runs(folder, "threads"))
    text += instructions_table(counts) if counts else ""
    text += desk_tables(times, counts) + without_order_tables(times, counts)
    return text + idle_tables(times, counts) + panel_tables(times, counts) + stack_table(*read_stack(folder / "stack.txt"))


def main():
    """Write both files, and print the page."""
    folder, docs = map(Path, sys.argv[1:3])
    times = read_runs(folder, "time")
    text = page(folder, times)
    (docs / "BENCHMARKS.md").write_text(text)
    (docs / "benchmarks.svg").write_text(plot({key: median(values) for key, values in times.items()}, FAMILIES))
    print(text)


if __name__ == "__main__":
    main()
