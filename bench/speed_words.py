"""What docs/WHEN-TO-USE.md has to say of speed, made of the figures of docs/BENCHMARKS.md. Prints it, for that page to be brought up to date.

bench/run ends with it, and bench/claims holds the page to it.
"""

import re
from pathlib import Path

from tables import quantity, spread

PAGE = Path(__file__).resolve().parent.parent / "docs" / "BENCHMARKS.md"
DESK, NONE = "Books that a desk has", "Books without an order"
KEPT, FINDING, PANEL = "Placing by an order that is kept", "Finding an order and placing", "The ticket panel"


def section(title):
    """Return the text of the section whose title starts so."""
    return PAGE.read_text().partition(f"\n## {title}")[2].partition("\n## ")[0]


def rows_of(table):
    """Return the cells of a table's rows, each figure without its spread."""
    return [[cell.strip().partition(" (")[0] for cell in line.split("|")[1:-1]] for line in table.splitlines() if line.startswith("|")][2:]


class Ratios:
    """A table of ratios: how many times faster than another a call is, by family, and where it is slower."""

    def __init__(self, title, at=0):
        """Read a section's table of ratios, the first or a later one."""
        pattern = r"((?:^\|.*\n)+)\nBelow 1 .* is faster: in (\d+) of these (\d+) cases(?: \((.*)\))?\."
        table, slower, cases, where = re.findall(pattern, section(title), re.M)[at]
        self.rows = {name: [*map(float, figures)] for name, *figures in rows_of(table)}
        self.slower, self.cases = int(slower), int(cases)
        self.where = dict(re.match(r"\*(.*)\* (.*)", words).groups() for words in where.split("; ") if words)

    def add(self, other):
        """Add another table's families."""
        self.rows.update(other.rows)
        self.where.update(other.where)
        self.slower += other.slower
        self.cases += other.cases
        return self

    def some(self):
        """Say in how many of the cases the call is slower."""
        return f"{self.slower or 'none'} of {self.cases} cases"

    def largest(self):
        """Return the ratios at the largest size of the families where the call is the faster one, and of those where it is slower."""
        slower = {name for name, sizes in self.where.items() if re.search("on$|all|32", sizes)}
        last = {name: row[-1] for name, row in self.rows.items()}
        return [{name: ratio for name, ratio in last.items() if (name in slower) == wanted} for wanted in (False, True)]


def at_largest(name, slower):
    """Say how many times as long a family takes at the largest size, if it is one of the slower."""
    return f"; at 32 by 32 finding and placing takes {quantity(1 / slower[name])} times as long" if name in slower else ""


def finding():
    """Say of finding and placing where LEMON is faster, family by family."""
    ratios = Ratios(FINDING).add(Ratios(DESK))
    faster, slower = ratios.largest()
    yield f"has {len(ratios.rows)} families of them"
    lines = [f"*{name}* {sizes}{at_largest(name, slower)}" for name, sizes in ratios.where.items()]
    listed = ":\n  - " + ";\n  - ".join(lines) if lines else ""
    others = f"{'the other' if slower else 'all'} {len(faster)} families"
    yield (
        f"is faster than finding an order and placing by it in {ratios.some()}{listed}.\n\n"
        f"  At 32 by 32 finding and placing takes {spread(faster.values())} times less than LEMON on {others}."
    )


def kept():
    """Say the same of placing by an order that is kept, with LEMON's graph built anew and kept."""
    for ratios, start in (
        (Ratios(KEPT), "Placing by an order that is kept takes"),
        (Ratios(KEPT, 1), "Where LEMON keeps its graph and its solver, and only the amounts are new, placing takes"),
    ):
        last = [row[-1] for row in ratios.rows.values()]
        where = "; ".join(f"*{name}* {sizes}" for name, sizes in ratios.where.items())
        some = f"{ratios.some()} ({where})" if where else ratios.some()
        yield f"{start} {spread(last)} times less than LEMON at 32 by 32, and LEMON is faster in {some}."


def without_order():
    """Say what the search takes that finds no order."""
    rows = rows_of(section(NONE))
    ours, lemon = (spread([float(row[-1].replace(",", "")) for row in rows if row[1] == call]) for call in ("`find_and_run`", "LEMON"))
    yield f"Where there is no order, the search takes {ours} microseconds at 32 by 32, and LEMON, which has to run then, {lemon}."


def panel():
    """Say how fast the ticket panel's call is beside find_and_run."""
    one, eight = (spread([row[at] for row in Ratios(PANEL, 1).rows.values()]) for at in (0, -1))
    yield f"it is {one} times as fast as `find_and_run` with one lot and one call, and {eight} times with eight of each"


def sentences():
    """Return all that the page has to say of speed."""
    return [*finding(), *kept(), *without_order(), *panel()]


if __name__ == "__main__":
    print("docs/WHEN-TO-USE.md has to say:", *sentences(), sep="\n\n")
