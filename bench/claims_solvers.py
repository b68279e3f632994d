"""The solvers that bench/claims.py asks, from Debian's packages, and the books that they are handed. Work files go to build/claims."""

import re
import subprocess
from pathlib import Path
from typing import NamedTuple

import networkx
import scipy.optimize
from placer import amounts_bytes, book_bytes
from placer.cli import main as placer_command

ROOT = Path(__file__).resolve().parent.parent
WORK = ROOT / "build" / "claims"
PACKAGES = {
    "LEMON": "liblemon-dev",
    "GLPK": "libglpk-dev",
    "CLP": "coinor-clp",
    "CBC": "coinor-cbc",
    "scipy": "python3-scipy",
    "networkx": "python3-networkx",
}


def ran(*command):
    """Run a program; return its exit status and what it printed."""
    pipes = {"stdout": subprocess.PIPE, "stderr": subprocess.STDOUT}
    done = subprocess.run([str(word) for word in command], **pipes, text=True, timeout=60, check=False)
    return done.returncode, done.stdout


def fresh(name):
    """Return the path of a work file that is yet to be written."""
    path = WORK / name
    path.unlink(missing_ok=True)
    return path


def version(solver):
    """Return a solver's name and its version, without Debian's own part."""
    return solver + " " + re.match(r"[\d.]*\d", ran("dpkg-query", "-W", "-f", "${Version}", PACKAGES[solver])[1])[0]


class Book(NamedTuple):
    """Costs, with None where a pair is not eligible, and amounts."""

    costs: list
    lots: list
    calls: list

    def pairs(self):
        """Return the eligible pairs."""
        return [(i, j) for i, row in enumerate(self.costs) for j, cost in enumerate(row) if cost is not None]

    def export(self):
        """Write the text of `placer dimacs`, and return its path."""
        book, amounts, text = (WORK / name for name in ("book.clb", "amounts.cla", "book.min"))
        book.write_bytes(book_bytes(self.costs))
        amounts.write_bytes(amounts_bytes(self.lots, self.calls))
        if placer_command(["dimacs", "-o", str(text), str(book), str(amounts)]):
            raise RuntimeError("placer dimacs failed")
        return text

    def flow(self, text):
        """Return the units of each pair by a solver's lines, which name the arc from node i to node j x[i,j]."""
        units = {(int(i), int(j)): round(float(x)) for i, j, x in re.findall(r"x\[(\d+),(\d+)\]\s+(?:[A-Z]+\s+)?(\S+)", text)}
        return tuple(units.get((i + 1, len(self.lots) + j + 1), 0) for i, j in self.pairs())


def diagonal(size, cost, amount):
    """Return a book in which each lot serves one call, at the same cost and amount."""
    return Book([[cost if i == j else None for j in range(size)] for i in range(size)], [amount] * size, [amount] * size)


def lemon(book, side="GEQ"):
    """Return the verdict and the cost by LEMON with its default type, and the lines of the flow."""
    first, *lines = ran(WORK / "lemon", book.export(), side)[1].splitlines()
    verdict, cost = first.split()
    return verdict, int(cost), "\n".join(lines)


def dimacs_solver(book, *options):
    """Return the least cost by dimacs-solver, None if it finds no flow."""
    _, printed = ran("dimacs-solver", *options, book.export())
    return None if "Feasible flow: not found" in printed else int(re.search(r"Min flow cost: (\S+)", printed)[1])


def glpsol(book):
    """Return the exit status of glpsol, what it printed, and its solution in two forms, to be read and exact; empty if not written."""
    shown, exact = fresh("shown.txt"), fresh("exact.txt")
    status, printed = ran("glpsol", "--mincost", book.export(), "-o", shown, "-w", exact)
    return (status, printed, *(path.read_text() if path.exists() else "" for path in (shown, exact)))


def glpsol_cost(book):
    """Return the least cost by glpsol, None if it has no solution."""
    feasible, cost = re.search(r"^s bas \d+ \d+ (\w) \w (\S+)", glpsol(book)[3], re.M).groups()
    return int(cost) if feasible == "f" else None


def coin(program, book):
    """Return the exit status and the solution of CLP or CBC, which are handed the same problem in GLPK's rendering."""
    problem, solution = fresh("book.mps"), fresh("solution.txt")
    ran("glpsol", "--mincost", book.export(), "--check", "--wmps", problem)
    status, _ = ran(program, problem, "-solve", "-solution", solution, "-quit")
    return status, solution.read_text()


def by_scipy(book):
    """Return scipy's result."""
    pairs = book.pairs()
    sides = [[float(pair[0] == i) for pair in pairs] for i in range(len(book.lots))]
    sides += [[float(pair[1] == j) for pair in pairs] for j in range(len(book.calls))]
    return scipy.optimize.linprog([book.costs[i][j] for i, j in pairs], A_eq=sides, b_eq=book.lots + book.calls, method="highs")


def by_networkx(book):
    """Return the flow by networkx, from each lot to each call."""
    graph = networkx.DiGraph()
    for side, sign, amounts in (("lot", -1, book.lots), ("call", 1, book.calls)):
        graph.add_nodes_from(((side, at), {"demand": sign * units}) for at, units in enumerate(amounts))
    graph.add_edges_from((("lot", i), ("call", j), {"weight": book.costs[i][j]}) for i, j in book.pairs())
    flow = networkx.network_simplex(graph)[1]
    return tuple(flow["lot", i]["call", j] for i, j in book.pairs())
