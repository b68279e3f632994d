"""The command `placer`: places from CSV tables or binary files, shows the files, and exports for other solvers."""

from __future__ import annotations

import argparse
import csv
import io
import os
import sys
from typing import Iterator, List, Optional, Sequence, Tuple

from .entry_points import (
    check_order,
    find_and_run,
    find_and_run_idle,
    find_and_run_panel,
    find_order,
    read_amounts,
    read_book,
    run_order,
)
from .files import words
from .lists import amounts_lists, book_costs
from .page import page
from .placing import Placing
from .refused import Cause, Refused
from .showing import MARKED, flow_text
from .tables import SOLVER, BadInput, Problem, contents, load, named, told
from .version import __version__
from .writing import apart, say, write_file, write_out, write_text

DONE, SHORT, REFUSED = 0, 1, 2  # exit status

_STATUS = f"""`placer place` says full if nothing is left in any lot or call, covered if every call is met and
some lot has units left, short if a call lacks units.

Exit status: {DONE} full or covered (other commands: done), {SHORT} short, {REFUSED} refused, bad input or a failure."""

_ABOUT = f"""Places bond lots to margin calls: as many units as can be placed, and at the least cost where
everything can be met.

FILES are three CSV tables or two binary files:
  PAIRS LOTS CALLS   tables with the header lines lot,call,cost and lot,amount and call,amount;
                     a pair that is absent is not eligible; costs are whole hundredths of a cent
                     per unit, -1,000,000 to 1,000,000, below 0 for a rebate, amounts whole units,
                     0 to 1,000,000,000; lots may have a third column, lot,amount,reserve: what the
                     desk holds back of each, at most its amount, 0 where the cell is empty
  BOOK AMOUNTS       a book (.clb) and an amounts file (.cla), as `placer encode` writes them
One of the files may be -, standard input. Lots and calls are at most 32 each; a table with its
header line alone has none.

{_STATUS}"""

_PROVED = """This command is a front end and not the proved part: the library that it calls is proved, and so is
the program `place`, which reads the files of `placer encode` and prints the placing that is found
without --idle."""


def _marks() -> bool:
    """Return whether standard output is a terminal that shows marks, and they are wanted."""
    terminal = sys.stdout is not None and sys.stdout.isatty() and os.environ.get("TERM", "dumb") != "dumb"
    return terminal and not os.environ.get("NO_COLOR")


def _units(problem: Problem, placing: Placing) -> str:
    """Return the placed units as CSV: lot,call,units, for each pair that has any."""
    text = io.StringIO(newline="")
    writer = csv.writer(text, lineterminator="\n")
    writer.writerow(["lot", "call", "units"])
    for lot, row in zip(problem.lots, placing.flow):
        writer.writerows((lot, call, units) for call, units in zip(problem.calls, row) if units)
    return text.getvalue()


def _with_idle(files: Sequence[str], problem: Problem) -> Placing:
    """Place with an idle call. A refusal says what to do instead; of tables it is told of the calls', but 13 of the pairs'."""
    try:
        return find_and_run_idle(problem.book, problem.amounts)
    except Refused as refused:
        instead = f"place without --idle, or, for the least cost, {SOLVER}"
        if refused.cause is Cause.CALLS_EXCEED_LOTS:
            instead = "place without --idle"
        elif refused.cause is Cause.NO_ORDER:
            told(files[0], find_order, problem.book)  # which says so if the book alone has none either
            instead = f"the book alone has one: {instead}"
        of_first = refused.cause is Cause.NO_ORDER or len(files) == 2 and refused.file == "book"
        raise BadInput(files[0] if of_first else files[-1], None, f"{refused}; {instead}") from None


def _for_panel(files: Sequence[str], problem: Problem) -> Placing:
    """Place for a ticket panel. 20 is told of the book or, of the tables of lots and of calls, of the longer one."""
    try:
        return find_and_run_panel(problem.book, problem.amounts)
    except Refused as refused:
        path, instead = files[0], SOLVER
        if refused.cause is Cause.ABOVE_EIGHT:
            instead = "place without --panel"
            if len(files) == 3:
                path = files[1] if len(problem.lots) > len(problem.calls) else files[2]
        raise BadInput(path, None, f"{refused}; {instead}") from None


def _placed(options: argparse.Namespace, problem: Problem) -> Tuple[Placing, str]:
    """Place as the options ask for, and return how in words too."""
    found = "by an order that was found for the book"
    if options.order is not None:
        order = contents(options.order)
        told(options.order, check_order, problem.book, order)
        return run_order(problem.book, order, problem.amounts), f"by the order of {named(options.order)}"
    if options.idle:
        return _with_idle(options.files, problem), f"{found} with an idle call, which takes what stays in the lots"
    if options.panel:
        return _for_panel(options.files, problem), f"{found}, within the limits of a ticket panel"
    return told(options.files[0], find_and_run, problem.book, problem.amounts), found


def _place(options: argparse.Namespace) -> int:
    apart([*options.files, options.order], [options.flow, options.html, options.output])
    problem = load(options.files)
    placing, how = _placed(options, problem)
    if options.flow is not None:
        write_file(options.flow, words(units for row in placing.flow for units in row))
    if options.html is not None:
        write_text(options.html, page(problem, placing, how))
    write_text(options.output, _units(problem, placing))
    say(f"{placing.verdict.name.lower()}: {placing.units} units, cost {placing.cost}")
    return DONE if placing.met else SHORT


def _encode(options: argparse.Namespace) -> int:
    problem = load(options.files)
    files = {"book.clb": problem.book, "amounts.cla": problem.amounts}
    if options.order:
        files["order.clo"] = told(options.files[0], find_order, problem.book)
    for name, data in files.items():
        write_file(os.path.join(options.to, name), data)
    return DONE


def _dimacs_lines(problem: Problem) -> Iterator[str]:
    costs, amounts = book_costs(problem.book), amounts_lists(problem.amounts)
    lots, calls = amounts.reduced, amounts.calls
    yield "c cost in hundredths of a cent per unit"
    if sum(lots) != sum(calls):
        yield f"c totals differ: the lots have {sum(lots)} units, the calls ask for {sum(calls)}"
    names = [f"lot {name}" for name in problem.lots] + [f"call {name}" for name in problem.calls]
    yield from (f"c node {node}: {' '.join(name.split())}" for node, name in enumerate(names, 1))
    arcs = [(i, j, cost) for i, row in enumerate(costs) for j, cost in enumerate(row) if cost is not None]
    yield f"p min {len(names)} {len(arcs)}"
    yield from (f"n {node} {units}" for node, units in enumerate(lots + [-units for units in calls], 1) if units)
    yield from (f"a {i + 1} {len(lots) + j + 1} 0 {min(lots[i], calls[j])} {cost}" for i, j, cost in arcs)


def _dimacs(options: argparse.Namespace) -> int:
    apart(options.files, [options.output])
    write_text(options.output, "\n".join(_dimacs_lines(load(options.files))) + "\n")
    return DONE


def _show(options: argparse.Namespace) -> int:
    data = contents(options.file)
    if options.book is not None:
        book, amounts = contents(options.book), None
        told(options.book, read_book, book)
        if options.amounts is not None:
            amounts = contents(options.amounts)
            told(options.amounts, read_amounts, book, amounts)
        write_out(flow_text(options.file, data, book, amounts, _marks()))
        return DONE
    if data[:3] not in MARKED:
        raise BadInput(options.file, None, "neither a book, an order nor amounts; for a flow name its book by --book")
    what, shown = MARKED[data[:3]]
    if options.amounts is not None:
        raise BadInput(options.file, None, f"marked as {what}, to be shown without --amounts, which goes with a flow and its --book")
    write_out(told(options.file, shown, data))
    return DONE


def _check(options: argparse.Namespace) -> int:
    book = contents(options.book)
    lots, calls = told(options.book, read_book, book)
    lines = [f"{options.book}: a book of {lots} lots and {calls} calls\n"]
    for path in options.files:
        data = contents(path)
        if data[:3] == b"CLA":
            told(path, read_amounts, book, data)
            lines.append(f"{path}: amounts of this book\n")
        else:
            lines.append(f"{path}: an order of {told(path, check_order, book, data)} pairs that is good for all amounts\n")
    write_out("".join(lines))
    return DONE


def _parser() -> argparse.ArgumentParser:
    layout = argparse.RawDescriptionHelpFormatter
    parser = argparse.ArgumentParser(prog="placer", description=_ABOUT, epilog=_PROVED, formatter_class=layout)
    parser.add_argument("--version", action="version", version=f"placer {__version__}")
    commands = parser.add_subparsers(dest="command", required=True, metavar="COMMAND")

    def command(name: str, run: object, text: str) -> argparse.ArgumentParser:
        added = commands.add_parser(name, help=text, description=text, epilog=f"{_STATUS}\n\n{_PROVED}", formatter_class=layout)
        added.set_defaults(run=run)
        return added

    place = command("place", _place, "place, and write lot,call,units as CSV")
    how = place.add_mutually_exclusive_group()
    how.add_argument("--order", metavar="FILE", help="place by this order file instead of finding one")
    how.add_argument("--idle", action="store_true", help="with stock to spare, make the cheapest choice of what stays in the lots")
    how.add_argument("--panel", action="store_true", help="keep to a ticket panel's limit: refuse more than 8 lots or 8 calls")
    place.add_argument("--flow", metavar="FILE", help="write the flow too: the units of all pairs, 32-bit numbers, lot by lot")
    place.add_argument("--html", metavar="FILE", help="write a page for the browser too: lots by calls, what is left and what lacks")
    encode = command("encode", _encode, "write book.clb and amounts.cla")
    encode.add_argument("--order", action="store_true", help="find an order and write order.clo too")
    encode.add_argument("--to", metavar="FOLDER", default=".", help="where to write (default: this folder)")
    dimacs = command("dimacs", _dimacs, "write the DIMACS min-cost flow text, for other solvers to cross-check")
    for added in (place, dimacs):
        added.add_argument("-o", "--output", metavar="FILE", default="-", help="where to write (default: standard output)")
    for added in (place, encode, dimacs):
        added.add_argument("files", metavar="FILES", nargs="+", help="PAIRS LOTS CALLS, or BOOK AMOUNTS")
    show = command("show", _show, "show a book, order, amounts or flow file as a table")
    show.add_argument("--book", metavar="BOOK", help="the book of a flow file, which has no mark of its own")
    show.add_argument("--amounts", metavar="AMOUNTS", help="its amounts, to show what is left in the lots and what the calls lack")
    show.add_argument("file", metavar="FILE")
    check = command("check", _check, "read a book, and check orders and amounts against it")
    check.add_argument("book", metavar="BOOK")
    check.add_argument("files", metavar="FILE", nargs="*", help="an order or an amounts file")
    return parser


def main(arguments: Optional[List[str]] = None) -> int:
    """Run the command and return its exit status."""
    parser = _parser()
    options = parser.parse_args(arguments)
    if options.command in ("place", "encode", "dimacs") and len(options.files) not in (2, 3):
        parser.error("FILES are three tables (PAIRS LOTS CALLS) or two files (BOOK AMOUNTS)")
    if options.command == "place" and options.html == options.output == "-":
        parser.error("the page and the CSV cannot both go to standard output: name a file by --html or by -o")
    try:
        return int(options.run(options))
    except Exception as error:  # of whatever kind: status 1 is for a call that lacks units
        say(f"placer: {error}")
        return REFUSED
