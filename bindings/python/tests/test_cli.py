"""The command: its output, messages and exit status."""

import os
import random
import shutil
import subprocess
import sys
import unittest
from pathlib import Path

import placer
from command import CALLS, LOTS, PAIRS, ROOT, TABLES, CommandCase
from support import AMOUNTS, BOOK, NO_ORDER, NO_ORDER_IDLE, ORDER, REBATES, SPARE

# The table that is wrong, its text, and the message.
BAD = [
    ("pairs.csv", "lot,call\n", "pairs.csv:1: the header line must be lot,call,cost"),
    ("pairs.csv", "", "pairs.csv:1: the header line must be lot,call,cost"),
    ("pairs.csv", PAIRS + "Bund 2031,Clearing A\n", "pairs.csv:6: 2 fields, not 3"),
    ("pairs.csv", PAIRS + "Bund 2031,Clearing A,1\n", "pairs.csv:6: the pair 'Bund 2031', 'Clearing A' stands here a second time"),
    ("pairs.csv", PAIRS + "Gilt,Clearing A,1\n", "pairs.csv:6: the lot 'Gilt' is not in lots.csv"),
    ("pairs.csv", PAIRS + "Bund 2031,Gilt,1\n", "pairs.csv:6: the call 'Gilt' is not in calls.csv"),
    ("pairs.csv", PAIRS.replace(",5", ",1000001"), "pairs.csv:5: the cost 1000001 is above 1,000,000 (refusal 7)"),
    ("pairs.csv", PAIRS.replace(",5", ",-1000001"), "pairs.csv:5: the cost -1000001 is below -1,000,000 (refusal 7)"),
    ("pairs.csv", PAIRS.replace(",5", f",-{'9' * 5000}"), f"pairs.csv:5: the cost -{'9' * 5000} is below -1,000,000 (refusal 7)"),
    *(
        ("pairs.csv", PAIRS.replace(",5", f",{bad}"), f"pairs.csv:5: the cost {bad!r} is not a whole number")
        for bad in ("nan", "1.5", "-1.5", "-", "--5", "- 5", "5-", "+5", "\u22125")
    ),
    ("pairs.csv", PAIRS + '"Bund', "pairs.csv:6: unexpected end of data"),
    ("pairs.csv", PAIRS + "\0", "pairs.csv:6: a null character"),
    ("lots.csv", LOTS + "OAT 2029,1\n", "lots.csv:4: the lot 'OAT 2029' stands here a second time"),
    ("lots.csv", LOTS.replace(",5", ",-5"), "lots.csv:2: the amount '-5' is not a whole number"),
    ("lots.csv", LOTS.replace(",5", ",1000000001"), "lots.csv:2: the amount 1000000001 is above 1,000,000,000 (refusal 16)"),
    ("lots.csv", "lot,amount\n", "pairs.csv:2: the lot 'Bund 2031' is not in lots.csv"),
    ("lots.csv", "", "lots.csv:1: the header line must be lot,amount or lot,amount,reserve"),
    ("calls.csv", "call,amount\n", "pairs.csv:2: the call 'Clearing A' is not in calls.csv"),
    ("calls.csv", "\n", "calls.csv:1: the header line must be call,amount"),
    ("calls.csv", "call,amount\n" + "".join(f"{c},0\n" for c in range(33)), "calls.csv:34: more than 32 calls (refusal 4)"),
    ("calls.csv", b"call,amount\n\xff,0\n", "calls.csv: is not UTF-8 text"),
    ("calls.csv", None, "calls.csv: No such file or directory"),
]


class Command(CommandCase):
    """Each subcommand."""

    def test_place(self):
        """By an order, to a file, from standard input and from binary files."""
        placed = (ROOT / "examples" / "csv" / "placed.csv").read_text()
        full = (0, placed, "full: 9 units, cost 24\n")
        self.assertEqual(self.run_it("place", *TABLES), full)
        self.assertEqual(self.run_it("place", "-", *TABLES[1:], stdin=b"\xef\xbb\xbf" + PAIRS.replace("\n", "\r\n\r\n").encode()), full)
        self.assertEqual(self.run_it("place", *TABLES, "-o", "out.csv"), (0, "", full[2]))
        self.assertEqual(Path("out.csv").read_text(), placed)
        self.write({"order.clo": ORDER, "book.clb": BOOK, "amounts.cla": AMOUNTS})
        out = self.run_it("place", "book.clb", "amounts.cla", "--order", "order.clo")[1]
        self.assertEqual(out, "lot,call,units\n0,1,5\n1,0,3\n1,1,1\n")

    def test_verdicts(self):
        """The word and the exit status: 0 where every call is met, 1 where one lacks units, whatever is left in the lots."""
        for amount, status, message in [
            ("5", 0, "full: 9 units, cost 24\n"),
            ("6", 0, "covered: 9 units, cost 21\n"),
            ("4", 1, "short: 8 units, cost 22\n"),
        ]:
            self.write({"lots.csv": LOTS.replace(",5", f",{amount}")})
            self.assertEqual(self.run_it("place", *TABLES)[::2], (status, message))
        self.write({"pairs.csv": "lot,call,cost\nBund 2031,Clearing A,1\n", "lots.csv": LOTS})
        self.assertEqual(self.run_it("place", *TABLES), (1, "lot,call,units\nBund 2031,Clearing A,3\n", "short: 3 units, cost 3\n"))

    def test_idle(self):
        """With --idle the dear lot keeps what is to spare."""
        self.write({"spare.clb": placer.book_bytes(SPARE), "spare.cla": placer.amounts_bytes([3, 4], [3, 2])})
        files = ["spare.clb", "spare.cla"]
        self.assertEqual(self.run_it("place", "--idle", *files), (0, "lot,call,units\n0,0,1\n1,0,2\n1,1,2\n", "covered: 5 units, cost 9\n"))
        self.assertEqual(self.run_it("place", *files), (0, "lot,call,units\n0,0,3\n1,1,2\n", "covered: 5 units, cost 13\n"))
        self.assertEqual(self.run_it("place", "--idle", *TABLES)[::2], (0, "full: 9 units, cost 24\n"))
        self.write({"pairs.csv": "lot,call,cost\nBund 2031,Clearing A,1\n"})
        self.assertEqual(self.run_it("place", "--idle", *TABLES)[::2], (1, "short: 3 units, cost 3\n"))
        self.assertIn("not allowed with argument --idle", self.run_it("place", "--idle", "--order", "order.clo", *TABLES)[2])

    def test_panel(self):
        """With --panel the same is placed, and more than 8 lots or calls are told of the file that has them."""
        self.assertEqual(self.run_it("place", "--panel", *TABLES), self.run_it("place", *TABLES))
        for other in (["--idle"], ["--order", "order.clo"]):
            self.assertIn("not allowed with argument", self.run_it("place", "--panel", *other, *TABLES)[2])
        zeros = "".join(f"{number},0\n" for number in range(7))
        for lots, calls, name in [(LOTS + zeros, CALLS, "lots.csv"), (LOTS, CALLS + zeros, "calls.csv"), (LOTS + zeros, CALLS, "book.clb")]:
            self.write({"lots.csv": lots, "calls.csv": calls})
            self.run_it("encode", *TABLES)
            files = ["book.clb", "amounts.cla"] if name == "book.clb" else TABLES
            above = f"placer: {name}: refused 20: the book's count of lots or calls is above 8, the most that a ticket panel shows"
            self.assertEqual(self.run_it("place", "--panel", *files), (2, "", f"{above}; place without --panel\n"))
            self.assertEqual(self.run_it("place", *files)[::2], (0, "full: 9 units, cost 24\n"))
        self.write({"none.clb": placer.book_bytes(NO_ORDER), "zeros.cla": placer.amounts_bytes([0] * 3, [0] * 3)})
        none = ["none.clb", "zeros.cla"]
        self.assertEqual(self.run_it("place", "--panel", *none), self.run_it("place", *none))

    def test_rebates(self):
        """Costs below 0 make a book of version 2, and the cost is told with its minus; -0 is 0."""
        names = [line.rpartition(",")[0] for line in PAIRS.splitlines()[1:]]
        for texts, cost, version in [
            (["1", "-2", "-3", "5"], -14, 2),
            ([" 01", " -02 ", "-3", "5"], -14, 2),
            (["-1000000", "-1000000", "-1000000", "1000000"], -7_000_000, 2),
            (["-0", "-00", "0", "0" * 5000], 0, 1),
            (["1", f"-{'0' * 5000}2", "-3", "5"], -14, 2),
        ]:
            self.write({"pairs.csv": "lot,call,cost\n" + "".join(f"{name},{text}\n" for name, text in zip(names, texts))})
            self.assertEqual(self.run_it("place", *TABLES)[::2], (0, f"full: 9 units, cost {cost}\n"))
            self.assertEqual(self.run_it("encode", "--order", *TABLES), (0, "", ""))
            versions = [Path(name).read_bytes()[3] for name in ("book.clb", "order.clo", "amounts.cla")]
            self.assertEqual(versions, [version, 1, 1])
        self.write({"pairs.csv": PAIRS.replace(",2", ",-2").replace(",3", ",-3"), "lots.csv": LOTS.replace(",5", ",9")})
        self.run_it("encode", *TABLES)
        self.assertEqual(Path("book.clb").read_bytes(), placer.book_bytes(REBATES))
        self.assertEqual(self.run_it("show", "book.clb")[1].splitlines()[1:], ["lot\\call   0   1", "       0   1  -2", "       1  -3   5"])
        self.assertIn("\na 2 3 0 3 -3\n", self.run_it("dimacs", *TABLES)[1])
        self.assertEqual(self.run_it("place", "--idle", *TABLES)[::2], (0, "covered: 9 units, cost -21\n"))

    def test_new_desk(self):
        """A table with its header line alone has no lots, no calls or no eligible pairs."""
        self.write({"pairs.csv": "lot,call,cost\n"})
        for lots, calls, status, word in [
            ("lot,amount\n", CALLS, 1, "short"),
            ("lot,amount", "call,amount\nA,0\n", 0, "full"),
            (LOTS, "call,amount\n\n", 0, "covered"),
            ("lot,amount\nA,0\n", "call,amount\n", 0, "full"),
            ("lot,amount\n", "call,amount\n", 0, "full"),
            (LOTS, CALLS, 1, "short"),
        ]:
            self.write({"lots.csv": lots, "calls.csv": calls})
            placed = status, "lot,call,units\n", f"{word}: 0 units, cost 0\n"
            self.assertEqual(self.run_it("place", *TABLES), placed)
            self.assertEqual(self.run_it("encode", "--order", *TABLES), (0, "", ""))
            self.assertEqual(self.run_it("place", "book.clb", "amounts.cla", "--order", "order.clo"), placed)
            if word != "short":
                self.assertEqual(self.run_it("place", "--idle", *TABLES), placed)
        self.write({"lots.csv": "lot,amount\n"})
        self.assertIn("calls.csv: refused 18", self.run_it("place", "--idle", *TABLES)[2])

    def test_new_desk_shown(self):
        """The files of a desk without lots or without calls are checked, shown and exported."""
        for lots, calls, matrix, last, nodes in [
            ([], [3, 6], "lot\\call  0  1\n", "call       1       6\n", ["p min 2 0", "n 1 -3", "n 2 -6"]),
            ([5, 4], [], "lot\\call\n       0\n       1\n", "lot       1       4\n", ["p min 2 0", "n 1 5", "n 2 4"]),
            ([], [], "lot\\call\n", "  number  amount\n", ["p min 0 0"]),
        ]:
            self.write({"book.clb": placer.book_bytes([[]] * len(lots), len(calls)), "amounts.cla": placer.amounts_bytes(lots, calls)})
            self.write({"order.clo": placer.order_bytes([])})
            self.run_it("place", "book.clb", "amounts.cla", "--flow", "flow")
            counts = f"{len(lots)} lots, {len(calls)} calls, 0 eligible pairs"
            self.assertEqual(self.run_it("show", "book.clb")[1], f"book: {counts}, costs in hundredths of a cent\n{matrix}")
            self.assertEqual(self.run_it("show", "flow", "--book", "book.clb")[1], f"flow: 0 units\n{matrix}")
            self.assertEqual(self.run_it("show", "order.clo")[1], "order: 0 pairs\nplace  lot  call\n")
            self.assertTrue(self.run_it("show", "amounts.cla")[1].endswith(last))
            self.assertEqual(self.run_it("check", "book.clb", "order.clo", "amounts.cla")[0], 0)
            lines = self.run_it("dimacs", "book.clb", "amounts.cla")[1].splitlines()
            self.assertEqual([line for line in lines if not line.startswith("c ")], nodes)

    def test_idle_refused(self):
        """A refusal with --idle is told of the file that has the cause, and says what to do instead."""
        files = {"spare": (SPARE, [3, 1], [3, 2]), "none": (NO_ORDER_IDLE, [1] * 3, [1] * 2), "neither": (NO_ORDER, [1] * 3, [1] * 3)}
        for name, (costs, lots, calls) in files.items():
            self.write({f"{name}.clb": placer.book_bytes(costs), f"{name}.cla": placer.amounts_bytes(lots, calls)})
        self.write({"calls.csv": CALLS + "".join(f"{c},0\n" for c in range(30))})
        self.write({"wide.clb": placer.book_bytes([[0] * 32]), "wide.cla": placer.amounts_bytes([0], [0] * 32)})
        solver = "use a flow solver on what `placer dimacs` writes"
        least = f"place without --idle, or, for the least cost, {solver}"
        for start, instead, names in [
            ("spare.cla: refused 18: the calls' total exceeds the lots' total", "place without --idle", ["spare.clb", "spare.cla"]),
            ("calls.csv: refused 19: the book already has 32 calls", least, TABLES),
            ("wide.clb: refused 19: the book already has 32 calls", least, ["wide.clb", "wide.cla"]),
            ("none.clb: refused 13: no order of this book (with", f"the book alone has one: {least}", ["none.clb", "none.cla"]),
            ("neither.clb: refused 13: no order", solver, ["neither.clb", "neither.cla"]),
        ]:
            status, out, message = self.run_it("place", "--idle", *names)
            self.assertEqual((status, out), (2, ""))
            self.assertTrue(message.startswith(f"placer: {start}") and message.endswith(f"; {instead}\n"), message)
        self.assertEqual(self.run_it("place", "none.clb", "none.cla")[0], 0)

    def test_status_stands(self):
        """Messages that cannot be written change no status, a failure is never told as short, and the tables are UTF-8 in any locale."""
        self.write({"lots.csv": LOTS.replace(",5", ",6").replace("Bund", "Bünd"), "pairs.csv": PAIRS.replace("Bund", "Bünd")})
        here = {**os.environ, "PYTHONPATH": str(ROOT / "bindings" / "python"), "PYTHONIOENCODING": "ascii", "PYTHONUNBUFFERED": ""}
        for where, status in [("", 0), ("2>/dev/full", 0), ("2>&-", 0), (">/dev/full", 2), (">&-", 2), (">/dev/full 2>&-", 2)]:
            ran = subprocess.run(f"{sys.executable} -m placer place {' '.join(TABLES)} {where}", shell=True, env=here, capture_output=True)
            self.assertEqual(ran.returncode, status, (where, ran))
            self.assertEqual("Bünd".encode() in ran.stdout, status == 0)

    def test_names(self):
        """Names are free text, in order of first appearance in the amounts tables."""
        self.write({"pairs.csv": 'lot,call,cost\n"a, ""b""",é,7\n', "lots.csv": 'lot,amount\nz,0\n"a, ""b""",2\n'})
        self.write({"calls.csv": "call,amount\né,2\n"})
        self.assertEqual(self.run_it("place", *TABLES), (0, 'lot,call,units\n"a, ""b""",é,2\n', "full: 2 units, cost 14\n"))

    def test_bad_tables(self):
        """Each message names file, line and cause."""
        for name, text, message in BAD:
            self.write({**dict(zip(TABLES, (PAIRS, LOTS, CALLS))), name: b""})
            self.write({name: text})
            self.assertEqual(self.run_it("place", *TABLES), (2, "", f"placer: {message}\n"))

    def test_refused(self):
        """What the library refuses is told of the file."""
        zeros = placer.amounts_bytes([0] * 3, [0] * 3)
        wrong = placer.order_bytes([(0, 0), (0, 1), (1, 0), (1, 1)])
        self.write({"none.clb": placer.book_bytes(NO_ORDER), "zeros.cla": zeros})
        self.write({"book.clb": BOOK, "amounts.cla": AMOUNTS, "wrong.clo": wrong, "third.clb": b"CLB\3" + BOOK[4:]})
        for start, arguments in [
            ("none.clb: refused 13: no order", ["place", "none.clb", "zeros.cla"]),
            ("none.clb: refused 13: no order", ["encode", "--order", "none.clb", "zeros.cla"]),
            ("zeros.cla: refused 15:", ["place", "book.clb", "zeros.cla"]),
            ("wrong.clo: refused 12:", ["place", "book.clb", "amounts.cla", "--order", "wrong.clo"]),
            ("wrong.clo: refused 2: a file does not open with its mark\n", ["check", "wrong.clo"]),
            ("amounts.cla: refused 2: a file does not open with its mark\n", ["place", "amounts.cla", "book.clb"]),
            ("book.clb: refused 2: a file does not open with its mark\n", ["check", "book.clb", "book.clb"]),
            ("third.clb: refused 3: a file's version is not 1 (of a book or amounts: neither 1 nor 2)\n", ["check", "third.clb"]),
            ("amounts.cla: refused 15:", ["check", "none.clb", "amounts.cla"]),
            ("pairs.csv: neither a book", ["show", "pairs.csv"]),
            ("pairs.csv: a flow of this book has 16 bytes", ["show", "pairs.csv", "--book", "book.clb"]),
            ("standard input: is closed, or was read before", ["place", "-", "-", "-"]),
            ("standard input: is closed, or was read before", ["place", "--order", "-", "-", "amounts.cla"]),
            ("standard input: is closed, or was read before", ["check", "-", "-"]),
        ]:
            status, out, message = self.run_it(*arguments, stdin=LOTS.encode() if arguments.count("-") == 3 else BOOK)
            self.assertEqual((status, out), (2, ""))
            self.assertTrue(message.startswith(f"placer: {start}"), message)
        self.assertFalse(os.path.exists("order.clo"))

    def test_encode_check_show(self):
        """The files written are those of F1, pass the check, and are shown."""
        self.assertEqual(self.run_it("encode", "--order", *TABLES), (0, "", ""))
        self.run_it("place", *TABLES, "--flow", "flow")
        self.assertEqual([Path(name).read_bytes() for name in ("book.clb", "order.clo", "amounts.cla")], [BOOK, ORDER, AMOUNTS])
        status, out, _ = self.run_it("check", "book.clb", "order.clo", "amounts.cla")
        self.assertEqual((status, out.count("\n")), (0, 3))
        for name, title, last in [
            ("book.clb", "book: 2 lots, 2 calls, 4 eligible pairs", "       1  3  5\n"),
            ("order.clo", "order: 4 pairs", "    3    1     1\n"),
            ("amounts.cla", "amounts: the lots have 9 units, the calls ask for 9", "call       1       6\n"),
            ("flow", "flow: 9 units", "       1  3  1\n"),
        ]:
            status, out, _ = self.run_it("show", name, *(["--book", "book.clb"] if name == "flow" else []))
            self.assertEqual((status, out[: len(title)], out[-len(last) :]), (0, title, last))

    def test_dimacs(self):
        """The export has a node for each lot and call and an arc for each pair, and says if the totals differ."""
        status, out, _ = self.run_it("dimacs", *TABLES)
        lines = [line for line in out.splitlines() if not line.startswith("c ")]
        nodes, arcs = ["n 1 5", "n 2 4", "n 3 -3", "n 4 -6"], ["a 1 3 0 3 1", "a 1 4 0 5 2", "a 2 3 0 3 3", "a 2 4 0 4 5"]
        self.assertEqual((status, lines), (0, ["p min 4 4", *nodes, *arcs]))
        self.write({"lots.csv": LOTS.replace(",5", ",4")})
        self.assertIn("c totals differ: the lots have 8 units, the calls ask for 9\n", self.run_it("dimacs", *TABLES)[1])

    @unittest.skipUnless(shutil.which("dimacs-solver"), "LEMON's dimacs-solver is not installed")
    def test_dimacs_solver(self):
        """LEMON finds the same cost of what is exported, with stock to spare that of the run with an idle call."""
        rng = random.Random(4)
        for spare, rebate in [(0, 0)] * 10 + [(0, 400_000)] * 10 + [(500, 0)] * 10:
            lots, calls = ([rng.randint(0, 1000) for _ in range(6)] for _ in range(2))
            costs = [[lot * call - rebate for call in calls] for lot in lots]
            calls[-1] += max(0, sum(lots) - sum(calls))
            lots[-1] += max(0, sum(calls) - sum(lots)) + spare
            self.write({"book.clb": placer.book_bytes(costs), "amounts.cla": placer.amounts_bytes(lots, calls)})
            self.assertEqual(self.run_it("dimacs", "book.clb", "amounts.cla", "-o", "book.min")[0], 0)
            ran = subprocess.run(["dimacs-solver", "book.min"], capture_output=True, text=True, check=True)
            self.assertIn(f"Min flow cost: {placer.place(costs, lots, calls, idle=spare > 0).cost}\n", ran.stdout + ran.stderr)

    def test_help(self):
        """Help and version, and the message for a wrong count of files; the module runs as a program."""
        for arguments in (["--help"], ["place", "--help"], ["show", "--help"]):
            status, out, _ = self.run_it(*arguments)
            self.assertEqual((status, "not the proved part" in out), (0, True))
        self.assertIn("Exit status: 0 full or covered (", self.run_it("--help")[1])
        self.assertEqual(self.run_it("--version"), (0, f"placer {placer.__version__}\n", ""))
        self.assertEqual(self.run_it("place", "one")[0], 2)
        environment = {**os.environ, "PYTHONPATH": str(ROOT / "bindings" / "python")}
        command = [sys.executable, "-m", "placer", "place", *TABLES]
        ran = subprocess.run(command, env=environment, capture_output=True, text=True, check=False)
        self.assertEqual((ran.returncode, ran.stderr), (0, "full: 9 units, cost 24\n"))


if __name__ == "__main__":
    unittest.main()
