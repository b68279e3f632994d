"""`placer show` of a flow: what is left and lacking, the marks on a terminal, and what is refused."""

import contextlib
import os
import pty
import subprocess
import sys
import unittest

import placer
from command import ROOT, CommandCase
from placer.files import words
from support import AMOUNTS, BOOK, NO_ORDER_IDLE, ORDER, SPARE

LEGEND = "A marked heading is of a lot that has nothing left, or of a call that lacks nothing."


def reverse(text):
    """Return a text in reverse video."""
    return f"\x1b[7m{text}\x1b[0m"


def bold(text):
    """Return a text in bold."""
    return f"\x1b[1m{text}\x1b[0m"


class Show(CommandCase):
    """Flows with their book and amounts."""

    def setUp(self):
        """Write F1, and a flow of a book with a dear lot, part of which is reserved."""
        super().setUp()
        self.write({"book.clb": BOOK, "order.clo": ORDER, "amounts.cla": AMOUNTS, "flow": words([0, 5, 3, 1])})
        self.write({"spare.clb": placer.book_bytes(SPARE), "spare.cla": placer.amounts_bytes([5, 4], [3, 4], [2, 0])})
        self.write({"spare.flow": words([0, 0, 2, 2])})
        self.spare = ["show", "--book", "spare.clb", "--amounts", "spare.cla", "spare.flow"]

    def test_left(self):
        """A column with what each lot has left, its reserve taken off, and a row with what each call lacks."""
        lines = ["flow: 4 units, cost 6, short", "lot\\call  0  1  left", "       0  0  0     3", "       1  2  2     0", "   lacks  1  2"]
        self.assertEqual(self.run_it(*self.spare), (0, "\n".join([*lines, ""]), ""))
        self.assertEqual(self.run_it("show", "--book", "spare.clb", "spare.flow")[1].splitlines()[0], "flow: 4 units")
        full = self.run_it("show", "--amounts", "amounts.cla", "--book", "book.clb", "flow")[1]
        self.assertTrue(full.startswith("flow: 9 units, cost 24, full\n") and full.endswith("\n   lacks  0  0\n"), full)
        self.write({"gaps.clb": placer.book_bytes(NO_ORDER_IDLE), "gaps.cla": placer.amounts_bytes([1, 1, 1], [1, 1])})
        self.run_it("place", "gaps.clb", "gaps.cla", "--flow", "gaps.flow")
        lines = self.run_it("show", "--book", "gaps.clb", "--amounts", "gaps.cla", "gaps.flow")[1].splitlines()
        self.assertEqual((lines[0], lines[2][:14]), ("flow: 2 units, cost 1, covered", "       0  -  1"))

    def test_empty_desk(self):
        """Without lots, without calls, and without both."""
        for lots, calls, lines in [
            ([], [3, 6], ["flow: 0 units, cost 0, short", "lot\\call  0  1  left", "   lacks  3  6"]),
            ([5, 4], [], ["flow: 0 units, cost 0, covered", "lot\\call  left", "       0     5", "       1     4", "   lacks"]),
            ([], [], ["flow: 0 units, cost 0, full", "lot\\call  left", "   lacks"]),
        ]:
            self.write({"book.clb": placer.book_bytes([[]] * len(lots), len(calls)), "amounts.cla": placer.amounts_bytes(lots, calls)})
            self.write({"flow": b""})
            out = self.run_it("show", "--book", "book.clb", "--amounts", "amounts.cla", "flow")[1]
            self.assertEqual(out.splitlines(), lines)

    def on_terminal(self, *arguments, **environment):
        """Return the lines that the command shows on a terminal."""
        terminal, standard_output = pty.openpty()
        whole = {**os.environ, "PYTHONPATH": str(ROOT / "bindings" / "python"), "TERM": "xterm", "NO_COLOR": "", **environment}
        set_ones = {name: text for name, text in whole.items() if text is not None}
        with subprocess.Popen([sys.executable, "-m", "placer", *arguments], stdout=standard_output, env=set_ones) as ran:
            os.close(standard_output)
            shown = b""
            with contextlib.suppress(OSError), os.fdopen(terminal, "rb", buffering=0) as screen:
                while True:  # until the terminal is closed at the other end, which is an error
                    shown += screen.read(4096)
        self.assertEqual(ran.returncode, 0)
        return shown.decode().split("\r\n")

    def test_marks(self):
        """On a terminal the headings of full lots and calls are reversed and their units bold."""
        marked = f"       {reverse(1)}  {bold(2)}  {bold(2)}     0"
        shown = self.on_terminal(*self.spare)
        self.assertEqual(shown[1:], ["lot\\call  0  1  left", "       0  0  0     3", marked, "   lacks  1  2", LEGEND, ""])
        self.write({"spare.flow": words([3, 0, 0, 3])})
        shown = self.on_terminal(*self.spare)
        head, first = f"lot\\call  {reverse(0)}  1  left", f"       {reverse(0)}  {bold(3)}  0     0"
        self.assertEqual(shown[1:], [head, first, "       1  0  3     1", "   lacks  0  1", LEGEND, ""])

    def test_no_marks(self):
        """None where nothing is full, where they are not wanted or not shown, and none of the other files."""
        plain = self.run_it(*self.spare)[1].splitlines()
        for environment in ({"NO_COLOR": "1"}, {"TERM": "dumb"}, {"TERM": None}):
            self.assertEqual(self.on_terminal(*self.spare, **environment)[:-1], plain)
        self.write({"spare.flow": words([0] * 4)})
        self.assertNotIn("\x1b", "".join(self.on_terminal(*self.spare)))
        self.assertNotIn(LEGEND, self.run_it(*self.spare)[1])

    def test_refused(self):
        """A flow that does not fit, files that do not fit each other, and options that do not go with the file."""
        self.write({"gaps.clb": placer.book_bytes([[1, None]]), "gaps.cla": placer.amounts_bytes([9], [9, 9]), "gaps.flow": words([1, 2])})
        self.write({"lot.flow": words([0, 2, 1, 1]), "call.flow": words([1, 0, 3, 1]), "long": words([0] * 5), "cut.cla": AMOUNTS[:-1]})
        with_amounts = ["--amounts", "spare.cla", "--book", "spare.clb"]
        for message, arguments in [
            ("long: a flow of this book has 16 bytes, not 20", ["--book", "book.clb", "long"]),
            ("gaps.flow: 2 units of lot 0 on call 1, and the pair is not eligible", ["--book", "gaps.clb", "gaps.flow"]),
            ("gaps.flow: 2 units of lot 0 on call 1, and the pair", ["--book", "gaps.clb", "--amounts", "gaps.cla", "gaps.flow"]),
            ("flow: 5 units of lot 0, which has 3 to place", [*with_amounts, "flow"]),
            ("call.flow: 4 units on call 0, which asks for 3", [*with_amounts, "call.flow"]),
            ("spare.cla: refused 2:", ["--book", "spare.cla", "flow"]),
            ("cut.cla: refused 6: a file ends before its last field\n", ["--book", "book.clb", "--amounts", "cut.cla", "flow"]),
            ("gaps.cla: refused 15:", ["--book", "book.clb", "--amounts", "gaps.cla", "flow"]),
            ("order.clo: marked as an order, to be shown without --book", ["--book", "book.clb", "order.clo"]),
            ("book.clb: marked as a book, to be shown without --book", [*with_amounts, "book.clb"]),
            ("amounts.cla: marked as amounts, to be shown without --amounts", ["--amounts", "amounts.cla", "amounts.cla"]),
            ("flow: neither a book, an order nor amounts; for a flow name its book", ["--amounts", "amounts.cla", "flow"]),
        ]:
            status, out, told = self.run_it("show", *arguments)
            self.assertEqual((status, out), (2, ""))
            self.assertTrue(told.startswith(f"placer: {message}"), told)
        self.assertEqual(self.run_it("show", *with_amounts, "lot.flow")[0], 0)

    def test_marked_by_chance(self):
        """A flow whose first units happen to read as a mark is shown as a flow."""
        units = int.from_bytes(b"CLB\1", "little")
        self.write({"one.clb": placer.book_bytes([[0]]), "one.flow": words([units])})
        self.assertIn(f"flow: {units} units\n", self.run_it("show", "--book", "one.clb", "one.flow")[1])


if __name__ == "__main__":
    unittest.main()
