"""The files that the command writes: none over another, and each told by its name if it cannot be written."""

import os
import unittest
from pathlib import Path

from command import TABLES, CommandCase
from support import BOOK, ORDER


class Writing(CommandCase):
    """`placer place`, `encode` and `dimacs`."""

    def test_not_written_over(self):
        """No file is written twice, or over one that is read; nothing is written then. A device may be named twice."""
        self.write({"order.clo": ORDER})
        os.link("calls.csv", "linked")
        os.symlink("lots.csv", "pointing")
        before = {path.name: path.read_bytes() for path in Path().iterdir()}
        for options in [
            ["--html", "out", "--flow", "out"],
            ["--flow", "out", "-o", "./out"],
            ["--html", "calls.csv"],
            ["--html", "linked"],
            ["--flow", "pointing"],
            ["-o", "lots.csv"],
            ["--order", "order.clo", "--flow", "order.clo"],
        ]:
            status, out, message = self.run_it("place", *options, *TABLES)
            self.assertEqual((status, out, "would be written over" in message), (2, "", True))
        self.assertEqual(self.run_it("dimacs", "-o", "lots.csv", *TABLES)[0], 2)
        self.assertEqual({path.name: path.read_bytes() for path in Path().iterdir()}, before)
        self.assertEqual(self.run_it("place", "--html", "/dev/null", "--flow", "/dev/null", *TABLES)[0], 0)

    def test_empty_and_unwritable(self):
        """An option's empty value names no file, and is no option left out; what cannot be written is told of its file."""
        for option in ("--order", "--html", "--flow", "-o"):
            self.assertEqual(self.run_it("place", option, "", *TABLES)[:2], (2, ""))
        self.write({"book.clb": BOOK})
        self.assertEqual([self.run_it("show", option, "", "book.clb")[0] for option in ("--book", "--amounts")], [2, 2])
        for arguments in (["place", "--html"], ["place", "--flow"], ["place", "-o"], ["dimacs", "-o"]):
            status, out, message = self.run_it(*arguments, "/dev/full", *TABLES)
            self.assertEqual((status, out, message), (2, "", "placer: /dev/full: No space left on device\n"))
        message = self.run_it("encode", "--to", "absent", *TABLES)[2]
        self.assertEqual(message, f"placer: {os.path.join('absent', 'book.clb')}: No such file or directory\n")


if __name__ == "__main__":
    unittest.main()
