"""Which file a refusal is about: by every entry point, also for the five numbers that any file can have."""

import unittest
from array import array
from unittest import mock

import placer
from placer import Cause, Refused, _library, amounts_bytes, book_bytes, entry_points, order_bytes
from support import AMOUNTS, BOOK, F1, NO_ORDER, ORDER, SPARE, Case

GOOD = {"book": BOOK, "order": ORDER, "amounts": AMOUNTS}


def placed(**how):
    """Return a call of `place` over files, which the makers of files hand to it."""

    def call(book, amounts):
        with mock.patch.object(entry_points, "book_bytes", return_value=book):
            with mock.patch.object(entry_points, "amounts_bytes", return_value=amounts):
                return placer.place(F1, [5, 4], [3, 6], **how)

    return call


# Each entry point by the files that it takes.
CALLS = {
    ("book",): [
        placer.read_book,
        placer.book_costs,
        placer.find_order,
        lambda book: placer.find_order(book, bytearray(3)),
        lambda book: placer.pair_cost(book, 0, 0),
    ],
    ("order",): [placer.order_pairs],
    ("amounts",): [placer.amounts_lists],
    ("book", "order"): [placer.check_order],
    ("book", "amounts"): [
        placer.read_amounts,
        placer.find_and_run,
        placer.find_and_run_idle,
        placer.find_and_run_panel,
        lambda book, amounts: placer.find_and_run_panel(book, amounts, array("I")),
        placed(),
        placed(idle=True),
        placed(panel=True),
    ],
    ("book", "order", "amounts"): [placer.run_order],
}


def damaged(data):
    """Yield the five numbers, each with the file damaged so that it is refused by it."""
    yield from [(1, data[:6]), (2, b"XYZ" + data[3:]), (3, data[:3] + b"\7" + data[4:]), (6, data[:-1]), (8, data + b"\0")]


class WhichFile(Case):
    """`Refused.file`."""

    def told(self, call, *files):
        """Return the number and the file of a refusal."""
        with self.assertRaises(Refused) as caught:
            call(*files)
        return caught.exception.number, caught.exception.file, str(caught.exception).rpartition(" ")[2]

    def test_one_bad(self):
        """One file damaged, the others good."""
        for names, calls in CALLS.items():
            for bad in names:
                for number, data in damaged(GOOD[bad]):
                    files = [data if name == bad else GOOD[name] for name in names]
                    for call in calls:
                        self.assertEqual(self.told(call, *files), (number, bad, f"[{bad}]"))

    def test_all_bad(self):
        """Of several damaged files the first is told, the book's refusal before all, whatever its number."""
        for names, calls in CALLS.items():
            for number, data in damaged(GOOD[names[0]]):
                for call in calls:
                    self.assertEqual(self.told(call, data, *[b""] * (len(names) - 1))[:2], (number, names[0]))
        for number, data in damaged(ORDER):
            self.assertEqual(self.told(placer.run_order, BOOK, data, b"")[:2], (number, "order"))
        self.assertEqual(self.told(placer.run_order, BOOK, order_bytes([(0, 0)]), b"")[:2], (14, "order"))

    def test_other_numbers(self):
        """The other numbers tell the file by themselves; 17 is about the lent buffer."""
        files = {cause: Refused(cause).file for cause in Cause if cause not in (1, 2, 3, 6, 8)}
        for name, numbers in [("book", {4, 5, 7, 13, 19, 20}), ("order", {9, 10, 11, 12, 14}), ("amounts", {15, 16, 18, 21}), (None, {17})]:
            self.assertEqual({int(cause) for cause, file in files.items() if file == name}, numbers)
        wide = book_bytes([[0] * 32])
        for told, call, *arguments in [
            ((4, "book"), placer.place, [[0]] * 33, [0] * 33, [0]),
            ((13, "book"), placer.place, NO_ORDER, [1] * 3, [1] * 3),
            ((15, "amounts"), placer.place, F1, [5], [3, 6]),
            ((16, "amounts"), placer.place, F1, [5, 4], [3, 1_000_000_001]),
            ((21, "amounts"), placer.place, F1, [5, 4], [3, 6], [6, 0]),
            ((21, "amounts"), lambda: placer.Amounts([1], [], [2]).reduced),
            ((18, "amounts"), placer.find_and_run_idle, book_bytes(SPARE), amounts_bytes([0, 0], [3, 2])),
            ((19, "book"), placer.find_and_run_idle, wide, amounts_bytes([0], [0] * 32)),
            ((20, "book"), placer.find_and_run_panel, wide, b""),
            ((17, None), placer.find_and_run, BOOK, AMOUNTS, array("I")),
        ]:
            self.assertEqual(self.told(call, *arguments)[:2], told)

    def test_calls(self):
        """The other files are read again only after one of the five numbers, and only those before the last."""
        for files, calls in [
            ((BOOK, ORDER, AMOUNTS), ["run_order"]),
            ((BOOK, order_bytes([]), AMOUNTS), ["run_order"]),
            ((BOOK, ORDER, b""), ["run_order", "read_book", "check_order"]),
            ((BOOK, b"", b""), ["run_order", "read_book", "check_order"]),
            ((b"", b"", b""), ["run_order", "read_book"]),
        ]:
            with mock.patch.object(_library, "_reply", side_effect=_library._reply) as reply:
                try:
                    placer.run_order(*files)
                except Refused:
                    pass
            self.assertEqual([made.args[0] for made in reply.call_args_list], calls)


if __name__ == "__main__":
    unittest.main()
