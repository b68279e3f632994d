"""A desk with no lots yet, or no calls (request 5): its files, and what every call answers."""

import ctypes
import unittest
from array import array

import placer
from placer import Placing, Verdict, amounts_bytes, amounts_lists, book_bytes, book_costs, order_bytes, order_pairs
from support import Case

NO_PAIRS = order_bytes([])


def desks():
    """Yield the counts of lots and calls, the book in either version and the amounts, all of them 0 or the last one 1."""
    for lots, calls in [(0, calls) for calls in range(33)] + [(lots, 0) for lots in range(1, 33)]:
        book = book_bytes([[]] * lots, calls)
        for last in {0, 1} if lots + calls else {0}:
            units = [0] * (lots + calls - 1) + [last] * (lots + calls > 0)
            for version in (1, 2):
                yield lots, calls, book[:3] + bytes([version]) + book[4:], amounts_bytes(units[:lots], units[lots:])


def verdict(amounts):
    """Return the verdict by the sums."""
    lots, calls, _ = amounts_lists(amounts)
    return Verdict.SHORT if sum(calls) else Verdict.COVERED if sum(lots) else Verdict.FULL


class NewDesk(Case):
    """Each size of a desk without lots or without calls, up to 32."""

    def test_files(self):
        """The lengths of the files, what is read of them, and the way back to lists."""
        self.assertEqual((NO_PAIRS, order_pairs(NO_PAIRS)), (b"CLO\1\0\0\0", []))
        for lots, calls, book, amounts in desks():
            self.assertEqual((len(book), len(amounts)), (7 + 4 * lots, 7 + 4 * (lots + calls)))
            self.assertEqual((placer.read_book(book), placer.read_amounts(book, amounts)), ((lots, calls),) * 2)
            self.assertEqual(book_costs(book), [[]] * lots)
            self.assertEqual(book_bytes(book_costs(book), placer.read_book(book).calls)[4:], book[4:])
            self.assertEqual(amounts_bytes(*amounts_lists(amounts)), amounts)

    def test_costs(self):
        """No lot has costs, and no pair has one."""
        for _, _, book, _ in desks():
            for number in (0, 1, 31, 32, 2**64 - 1):
                self.assertEqual(list(placer.lot_costs(book, number)), [])
                self.assertEqual((placer.pair_cost(book, number, 0), placer.pair_cost(book, 0, number)), (None, None))

    def test_orders(self):
        """The order has no pairs and needs 7 bytes; an order with a pair is refused."""
        for _, _, book, _ in desks():
            buffer = bytearray(b"7" * 8)
            self.refused(17, (), placer.find_order, book, bytearray(b"7" * 6))
            self.assertEqual((placer.find_order(book, buffer), buffer), (NO_PAIRS, NO_PAIRS + b"7"))
            self.assertEqual((placer.find_order(book), placer.check_order(book, NO_PAIRS)), (NO_PAIRS, 0))
            self.refused(9, (0,), placer.check_order, book, order_bytes([(0, 0)]))

    def test_runs(self):
        """Nothing is placed, the verdict is by the sums, and a flow of no entries is enough."""
        for lots, calls, book, amounts in desks():
            expected = Placing(verdict(amounts), 0, 0, ((),) * lots)
            kept = array("I", [7])
            for flow in (None, kept, array("I"), memoryview(kept)[1:], (ctypes.c_uint32 * 0)()):
                self.assertEqual(placer.find_and_run(book, amounts, flow), expected)
                self.assertEqual(placer.run_order(book, NO_PAIRS, amounts, flow), expected)
                if expected.met and calls < 32:
                    self.assertEqual(placer.find_and_run_idle(book, amounts, flow), expected)
                if max(lots, calls) <= 8:
                    self.assertEqual(placer.find_and_run_panel(book, amounts, flow), expected)
            if not expected.met or calls == 32:
                self.refused(19 if expected.met else 18, (), placer.find_and_run_idle, book, amounts, kept)
            if max(lots, calls) > 8:
                self.refused(20, (), placer.find_and_run_panel, book, amounts, kept)
            self.assertEqual(kept.tolist(), [7])

    def test_place(self):
        """From lists: without lots the amounts tell how many calls there are; without calls each lot has a row of no costs."""
        for lots, calls, book, amounts in desks():
            lists, costs = amounts_lists(amounts), [[]] * lots
            self.assertEqual(placer.place(costs, *lists), placer.find_and_run(book, amounts))
            if placer.place(costs, *lists).met and calls < 32:
                self.assertEqual(placer.place(costs, *lists, idle=True), placer.find_and_run_idle(book, amounts))
        for costs, lots, calls in [([], [5], []), ([[]], [], []), ([[]], [5], [3]), ([[0]], [5], []), ([], [5], [3])]:
            self.refused(15, (), placer.place, costs, lots, calls)

    def test_counts_differ(self):
        """The amounts have the book's counts: files of one length may differ in them."""
        book, amounts = book_bytes([[], []]), amounts_bytes([], [0, 0])
        self.refused(15, (), placer.read_amounts, book, amounts)
        self.refused(15, (), placer.run_order, book, NO_PAIRS, amounts, array("I"))
        self.refused(6, (), placer.read_amounts, book, amounts_bytes([0, 0], [])[:-1])
        self.refused(8, (), placer.read_amounts, book_bytes([]), amounts_bytes([], []) + b"\0")


if __name__ == "__main__":
    unittest.main()
