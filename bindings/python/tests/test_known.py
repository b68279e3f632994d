"""The known examples F1 to F14 of document 01, and those of the requests."""

import unittest

import placer
from placer import Verdict, amounts_bytes, book_bytes, order_bytes
from support import F1, NO_ORDER, NO_ORDER_IDLE, REBATES, SPARE, Case

F6 = [[0, 0], [0, None]]
MOST = 1_000_000_000


def pairs(text):
    """Return the pairs of a text as "01 00 10 11"."""
    return [(int(pair[0]), int(pair[1])) for pair in text.split()]


class Known(Case):
    """Each example by its number."""

    def placed(self, costs, lots, calls, *expected):
        """Check that both ways of placing give this answer: verdict, units, cost and, if given, the flow."""
        book, amounts = book_bytes(costs), amounts_bytes(lots, calls)
        for placing in (placer.find_and_run(book, amounts), placer.run_order(book, placer.find_order(book), amounts)):
            self.assertEqual((placing.verdict, placing.units, placing.cost, placing.flow)[: len(expected)], expected)

    def order(self, costs, text):
        """Return a book and an order of it."""
        return book_bytes(costs), order_bytes(pairs(text))

    def test_f1(self):
        """The order found, and the placing by it."""
        self.assertEqual(placer.find_order(book_bytes(F1)), order_bytes(pairs("01 00 10 11")))
        self.placed(F1, [5, 4], [3, 6], Verdict.FULL, 9, 24, ((0, 5), (3, 1)))

    def test_f2_to_f6(self):
        """Orders that pass and orders that fail."""
        self.refused(12, (0, 0, 1, 1), placer.check_order, *self.order(F1, "00 01 10 11"))
        self.refused(12, (1, 1, 0, 0), placer.check_order, *self.order(F1, "11 00 01 10"))
        self.assertEqual(placer.check_order(*self.order(F1, "01 10 00 11")), 4)
        self.assertEqual(placer.check_order(*self.order([[1, 2], [3, 4]], "00 01 10 11")), 4)
        self.refused(11, (0, 0, 1, 1), placer.check_order, *self.order(F6, "00 01 10"))

    def test_f7_f8(self):
        """A pair that is not eligible."""
        self.assertEqual(placer.order_pairs(placer.find_order(book_bytes(F6))), pairs("01 00 10"))
        self.placed(F6, [1, 1], [1, 1], Verdict.FULL, 2, 0)
        self.placed(F6, [2, 0], [1, 0], Verdict.COVERED, 1, 0)

    def test_f9(self):
        """A book without an order."""
        self.refused(13, (), placer.find_order, book_bytes(NO_ORDER))
        self.refused(13, (), placer.place, NO_ORDER, [1, 1, 1], [1, 1, 1])

    def test_f10_f11(self):
        """No eligible pair."""
        self.assertEqual(placer.find_order(book_bytes([[None]])), order_bytes([]))
        self.placed([[None]], [1], [1], Verdict.SHORT, 0, 0, ((0,),))
        self.placed([[None]], [0], [0], Verdict.FULL, 0, 0, ((0,),))

    def test_f12_f13(self):
        """The largest cost and amount, and one more of each."""
        self.placed([[1_000_000]], [MOST], [MOST], Verdict.FULL, MOST, 10**15)
        self.refused(7, (0, 0), placer.place, [[1_000_001]], [MOST], [MOST])
        self.refused(16, (), placer.place, [[1_000_000]], [MOST + 1], [MOST])

    def test_largest(self):
        """The largest book and amounts: 32 by 32, every cost and amount at its limit."""
        most = [MOST] * 32
        self.placed([[1_000_000] * 32] * 32, most, most, Verdict.FULL, 32 * MOST, 32 * 10**15)

    def test_verdicts(self):
        """A call that lacks units is Short, whatever is left in the lots; a Covered run need not be the cheapest."""
        self.placed(F6, [1, 2], [1, 2], Verdict.SHORT, 2, 0, ((0, 1), (1, 0)))
        self.placed(F6, [1, 3], [1, 2], Verdict.SHORT, 2, 0, ((0, 1), (1, 0)))
        self.placed(F1, [1, 1], [2, 2], Verdict.SHORT, 2, 5, ((0, 1), (1, 0)))
        self.placed([[None]], [1], [0], Verdict.COVERED, 0, 0)
        self.placed([[5], [1]], [1, 1], [1], Verdict.COVERED, 1, 5, ((1,), (0,)))

    def idle(self, costs, lots, calls, *expected):
        """Check that both calls with an idle call give this answer: verdict, units, cost and flow."""
        book, amounts = book_bytes(costs), amounts_bytes(lots, calls)
        for placing in (placer.find_and_run_idle(book, amounts), placer.place(costs, lots, calls, idle=True)):
            self.assertEqual((placing.verdict, placing.units, placing.cost, placing.flow), expected)

    def test_idle(self):
        """With an idle call the dear units stay in the box; on equal totals none does; a lot may be eligible for no other call."""
        self.placed(SPARE, [3, 4], [3, 2], Verdict.COVERED, 5, 13, ((3, 0), (0, 2)))
        self.idle(SPARE, [3, 4], [3, 2], Verdict.COVERED, 5, 9, ((1, 0), (2, 2)))
        self.idle([[5], [1]], [1, 1], [1], Verdict.COVERED, 1, 1, ((0,), (1,)))
        self.idle(F1, [5, 4], [3, 6], Verdict.FULL, 9, 24, ((0, 5), (3, 1)))
        self.idle(SPARE, [0, 0], [0, 0], Verdict.FULL, 0, 0, ((0, 0), (0, 0)))
        self.idle([[None]], [5], [0], Verdict.COVERED, 0, 0, ((0,),))
        self.idle([[None]], [5], [5], Verdict.SHORT, 0, 0, ((0,),))

    def test_idle_largest(self):
        """What stays idle may exceed 32 bits, and with 31 calls there is room for it."""
        rows = ((0,) * 31,) * 32
        self.idle([[None]] * 32, [MOST] * 32, [0], Verdict.COVERED, 0, 0, ((0,),) * 32)
        self.idle([[1_000_000] * 31] * 32, [MOST] * 32, [0] * 31, Verdict.COVERED, 0, 0, rows)
        placing = placer.place([[1_000_000] * 31] * 32, [MOST] * 32, [MOST] * 31, idle=True)
        self.assertEqual((placing.verdict, placing.units, placing.cost), (Verdict.COVERED, 31 * MOST, 31 * 10**15))

    def test_idle_refused(self):
        """13 is about the enlarged book, which may have no order where the book has one; 18 and 19 are of the idle call alone."""
        zeros = [0] * 32
        for number, costs, lots, calls in [
            (13, NO_ORDER_IDLE, [1] * 3, [1] * 2),
            (18, SPARE, [3, 1], [3, 2]),
            (19, [zeros], [1], [1] + zeros[1:]),
        ]:
            self.refused(number, (), placer.find_and_run_idle, book_bytes(costs), amounts_bytes(lots, calls))
            self.refused(number, (), lambda *of: placer.place(*of, idle=True), costs, lots, calls)
            placer.place(costs, lots, calls)
        self.assertRaises(TypeError, placer.place, SPARE, [3, 4], [3, 2], True)

    def test_rebates(self):
        """Costs below 0: the least cost may be below 0, or 0, with an idle call too, whose cost is 0 beside them."""
        self.placed(REBATES, [5, 4], [3, 6], Verdict.FULL, 9, -14, ((0, 5), (3, 1)))
        self.placed([[-1, 1]], [2], [1, 1], Verdict.FULL, 2, 0)
        self.placed([[-1_000_000]], [MOST], [MOST], Verdict.FULL, MOST, -(10**15))
        self.placed([[-1_000_000] * 32] * 32, [MOST] * 32, [MOST] * 32, Verdict.FULL, 32 * MOST, -32 * 10**15)
        self.placed([[5], [-3]], [2, 2], [2], Verdict.COVERED, 2, 10, ((2,), (0,)))
        self.idle([[5], [-3]], [2, 2], [2], Verdict.COVERED, 2, -6, ((0,), (2,)))
        self.idle([[-3], [-5]], [1, 1], [0], Verdict.COVERED, 0, 0, ((0,), (0,)))

    def test_signed_sums(self):
        """Sums are compared with their signs: unsigned, the first order would fail and the second pass."""
        self.assertEqual(placer.check_order(*self.order([[-1, 0], [0, 0]], "00 01 10 11")), 4)
        self.refused(12, (0, 0, 1, 1), placer.check_order, *self.order([[0, 0], [-1, 0]], "00 01 10 11"))

    def test_f14(self):
        """Too many calls, and a bit outside."""
        self.refused(4, (), placer.place, [[0] * 33], [1], [0] * 33)
        book = bytearray(book_bytes([[0, None]]))
        book[7] = 4
        self.refused(5, (0,), placer.read_book, book)


if __name__ == "__main__":
    unittest.main()
