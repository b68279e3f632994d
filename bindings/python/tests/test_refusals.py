"""Every refusal by its number, with its values; the lent buffers keep their contents."""

import copy
import pickle
import random
import unittest
from array import array

import placer
from placer import Cause, Refused, amounts_bytes, book_bytes, order_bytes
from support import AMOUNTS, BOOK, NO_ORDER, NO_ORDER_IDLE, ORDER, REBATES, SPARE, Case


def changed(data, at, *new):
    """Return the bytes with some replaced."""
    return data[:at] + bytes(new) + data[at + len(new) :]


def order(*pairs):
    """Return an order file."""
    return order_bytes(pairs)


BOOKS = [
    (1, (), BOOK[:6]),
    (2, (), b"CLA" + BOOK[3:]),
    (3, (), changed(BOOK, 4, 1)),
    (3, (), changed(BOOK, 3, 0)),
    (3, (), changed(BOOK, 3, 3)),
    (3, (), changed(BOOK, 3, 2, 1)),
    (4, (), changed(BOOK, 5, 33)),
    (4, (), changed(BOOK, 6, 33)),
    (4, (), book_bytes([], calls=33)),
    (4, (), changed(book_bytes([[]]), 5, 33)),
    (5, (1,), changed(BOOK, 19 + 3, 128)),
    (5, (0,), changed(BOOK, 6, 0)),
    (5, (1,), changed(book_bytes([[], []]), 11, 1)),
    (5, (0,), changed(book_bytes([[], []]), 10, 128)[:-1]),
    (6, (), book_bytes([[], []])[:-1]),
    (6, (), changed(book_bytes([[], []]), 11, 1)[:-1]),
    (6, (), BOOK[:-1]),
    (7, (1, 3), book_bytes([[None] * 4, [None, 0, None, 1_000_001]])),
    (7, (1, 3), book_bytes([[None] * 4, [None, -1, None, 1_000_001]])),
    (7, (0, 1), book_bytes([[None, -1_000_001]])),
    (7, (0, 0), book_bytes([[-(2**31)]])),
    (7, (0, 1), changed(book_bytes(REBATES), 3, 1)),
    (8, (), BOOK + b"\0"),
    (8, (), changed(BOOK, 5, 0)),
    (8, (), book_bytes([]) + b"\0"),
    (8, (), book_bytes([[]]) + b"\0"),
]
ORDERS = [
    (1, (), b""),
    (2, (), BOOK),
    (3, (), changed(ORDER, 3, 2)),
    (6, (), ORDER[:-1]),
    (8, (), ORDER + b"\0"),
    (9, (1,), order((0, 1), (0, 2))),
    (10, (2,), order((0, 1), (0, 0), (0, 1))),
    (14, (), order((0, 0))),
    (12, (0, 0, 1, 1), order((0, 0), (0, 1), (1, 0), (1, 1))),
]
AMOUNT_FILES = [
    (1, (), b"CLA"),
    (2, (), ORDER),
    (3, (), changed(AMOUNTS, 3, 0)),
    (3, (), changed(AMOUNTS, 3, 3)),
    (3, (), changed(AMOUNTS, 3, 2, 1)),
    (15, (), amounts_bytes([5], [3, 6])),
    (6, (), AMOUNTS[:-1]),
    (8, (), AMOUNTS + b"\0"),
    (16, (), amounts_bytes([5, 4], [3, 1_000_000_001])),
    (21, (), amounts_bytes([5, 4], [3, 6], [0, 5])),
]


class Refusals(Case):
    """The table "Refused"."""

    def test_books(self):
        """A refused book refuses every call, before anything else is looked at."""
        for number, values, book in BOOKS:
            flow, buffer = array("I", [7] * 4), bytearray(b"7" * 20)
            self.refused(number, values, placer.read_book, book)
            self.refused(number, values, placer.read_amounts, book, b"")
            self.refused(number, values, placer.check_order, book, b"")
            self.refused(number, values, placer.find_order, book, buffer)
            self.refused(number, values, placer.run_order, book, b"", b"", flow)
            self.refused(number, values, placer.find_and_run, book, b"", flow)
            self.refused(number, values, placer.find_and_run_idle, book, b"", flow)
            self.refused(number, values, placer.find_and_run_panel, book, b"", flow)
            self.assertEqual(len(placer.lot_costs(book, 0)), 0)
            self.refused(number, values, lambda file: placer.pair_cost(file, 0, 0), book)
            self.refused(number, values, lambda file: placer.pair_cost(file, 32, 2**64 - 1), book)

    def test_orders(self):
        """A refused order, also where the amounts would be refused."""
        for number, values, file in ORDERS:
            self.refused(number, values, placer.check_order, BOOK, file)
            self.refused(number, values, placer.run_order, BOOK, file, b"", array("I"))
        self.refused(3, (), placer.check_order, book_bytes(REBATES), changed(ORDER, 3, 2))
        gap = book_bytes([[0, 0], [0, None]])
        self.refused(11, (0, 0, 1, 1), placer.check_order, gap, order((0, 0), (0, 1), (1, 0)))

    def test_amounts(self):
        """Refused amounts, also where the flow buffer is too short."""
        for number, values, file in AMOUNT_FILES:
            self.refused(number, values, placer.read_amounts, BOOK, file)
            self.refused(number, values, placer.run_order, BOOK, ORDER, file, array("I"))
            self.refused(number, values, placer.find_and_run, BOOK, file, array("I", [7]))
            self.refused(number, values, placer.find_and_run_idle, BOOK, file, array("I", [7]))
            self.refused(number, values, placer.find_and_run_panel, BOOK, file, array("I", [7]))

    def test_buffers(self):
        """Short buffers are 17, before 13; longer ones keep what lies after."""
        flow, buffer = array("I", [7] * 3), bytearray(b"7" * 14)
        self.refused(17, (), placer.run_order, BOOK, ORDER, AMOUNTS, flow)
        self.refused(17, (), placer.find_and_run, BOOK, AMOUNTS, flow)
        self.refused(17, (), placer.find_order, BOOK, buffer)
        self.refused(17, (), placer.find_order, book_bytes(NO_ORDER), bytearray(18))
        self.refused(13, (), placer.find_order, book_bytes(NO_ORDER), bytearray(19))
        flow, buffer = array("I", [7] * 6), bytearray(b"7" * 17)
        placer.run_order(BOOK, ORDER, AMOUNTS, flow)
        placer.find_order(BOOK, buffer)
        self.assertEqual((flow.tolist(), buffer), ([0, 5, 3, 1, 7, 7], ORDER + b"77"))

    def test_idle(self):
        """With an idle call 18 comes before 19, 19 before 17, which is by the book's own calls, and 17 before 13."""
        zeros = [0] * 32
        for number, costs, lots, calls, entries in [
            (18, [zeros], [0], [1] + zeros[1:], 0),
            (19, [zeros], [1], [1] + zeros[1:], 0),
            (17, NO_ORDER_IDLE, [0] * 3, [0] * 2, 5),
            (13, NO_ORDER_IDLE, [0] * 3, [0] * 2, 6),
        ]:
            flow = array("I", [7] * entries)
            self.refused(number, (), placer.find_and_run_idle, book_bytes(costs), amounts_bytes(lots, calls), flow)
        flow = array("I", [7] * 5)
        placer.find_and_run_idle(book_bytes(SPARE), amounts_bytes([3, 4], [3, 2]), flow)
        self.assertEqual(flow.tolist(), [1, 0, 2, 2, 7])

    def test_damaged(self):
        """Files with bytes changed, cut or added are accepted or refused; a refusal leaves the buffer."""
        rng = random.Random(2)
        for _ in range(2000):
            files = [BOOK, ORDER, AMOUNTS]
            hit = rng.randrange(3)
            at, cut = rng.randrange(len(files[hit])), rng.choice((0, 0, 1, 2))
            files[hit] = files[hit][:at] + rng.randbytes(rng.choice((0, 1, 1, 2))) + files[hit][at + cut :]
            flow = array("I", [7] * 4)
            try:
                self.assertEqual(sum(placer.run_order(*files, flow).flow, ()), tuple(flow))
            except Refused:
                self.assertEqual(flow.tolist(), [7] * 4)

    def test_exception(self):
        """The exception is a ValueError with a sentence, and survives pickling and copying with its values and its file."""
        for number in [*Cause, 22, 99]:
            refused = Refused(number, (3, 1, 2, 4), "amounts")
            for error in (pickle.loads(pickle.dumps(refused)), copy.copy(refused), copy.deepcopy(refused)):
                self.assertIsInstance(error, ValueError)
                self.assertEqual((str(error), vars(error)), (str(refused), vars(refused)))
                self.assertRegex(str(error), rf"^refused {int(number)}: \w")
        self.assertEqual([len(Refused(cause, (0,) * 4).values) for cause in Cause], [0, 0, 0, 0, 1, 0, 2, 0, 1, 1, 4, 4] + [0] * 9)

    def test_details(self):
        """After the sentence stand the values, or the file where the number does not tell it."""
        for refused, end in [
            (Refused(5, (2,)), "does not have [lot 2]"),
            (Refused(7, (0, 3, 9)), "below -1,000,000) [lot 0, call 3]"),
            (Refused(9, (5,)), "not eligible [place 5]"),
            (Refused(11, (0, 0, 1, 1), "book"), "(k, l) is not eligible [i 0, j 0, k 1, l 1]"),
            (Refused(8, (1,), "order"), "after its last field [order]"),
            (Refused(8), "after its last field"),
            (Refused(13, file="amounts"), "is good for all amounts"),
            (Refused(17, (1,), "book"), "the buffer lent is too short"),
        ]:
            self.assertTrue(str(refused).endswith(end), refused)

    def test_unknown(self):
        """A number that only a later library has is told as none of this one's."""
        unknown = Refused(99, (1, 2), "book")
        self.assertEqual((unknown.number, unknown.cause, unknown.values, unknown.file), (99, None, (), None))
        self.assertEqual((unknown.sentence, str(unknown)), ("not a number of this library", "refused 99: not a number of this library"))


if __name__ == "__main__":
    unittest.main()
