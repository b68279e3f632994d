"""The ticket panel's eight by eight (request 6): 20 above it, and within it the replies and writes of `find_and_run`."""

import random
import unittest
from array import array

import placer
from placer import Verdict, amounts_bytes, book_bytes
from support import AMOUNTS, BOOK, F1, NO_ORDER, SPARE, Case

MOST = 1_000_000_000


def books(count):
    """Yield random books of up to 8 lots and 8 calls, many with an order, some with gaps or rebates, and amounts for them."""
    rng = random.Random(6)
    for turn in range(count):
        rows, columns = ([rng.randint(0, 9) for _ in range(rng.randint(0, 8))] for _ in range(2))
        gaps, rebate = (0, 0.1)[turn % 2], 20 * (turn // 2 % 2)
        costs = [[None if rng.random() < gaps else row * column - rebate for column in columns] for row in rows]
        yield book_bytes(costs, len(columns)), amounts_bytes(*([rng.randint(0, 9) for _ in side] for side in (rows, columns)))


def above_eight(book):
    """Return whether 1 to 4 do not apply, and a count is above 8."""
    try:
        placer.read_book(book)
    except placer.Refused as refused:
        if refused.number <= 4:
            return False
    return max(book[5:7]) > 8


class Panel(Case):
    """The panel beside the call with 32."""

    def reply(self, call, book, amounts, entries):
        """Return what a call replies, and its flow afterwards."""
        flow = array("I", [7] * entries)
        try:
            return call(book, amounts, flow), flow
        except placer.Refused as refused:
            return (refused.number, refused.values), flow

    def alike(self, book, amounts, entries):
        """Check that both calls reply and write the same, and return the reply."""
        shown = self.reply(placer.find_and_run_panel, book, amounts, entries)
        self.assertEqual(shown, self.reply(placer.find_and_run, book, amounts, entries))
        return shown[0]

    def test_alike(self):
        """On books of each size, with a flow that is too short, just long enough and longer."""
        replies = set()
        for book, amounts in books(600):
            entries = book[5] * book[6]
            for length in {max(entries - 1, 0), entries, entries + 3}:
                reply = self.alike(book, amounts, length)
                replies.add(reply.verdict if isinstance(reply, placer.Placing) else reply[0])
        self.assertEqual(replies, {*Verdict, 13, 17})

    def test_damaged(self):
        """On files with bytes changed, cut or added, unless a count becomes 9 to 32."""
        rng, twenty = random.Random(7), 0
        for _ in range(3000):
            files = [BOOK, AMOUNTS]
            hit = rng.randrange(2)
            at, cut = rng.randrange(len(files[hit])), rng.choice((0, 1, 1, 2))
            files[hit] = files[hit][:at] + bytes(rng.choices(range(40), k=rng.choice((0, 1, 1, 2)))) + files[hit][at + cut :]
            if above_eight(files[0]):
                self.refused(20, (), placer.find_and_run_panel, *files, array("I", [7] * 4))
                twenty += 1
            else:
                self.alike(*files, 4)
        self.assertGreater(twenty, 20)

    def test_above_eight(self):
        """20 directly after 4: before the rows, the amounts and the flow are looked at."""
        head = b"CLB\1\0"
        for lots, calls, number in [(9, 1, 20), (1, 9, 20), (0, 9, 20), (9, 0, 20), (32, 32, 20), (33, 9, 4), (9, 33, 4), (8, 8, 6)]:
            self.refused(number, (), placer.find_and_run_panel, head + bytes([lots, calls]), b"", array("I"))
        for number, book in [(1, head + b"\x09"), (2, b"CLA\1\0\x09\1"), (3, b"CLB\3\0\x09\1"), (20, b"CLB\2\0\x09\1")]:
            self.refused(number, (), placer.find_and_run_panel, book, b"", array("I"))
        book, amounts = book_bytes([[0]] * 9), amounts_bytes([1] * 9, [9])
        self.refused(20, (), placer.find_and_run_panel, book, amounts, array("I", [7] * 9))
        self.assertEqual(placer.find_and_run(book, amounts).verdict, Verdict.FULL)

    def test_largest(self):
        """Eight by eight, every pair eligible: 64 entries, the later ones kept; one less is 17."""
        for cost in (1_000_000, -1_000_000):
            book, amounts, flow = book_bytes([[cost] * 8] * 8), amounts_bytes([MOST] * 8, [MOST] * 8), array("I", [7] * 65)
            placing = placer.find_and_run_panel(book, amounts, flow)
            self.assertEqual((placing.verdict, placing.units, placing.cost), (Verdict.FULL, 8 * MOST, 8 * MOST * cost))
            self.assertEqual((sum(placing.flow, ()), flow[64]), (tuple(flow[:64]), 7))
            self.refused(17, (), placer.find_and_run_panel, book, amounts, flow[:63])

    def test_place(self):
        """From lists, with the limit asked for by name, and not together with the idle call."""
        self.assertEqual(placer.place(F1, [5, 4], [3, 6], panel=True), placer.place(F1, [5, 4], [3, 6]))
        self.assertEqual(placer.place([], [], [3] * 8, panel=True).verdict, Verdict.SHORT)
        for number, costs, lots, calls in [(20, [[0]] * 9, [1] * 9, [9]), (20, [], [], [0] * 9), (13, NO_ORDER, [1] * 3, [1] * 3)]:
            self.refused(number, (), lambda *of: placer.place(*of, panel=True), costs, lots, calls)
        with self.assertRaisesRegex(ValueError, "choose `idle` or `panel`"):
            placer.place(SPARE, [3, 4], [3, 2], idle=True, panel=True)


if __name__ == "__main__":
    unittest.main()
