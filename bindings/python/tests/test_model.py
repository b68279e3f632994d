"""The library against the plain version of document 01, on random small books."""

import random
import unittest
from collections import Counter

import model
import placer
from placer import amounts_bytes, book_bytes, order_bytes


def books(count, seed):
    """Yield random books with gaps, some with rebates, many of which have an order, with amounts of equal and of unequal total.

    Some have no lots or no calls.
    """
    rng = random.Random(seed)
    for turn in range(count):
        lots, calls = rng.randint(0, 5), rng.randint(0, 5)
        rows, columns = ([rng.randint(0, 4) for _ in range(size)] for size in (lots, calls))
        noise, gaps, rebate = (turn % 3) // 2, (0, 0.15, 0.4)[turn % 5 % 3], 9 * (turn // 30 % 2)
        costs = [[None if rng.random() < gaps else a * b + rng.randint(0, noise) - rebate for b in columns] for a in rows]
        amounts = [rng.randint(0, 5) for _ in rows], [rng.randint(0, 5) for _ in columns]
        gap = sum(amounts[0]) - sum(amounts[1])
        if turn % 2 and amounts[gap > 0]:
            amounts[gap > 0][0] += abs(gap)
        yield rng, costs, amounts


class Model(unittest.TestCase):
    """Replies and flows are those of the plain version."""

    def reply(self, call, *files):
        """Return what a call returns, or its refusal."""
        try:
            return call(*files)
        except placer.Refused as refused:
            return refused.number, refused.values

    def test_books(self):
        """Finder, run and check on the same books, with the finder's order and a shuffled one."""
        verdicts, below, bare = Counter(), 0, 0
        for rng, costs, amounts in books(400, 1):
            bare += not all(amounts)
            book, file = book_bytes(costs, len(amounts[1])), amounts_bytes(*amounts)
            order = model.find(costs)
            placing = self.reply(placer.find_and_run, book, file)
            self.assertEqual(placing, self.reply(placer.find_and_run_panel, book, file))
            if order is None:
                self.assertEqual(placing, (13, ()))
            else:
                self.assertEqual(placer.find_order(book), order_bytes(order))
                self.assertEqual(placer.check_order(book, order_bytes(order)), len(order))
                verdict, *sums = model.greedy(costs, order, *amounts)
                self.assertEqual(placing, placer.Placing(placer.Verdict[verdict], *sums))
                self.assertEqual(placing, placer.run_order(book, order_bytes(order), file))
                self.assertEqual(placing.met, model.can_meet_calls(costs, *amounts))
                verdicts[placing.verdict] += 1
                below += placing.cost < 0
            pairs = order or model.pairs(costs)
            for _ in range(3):
                if len(pairs) > 1:
                    first, second = rng.sample(range(len(pairs)), 2)
                    pairs[first], pairs[second] = pairs[second], pairs[first]
                failure = model.check(costs, pairs)
                self.assertEqual(self.reply(placer.check_order, book, order_bytes(pairs)), failure or len(pairs))
            self.assertEqual(placer.book_costs(book), costs)
            self.assertEqual([[placer.pair_cost(book, lot, call) for call in range(len(row))] for lot, row in enumerate(costs)], costs)
        self.assertGreater(min(below, bare, *(verdicts[verdict] for verdict in placer.Verdict)), 50)

    def test_idle(self):
        """With an idle call: the plain version's reply and flow, and the least cost of all allocations that meet every call."""
        replies, cheaper, below = Counter(), 0, 0
        for _, costs, amounts in books(800, 3):
            book, file, expected = book_bytes(costs, len(amounts[1])), amounts_bytes(*amounts), model.idle(costs, *amounts)
            placing = self.reply(placer.find_and_run_idle, book, file)
            if isinstance(expected, int):
                self.assertEqual(placing, (expected, ()))
                replies[expected] += 1
                continue
            self.assertEqual(placing, placer.Placing(placer.Verdict[expected[0]], *expected[1:]))
            self.assertEqual(placing, placer.place(costs, *amounts, idle=True))
            self.assertEqual(placing.cost if placing.met else None, model.least_cost(costs, *amounts))
            plain = placer.find_and_run(book, file)
            self.assertEqual((plain.verdict, plain.units), (placing.verdict, placing.units))
            cheaper += placing.cost < plain.cost
            below += placing.cost < 0
            replies[placing.verdict.name] += 1
        self.assertEqual(set(replies), {"FULL", "COVERED", "SHORT", 13, 18})
        self.assertGreater(min(cheaper, below, *replies.values()), 30)


if __name__ == "__main__":
    unittest.main()
