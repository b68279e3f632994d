"""Tries the books that docs/WHEN-TO-USE.md says always have an order, and prints how many do. Run with PYTHONPATH=bindings/python.

The exit status is 1 if one of them has none.
"""

import random
import sys

from order_rates import any_cost, gaps, has_order, product, ranked, total

BOOKS = 2000  # of each kind
SIDE = 31  # lots or calls, at most: an idle call is then the 32nd
SPANS = [(2, 0), (2, -2), (999, 0), (999, -999)]  # of the numbers: few or many, with rebates or without


def shape(rng, lots=SIDE, calls=SIDE):
    """Return a count of lots and one of calls, which are often small, and a span of numbers."""
    return [*(rng.randint(1, min(most, rng.choice([4, 8, SIDE]))) for most in (lots, calls)), *rng.choice(SPANS)]


def strewn(rng, *size):
    """Return any costs, with gaps."""
    return gaps(any_cost(rng, *size), rng, rng.choice([0.5, 0.8, 1]))


def graded(rng, *size):
    """Return sums, eligible by grade."""
    return ranked(total(rng, *size), rng)


def shuffled(costs, rng):
    """Number the lots and calls anew."""
    columns = rng.sample(range(len(costs[0])), len(costs[0]))
    return [[row[column] for column in columns] for row in rng.sample(costs, len(costs))]


def tree(rng, lots, calls, *span):
    """Return any costs on a tree: a first pair, and one pair more for each other lot and call, which ties it to those before."""
    costs = any_cost(rng, lots, calls, *span)
    kept, met = {(0, 0)}, [1, 1]
    for kind in rng.sample([0] * (lots - 1) + [1] * (calls - 1), lots + calls - 2):
        pair = [rng.randrange(count) for count in met]
        pair[kind] = met[kind]
        met[kind] += 1
        kept.add(tuple(pair))
    return shuffled([[cost if (i, j) in kept else None for j, cost in enumerate(row)] for i, row in enumerate(costs)], rng)


def band(rng, *size):
    """Return Monge costs, eligible along the diagonal: in each row from one column to another, and neither falls from row to row."""
    costs = any_cost(rng, *size)
    for above, row in zip(costs, costs[1:]):
        bend = 0
        for j in range(1, len(row)):
            bend += rng.choice([0, 0, 1, 500])
            row[j] = row[0] + above[j] - above[0] - bend
    first, last = (sorted(rng.randrange(len(costs[0])) for _ in costs) for _ in range(2))
    return shuffled([[c if a <= j <= max(a, b) else None for j, c in enumerate(row)] for row, a, b in zip(costs, first, last)], rng)


BOTH = {
    "a product, every pair eligible": (product, {}),
    "a sum, every pair eligible": (total, {}),
    "a sum, eligible by grade": (graded, {}),
    "at most two lots": (strewn, {"lots": 2}),
}
ALONE = {
    **BOTH,
    "at most two calls": (strewn, {"calls": 2}),
    "a tree of eligible pairs": (tree, {}),
    "Monge costs, a band along the diagonal": (band, {}),
}
IDLE = {**BOTH, "at most one call": (strewn, {"calls": 1})}


def main():
    """Print the counts."""
    fewest = BOOKS
    for idle, kinds in ((False, ALONE), (True, IDLE)):
        for kind, (costs, limits) in kinds.items():
            rng = random.Random(1)
            found = sum(has_order(costs(rng, *shape(rng, **limits)), idle) for _ in range(BOOKS))
            print(f"{kind}{', with the idle call' if idle else ''}: {found} of {BOOKS} have an order")
            fewest = min(fewest, found)
    sys.exit(fewest < BOOKS)


if __name__ == "__main__":
    main()
