"""Prints how often a random book has an order, and with an idle call, for docs/WHEN-TO-USE.md. Run with PYTHONPATH=bindings/python."""

import random

import placer

BOOKS = 2000
SIZES = [3, 4, 5, 6]


def any_cost(rng, lots, calls, most, least=0):
    """Return costs drawn from `least` to `most`, all pairs eligible."""
    return [[rng.randint(least, most) for _ in range(calls)] for _ in range(lots)]


def parts(rng, lots, calls, most=999, least=0):
    """Return a random number for each lot and for each call."""
    return [rng.randint(least, most) for _ in range(lots)], [rng.randint(least, most) for _ in range(calls)]


def product(rng, *shape):
    """Return costs that are a lot's number times a call's number."""
    lots, calls = parts(rng, *shape)
    return [[lot * call for call in calls] for lot in lots]


def total(rng, *shape):
    """Return costs that are a lot's number plus a call's number."""
    lots, calls = parts(rng, *shape)
    return [[lot + call for call in calls] for lot in lots]


def gaps(costs, rng, eligible):
    """Take the eligibility of some pairs away, each by the toss of a coin."""
    return [[cost if rng.random() < eligible else None for cost in row] for row in costs]


def ranked(costs, rng):
    """Keep a pair eligible where the lot's grade reaches the call's: a lot that serves a call serves every less strict one."""
    grades, needs = parts(rng, len(costs), len(costs[0]))
    return [[cost if grade >= need else None for cost, need in zip(row, needs)] for row, grade in zip(costs, grades)]


KINDS = {
    "any, 0 to 9": lambda rng, *size: any_cost(rng, *size, 9),
    "any, 0 to 1,000,000": lambda rng, *size: any_cost(rng, *size, 1_000_000),
    "a product: lot's number times call's number": product,
    "a product, eligible by grade": lambda rng, *size: ranked(product(rng, *size), rng),
    "a sum: lot's number plus call's number": total,
    "a sum, eligible by grade": lambda rng, *size: ranked(total(rng, *size), rng),
    "a sum, four in five pairs eligible": lambda rng, *size: gaps(total(rng, *size), rng, 0.8),
    "a sum, half of the pairs eligible": lambda rng, *size: gaps(total(rng, *size), rng, 0.5),
}


def has_order(costs, idle):
    """Say whether an order is found."""
    try:
        placer.place(costs, [0] * len(costs), [0] * len(costs[0]), idle=idle)
        return True
    except placer.Refused as refused:
        if refused.cause is not placer.Cause.NO_ORDER:
            raise
        return False


def percent(found):
    """Return a share of BOOKS in words that do not round to all or none."""
    share = 100 * found / BOOKS
    return "always" if found == BOOKS else "never" if not found else "under 1 %" if share < 1 else f"{min(99, round(share))} %"


def main():
    """Print the table."""
    print("| Costs | " + " | ".join(f"{size} by {size}" for size in SIZES) + " |\n" + "|---" * (1 + len(SIZES)) + "|")
    for kind, costs in KINDS.items():
        rng = random.Random(1)
        shares = []
        for size in SIZES:
            books = [costs(rng, size, size) for _ in range(BOOKS)]
            alone, idle = (percent(sum(has_order(book, idle) for book in books)) for idle in (False, True))
            shares.append(alone if alone == idle else f"{alone} ({idle})")
        print(f"| {kind} | " + " | ".join(shares) + " |")


if __name__ == "__main__":
    main()
