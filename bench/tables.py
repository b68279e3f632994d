"""Tables of figures in Markdown, and how many times faster one call is than another."""

from statistics import median

SIZES = [8, 16, 24, 32]


def quantity(number):
    """Return a figure with two or three digits that mean something."""
    places = 0 if number >= 20 else 1 if number >= 1 else 2 if number >= 0.1 else 3
    return f"{number:,.{places}f}"


def plain(call):
    """Return a call's name as the text has it, without the section that it was measured for."""
    name = call.partition(",")[0]
    return f"`{name}`" if "_" in name else name


def table(head, rows):
    """Return a Markdown table."""
    lines = [head, ["---"] * len(head), *rows]
    return "".join("| " + " | ".join(map(str, line)) + " |\n" for line in lines)


def families(meanings):
    """Return a list of families with what they are."""
    return "".join(f"- *{name}*: {what}.\n" for name, what in meanings.items())


def spread(values):
    """Return the lowest and the highest of the runs."""
    return f"{quantity(min(values))} to {quantity(max(values))}"


def middle(values):
    """Return the median of the runs, and the spread."""
    return f"{quantity(median(values))} ({spread(values)})"


def costs_of(times, counts, calls, name, size=32):
    """Return the microseconds of calls in one case, and the thousands of instructions where these were counted."""
    figures = [median(times[name, size, call]) for call in calls]
    figures += [counts[name, size, call] / 1000 for call in calls if counts]
    return [*map(quantity, figures)]


def costs_head(names, counts):
    """Return the heads of the columns of `costs_of`."""
    return [*names, *(f"{name}, instructions" for name in names if counts)]


def units_of(counts):
    """Return the words for the units of `costs_of`."""
    return f"microseconds{', and thousands of instructions by callgrind' if counts else ''}"


def ratios_to(times, call, other, names, sizes):
    """Return how many times faster than another a call is in each run, by family and size."""
    return {
        (name, size): [theirs / ours for theirs, ours in zip(times[name, size, other], times[name, size, call])]
        for name in names
        for size in sizes
    }


def slower(ratios, of_runs):
    """Return the cases where a call is the slower one, by the median or the lowest of its ratios."""
    return {case for case, values in ratios.items() if of_runs(values) < 1}


def at_sizes(met, sizes):
    """Return the words for some of the sizes."""
    if met == sizes:
        return "at all sizes"
    if len(met) > 1 and met == sizes[-len(met) :]:
        return f"from {met[0]} on"
    return "at " + ", ".join(map(str, met))


def where(cases, names, sizes):
    """Return the families of some cases, each with its sizes, in brackets; nothing if there are none."""
    met = {name: [size for size in sizes if (name, size) in cases] for name in names}
    words = [f"*{name}* {at_sizes(some, list(sizes))}" for name, some in met.items() if some]
    return f" ({'; '.join(words)})" if words else ""


def ratio_table(times, call, other, names, sizes=tuple(SIZES)):
    """Return how many times faster than another a call is, at each size: the median of the runs, and the spread."""
    ratios = ratios_to(times, call, other, names, sizes)
    text = table([plain(call), *sizes], [[name, *(middle(ratios[name, size]) for size in sizes)] for name in names])
    usual = slower(ratios, median)
    text += f"\nBelow 1 {plain(other)} is faster: in {len(usual)} of these {len(ratios)} cases{where(usual, names, sizes)}.\n"
    return text + f"By the lowest ratio of the runs: in {len(slower(ratios, min))}.\n"
