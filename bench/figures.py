"""The figures that bench/run gathers in a folder: times of the runs, rates of threads, instruction counts, and bytes of stack."""

import re


def read_runs(folder, kind):
    """Return the figures of a kind, `time` or `threads`, a figure a run, by what stands before them: family, size, call, and so on."""
    figures = {}
    for fields in lines_of(folder, kind):
        case = tuple(int(field) if field.isdigit() else field for field in fields[:-1])
        figures.setdefault(case, []).append(float(fields[-1]))
    return figures


def lines_of(folder, kind):
    """Return the fields of each line of a kind in the runs."""
    for path in sorted(folder.glob("times.*.txt")):
        for line in path.read_text().splitlines():
            first, *fields = line.split("\t")
            if first == kind:
                yield fields


def read_answers(folder):
    """Return how many answers were compared, and how many differ."""
    return [sum(map(int, counts)) for counts in zip(*lines_of(folder, "answers"))]


def read_stack(path):
    """Return the bytes of stack by call, and the header's bounds: of all calls, and of the ticket panel's."""
    text = path.read_text()
    return re.findall(r"^stack: (.*) takes (\d+) bytes$", text, re.M), *map(int, re.findall(r"the header says (\d+)", text))


def read_counts(folder):
    """Return the instructions a call, by family, size and call, of the callgrind dumps (8 books each)."""
    counts = {}
    for path in folder.glob("callgrind.out.*"):
        text = path.read_text()
        label = re.search(r"^desc: Trigger: Client Request: (.*)\t(\d+)\t(.*)$", text, re.M)
        total = re.search(r"^(?:totals|summary): (\d+)", text, re.M)
        if label and total:
            counts[label[1], int(label[2]), label[3]] = int(total[1]) / 8
    return counts
