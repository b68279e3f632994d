#!/usr/bin/env python3
"""Spells the repository's own definitions and lemmas as today's Rattle does: words in snake case, `′` as an apostrophe.

usage: tools/respell.py        at the top of the repository, once, on what port.py left

A name that the files of specs/ and proofs/ declare turns wherever it stands: in .antt files, in the clauses and `ghost use` items of .rt files,
and in code spans of comments and of the pages. Two names that would fall together are told apart by OTHERWISE. A name that a file binds for
itself (by `let`, `λ` or a pattern) turns too, but not in the proof of a function, whose labels Rattle makes. Types, modules and the functions of
src/ keep their names.
"""
import collections
import os
import re
import sys

WORD = re.compile(r'[^\s(){}.;,@"«»]+')
DECLARED = re.compile(r'(?m)^ *(?:(?:abbrev|unfoldable|pub|ruleset) +)*((?:[^\s(){}.;,@"«»:]+ +)*[^\s(){}.;,@"«»:]+)(?: +[({][^)}]*[)}])*\s+:(?=\s)')
SPAN = re.compile(r"`[^`\n]+`")
CLAUSE = re.compile(r"\bghost use [^;]*;|\b(?:requires|ensures|ghost)\b\*?[ \w:]*\{")
LOCAL = re.compile(r"[a-z][\w'₀-₉]*(-[\w'₀-₉]+)+$|[a-z][a-z0-9]*[A-Z]\w*$")
# Names that would meet another: what they are called instead.
OTHERWISE = {
    "readBack": "read_answer",
    "find-and-run": "by_find_and_run",
    "find-and-run-idle": "by_find_and_run_idle",
    "find-and-run-panel": "by_find_and_run_panel",
    "gap-out": "gap_out_lem",
    "free-at": "free_at_lem",
    "inBook": "is_in_book",
    "ofLot": "is_of_lot",
    "ofCall": "is_of_call",
    "slack-at": "slack_at_lem",
    "gap-of": "gap_of_lem",
    "cost-in-book": "cost_in_book_lem",
    "flow-too-short": "too_short_flow",
    "run-flow": "flow_of_run",
    "all-zero": "all_entries_zero",
    "noLots": "book_no_lots",
    "noCalls": "book_no_calls",
    "largest-book": "longest_book",
    "largest-amounts": "longest_amounts",
    "count-outside": "count_is_outside",
    "book-rebates": "book_of_rebates",
    "nothingYet": "book_nothing_yet",
    "lot-costs": "costs_of_lot",
    "pair-cost": "cost_of_pair",
    "reads-amounts": "reads_amounts_lem",
    "lot-takes": "lot_takes_case",
    "call-takes": "call_takes_case",
    "byRows": "row_by_row",
    "no-order": "without_order",
    "not-eligible": "where_not_eligible",
    "book-mark": "mark_of_book",
    "order-mark": "mark_of_order",
    "amounts-mark": "mark_of_amounts",
    "calls-below": "calls_below_lem",
    "signed-cost": "signed_cost_lem",
    "nothing_placed": "nothing_placed_lem",
    "amounts-length": "amounts_length_lem",
    "order-length": "order_length_lem",
    "cost-in-row": "cost_in_row_lem",
    "twos-complement": "by_twos_complement",
    "entries_fit": "entries_fit_lem",
    "each_free": "each_free_lem",
    "is-left": "is_left_lem",
    "corners-tell": "corners_tell_lem",
    "bit-and": "bit_and_lem",
    "bit-or": "bit_or_lem",
    "bit-xor": "bit_xor_lem",
}


def files(ending):
    for folder, dirs, names in os.walk("crates"):
        dirs[:] = sorted(d for d in dirs if d != "out")
        for name in sorted(names):
            if name.endswith(ending):
                yield os.path.join(folder, name)


def of_function(path):
    """Whether the file is the proof of a function of src/, in which Rattle makes labels."""
    return re.search(r"/proofs/.+/(Proof|Answers|Invariants)\.antt$", path) is not None


def snake(name):
    if name[0].islower():
        name = re.sub(r"(?<=[a-z0-9])([A-Z])(?=[A-Za-z0-9])", lambda m: "_" + m[1].lower(), name)
    return re.sub(r"(?<=[^-])-(?=[^->])", "_", name).replace("′", "'")


def declared(texts):
    found = collections.defaultdict(set)
    for path, text in texts.items():
        if of_function(path):
            continue
        for group in DECLARED.findall(re.sub(r"(?m)(^|(?<= ))--( .*)?$", "", text)):
            for name in group.split():
                found[name].add(path)
    return found


def told_apart(names):
    turned = collections.defaultdict(set)
    for name in names:
        turned[OTHERWISE.get(name, snake(name))].add(name)
    bad = {new: sorted(old) for new, old in turned.items() if len(old) > 1}
    if bad:
        sys.exit(f"respell: these fall together: {bad}")
    return {old: new for new, olds in turned.items() for old in olds if old != new}


def imported(text):
    names = set()
    for group in re.findall(r"(?m)^(?:ghost )?use [^{;\n]*\{([^}]*)\}", text):
        names |= set(WORD.findall(group))
    return names


def turn(text, names):
    return WORD.sub(lambda m: names.get(m[0], m[0]), text)


def turn_spans(text, names):
    return SPAN.sub(lambda m: "`" + turn(m[0][1:-1], names) + "`", text)


def turn_antt(path, text, names):
    own = dict(names)
    if not of_function(path):
        theirs = imported(text)
        for word in WORD.findall(re.sub(r"(?m)--.*$", "", text)):
            if word not in own and word not in theirs and LOCAL.match(word):
                own[word] = snake(word)
    lines = []
    for line in text.split("\n"):
        code, mark, said = re.match(r"(.*?)((?:^|(?<=\s))--(?=\s|$)|$)(.*)$", line).groups()
        lines.append(turn(code, own) + mark + turn_spans(said, names))
    return "\n".join(lines)


def turn_rt(text, names):
    out, at = [], 0
    while match := CLAUSE.search(text, at):
        out.append(turn_comments(text[at : match.start()], names))
        end = match.end()
        if match[0].endswith("{"):
            depth = 1
            while depth:
                depth += {"{": 1, "}": -1}.get(text[end], 0)
                end += 1
        out.append(turn(text[match.start() : end], names))
        at = end
    return "".join(out) + turn_comments(text[at:], names)


def turn_comments(text, names):
    return re.sub(r"//[^\n]*", lambda m: turn_spans(m[0], names), text)


def main():
    texts = {path: open(path, encoding="utf-8").read() for path in files(".antt")}
    names = told_apart(declared(texts))
    new = {path: turn_antt(path, text, names) for path, text in texts.items()}
    for path in files(".rt"):
        texts[path] = open(path, encoding="utf-8").read()
        new[path] = turn_rt(texts[path], names)
    for path in ["README.md", "CHANGELOG.md", *("docs/" + name for name in sorted(os.listdir("docs")) if name.endswith(".md"))]:
        texts[path] = open(path, encoding="utf-8").read()
        new[path] = turn_spans(texts[path], names)
    for path, text in new.items():
        if text != texts[path]:
            with open(path, "w", encoding="utf-8") as file:
                file.write(text)
    for old in sorted(names):
        print(f"{old}\t{names[old]}")


if __name__ == "__main__":
    main()
