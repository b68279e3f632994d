"""The package says the same as the C header and the list of refusals: numbers, names, limits, sentences and version."""

import csv
import re
import unittest

import placer
from command import ROOT
from placer import limits

HEADER = ROOT / "include" / "placer.h"
REFUSALS = ROOT / "docs" / "refusals.tsv"


@unittest.skipUnless(HEADER.exists(), "the header is not beside the package")
class Header(unittest.TestCase):
    """What both sides name."""

    def setUp(self):
        """Read the header."""
        self.text = HEADER.read_text()

    def test_numbers(self):
        """The causes, the verdicts and the version."""
        numbers = {name: int(number) for name, number in re.findall(r"PLACER_(\w+) = (\d+)", self.text)}
        named = {member.name: member.value for kind in (placer.Cause, placer.Verdict) for member in kind}
        self.assertEqual({"ACCEPTED": 0, "NO_RUN": 0, **named}, numbers)
        self.assertIn(f'PLACER_VERSION "{placer.__version__}"', self.text)
        self.assertEqual(placer.library_version(), placer.__version__)

    def test_limits(self):
        """Every limit of the header but the stack's and the count of pairs, which is the flow's, under the same name."""
        bounds = {name: int(bound) for name, bound in re.findall(r"#define PLACER_(\w+M(?:AX|IN)) \(?(-?\d+)", self.text)}
        self.assertEqual(bounds.pop("PAIRS_MAX"), placer.FLOW_MAX)
        self.assertEqual({name: getattr(placer, name) for name in vars(limits) if name.isupper()}, bounds)
        self.assertLessEqual(set(bounds), set(placer.__all__))

    def test_lengths(self):
        """The longest files are as long as their limits say."""
        lots, calls = range(placer.LOTS_MAX), range(placer.CALLS_MAX)
        book, side = placer.book_bytes([[placer.COST_MIN for _ in calls] for _ in lots]), [placer.AMOUNT_MAX for _ in lots]
        lengths = [len(book), len(placer.find_order(book)), len(placer.amounts_bytes(side, side, side))]
        self.assertEqual(lengths, [placer.BOOK_MAX, placer.ORDER_MAX, placer.AMOUNTS_MAX])
        self.assertEqual(len(sum(placer.find_and_run(book, placer.amounts_bytes(side, side)).flow, ())), placer.FLOW_MAX)


@unittest.skipUnless(REFUSALS.exists(), "the list of refusals is not beside the package")
class Wording(unittest.TestCase):
    """docs/refusals.tsv, line by line."""

    def test_refusals(self):
        """Numbers, names, values and sentences; the values stand in brackets after the sentence."""
        with open(REFUSALS, encoding="utf-8", newline="") as file:
            rows = list(csv.reader(file, delimiter="\t", quoting=csv.QUOTE_NONE))
        self.assertEqual(rows[:2], [["number", "name", "values", "sentence"], ["0", "ACCEPTED", "", "accepted"]])
        self.assertEqual([(int(row[0]), row[1]) for row in rows[2:]], [(cause.value, cause.name) for cause in placer.Cause])
        for number, _, names, sentence in rows[2:]:
            values = [f"{name} {value}" for name, value in zip(names.split(", ") if names else [], (5, 6, 7, 8))]
            refused = placer.Refused(int(number), (5, 6, 7, 8))
            self.assertEqual((refused.sentence, len(refused.values)), (sentence, len(values)))
            self.assertEqual(str(refused), f"refused {number}: {sentence}" + (f" [{', '.join(values)}]" if values else ""))


if __name__ == "__main__":
    unittest.main()
