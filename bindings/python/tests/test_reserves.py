"""Stock reserved by the desk (request 7): amounts of version 2, whose lots have what they hold less their reserves."""

import random
import unittest
from array import array
from collections import Counter
from pathlib import Path

import model
import placer
from command import CALLS, LOTS, ROOT, TABLES, CommandCase
from placer import Amounts, Placing, Verdict, amounts_bytes, amounts_lists, book_bytes
from support import AMOUNTS, BOOK, F1, NO_ORDER, ORDER, REBATES, SPARE, Case
from test_model import books

MOST = 1_000_000_000
HELD = amounts_bytes([7, 4], [3, 6], [2, 0])  # F1 with 2 units more in lot 0, which are held back
HEAD = "lot,amount,reserve\n"
PLACED = Placing(Verdict.FULL, 9, 24, ((0, 5), (3, 1)))


def version(data, low, high=0):
    """Return a file marked as of this version."""
    return data[:3] + bytes([low, high]) + data[5:]


class Files(Case):
    """The files, made and taken apart."""

    def test_made(self):
        """Without reserves version 1, byte for byte as before; with them version 2, also where all are 0 or there are no lots."""
        plain = b"CLA\1\0\2\2" + b"\5\0\0\0\4\0\0\0" + b"\3\0\0\0\6\0\0\0"
        self.assertEqual((amounts_bytes([5, 4], [3, 6]), amounts_bytes([5, 4], [3, 6], None)), (plain, plain))
        self.assertEqual(amounts_bytes([5, 4], [3, 6], reserves=[2, 2**32 - 1]), version(plain, 2) + b"\2\0\0\0\xff\xff\xff\xff")
        self.assertEqual(amounts_bytes([5, 4], [3, 6], (0, 0)), version(plain, 2) + bytes(8))
        self.assertEqual(amounts_bytes([], [3], []), b"CLA\2\0\0\1\3\0\0\0")
        self.assertEqual(amounts_bytes([5], [], [5]), b"CLA\2\0\1\0" + b"\5\0\0\0" * 2)

    def test_not_made(self):
        """There are as many reserves as lots, whole numbers that fit the field."""
        for reserves in ([], [0], [0, 0, 0], [-1, 0], [0, 2**32]):
            self.assertRaises(ValueError, amounts_bytes, [5, 4], [3, 6], reserves)
            self.assertRaises(ValueError, placer.place, F1, [5, 4], [3, 6], reserves)
        for reserves in ([0.0, 0], ["0", 0], [None, 0], 0):
            self.assertRaises(TypeError, amounts_bytes, [5, 4], [3, 6], reserves)
        self.assertRaisesRegex(ValueError, "^1 reserves for 2 lots$", amounts_bytes, [5, 4], [3, 6], [0])
        self.assertRaisesRegex(ValueError, "^-1 is outside the limits: .*, reserves 0 to what the lot holds$", amounts_bytes, [5], [], [-1])

    def test_lists(self):
        """Either version is taken apart as it was made, and 3, 6 and 8 are by the version."""
        self.assertEqual(amounts_lists(AMOUNTS), Amounts([5, 4], [3, 6], None))
        self.assertEqual(amounts_lists(HELD), ([7, 4], [3, 6], [2, 0]))
        self.assertEqual((amounts_lists(AMOUNTS).reduced, amounts_lists(HELD).reduced), ([5, 4],) * 2)
        self.refused(21, (), lambda file: amounts_lists(file).reduced, amounts_bytes([5, 4], [3, 6], [5, 5]))
        for lots, calls in [(0, 0), (0, 3), (3, 0), (1, 2), (32, 32), (255, 255)]:
            for file in (amounts_bytes(range(lots), range(calls)), amounts_bytes(range(lots), range(calls), range(lots))):
                self.assertEqual(len(file), 7 + 4 * (file[3] * lots + calls))
                self.assertEqual(amounts_bytes(*amounts_lists(file)), file)
                self.refused(6 if lots + calls else 1, (), amounts_lists, file[:-1])
                self.refused(8, (), amounts_lists, file + b"\0")
        self.refused(6, (), amounts_lists, version(AMOUNTS, 2))
        self.refused(8, (), amounts_lists, version(HELD, 1))
        for other in ((0, 0), (3, 0), (1, 1), (2, 1), (0, 2)):
            self.refused(3, (), amounts_lists, version(HELD, *other))


class Runs(Case):
    """The library with amounts of version 2."""

    def every(self, book, amounts):
        """Return what each run replies and writes, a refusal as its number; run by the finder's order too, if there is one."""
        calls = {"plain": placer.find_and_run, "idle": placer.find_and_run_idle, "panel": placer.find_and_run_panel}
        if model.find(placer.book_costs(book)) is not None:
            calls["order"] = lambda book, *rest: placer.run_order(book, placer.find_order(book), *rest)
        replies = {}
        for name, call in calls.items():
            flow = array("I", [9] * 26)
            try:
                replies[name] = call(book, amounts, flow), flow
            except placer.Refused as refused:
                self.assertEqual((refused.values, flow.tolist()), ((), [9] * 26))
                replies[name] = refused.number
        return replies

    def test_known(self):
        """Reserved units are not placed and not left: Full, Covered and Short are of what is not reserved."""
        for lots, calls, reserves, expected in [
            ([7, 4], [3, 6], [2, 0], PLACED),
            ([MOST, MOST], [0, 0], [MOST, MOST], Placing(Verdict.FULL, 0, 0, ((0, 0), (0, 0)))),
            ([7, 4], [3, 6], [1, 0], Placing(Verdict.COVERED, 9, 21, ((0, 6), (3, 0)))),
            ([7, 4], [3, 6], [3, 0], Placing(Verdict.SHORT, 8, 22, ((0, 4), (3, 1)))),
            ([7, 4], [1, 0], [7, 4], Placing(Verdict.SHORT, 0, 0, ((0, 0), (0, 0)))),
        ]:
            amounts = amounts_bytes(lots, calls, reserves)
            self.assertEqual(placer.read_amounts(BOOK, amounts), (2, 2))
            for book in (BOOK, version(BOOK, 2)):
                for run in (placer.find_and_run, placer.find_and_run_panel, lambda *of: placer.run_order(of[0], ORDER, of[1])):
                    self.assertEqual(run(book, amounts), expected)
            for panel in (False, True):
                self.assertEqual(placer.place(F1, lots, calls, reserves, panel=panel), expected)
        self.assertEqual(placer.place(REBATES, [7, 4], [3, 6], [2, 0]).cost, -14)

    def test_idle(self):
        """What stays in the box, and 18, are by the reduced amounts; so is Full."""
        self.assertEqual(placer.place(SPARE, [5, 4], [3, 2], [2, 0], idle=True), placer.place(SPARE, [3, 4], [3, 2], idle=True))
        self.assertEqual(placer.place(SPARE, [5, 4], [3, 2], [2, 0], idle=True).cost, 9)
        self.assertEqual(placer.place(SPARE, [3, 4], [3, 2], [2, 0], idle=True).verdict, Verdict.FULL)
        self.refused(18, (), placer.find_and_run_idle, book_bytes(SPARE), amounts_bytes([3, 4], [3, 2], [2, 1]))
        placing = placer.place([[1_000_000] * 31] * 32, [MOST] * 32, [0] * 31, [1] * 32, idle=True)
        self.assertEqual((placing.verdict, placing.units), (Verdict.COVERED, 0))

    def test_model(self):
        """Every run replies and writes as with the reduced amounts in version 1, and as the plain version of the documents."""
        rng, replies = random.Random(7), Counter()
        for _, costs, (lots, calls) in books(500, 5):
            reserves = [rng.randint(0, 5) for _ in lots]
            lots = [lot + reserve for lot, reserve in zip(lots, reserves)]
            if lots and not rng.randrange(5):
                lots[-1] = rng.randint(0, 5)
            book, held, reduced = book_bytes(costs, len(calls)), amounts_bytes(lots, calls, reserves), model.reduced(lots, reserves)
            told = self.every(book, held)
            if reduced == 21:
                self.assertEqual(set(told.values()), {21})
                self.refused(21, (), placer.read_amounts, book, held)
                replies[21] += 1
                continue
            self.assertEqual(told, self.every(book, amounts_bytes(reduced, calls)))
            self.assertEqual(amounts_lists(held).reduced, reduced)
            if "order" in told:
                verdict, *sums = model.greedy(costs, model.find(costs), reduced, calls)
                self.assertEqual(told["order"][0], Placing(Verdict[verdict], *sums))
                replies[verdict] += 1
            idle = told["idle"] if isinstance(told["idle"], int) else told["idle"][0]
            expected = model.idle(costs, reduced, calls)
            self.assertEqual(idle, expected if isinstance(expected, int) else Placing(Verdict[expected[0]], *expected[1:]))
        self.assertEqual(set(replies), {21, "FULL", "COVERED", "SHORT"})
        self.assertGreater(min(replies.values()), 20)

    def test_refused(self):
        """16 for what the file holds, of all lots and calls; then 21, for reserves of any size; 3, 6 and 8 by the version."""
        for number, file in [
            (21, amounts_bytes([5, 4], [3, 6], [6, 0])),
            (21, amounts_bytes([5, 4], [3, 6], [0, 5])),
            (21, amounts_bytes([0, 4], [3, 6], [1, 0])),
            (21, amounts_bytes([MOST, 4], [3, 6], [MOST + 1, 0])),
            (21, amounts_bytes([5, 4], [3, 6], [0, 2**32 - 1])),
            (16, amounts_bytes([MOST + 1, 4], [3, 6], [MOST, 0])),
            (16, amounts_bytes([5, MOST + 1], [3, 6], [6, 0])),
            (16, amounts_bytes([5, 4], [3, MOST + 1], [6, 0])),
            (8, amounts_bytes([MOST + 1, 4], [3, 6], [0, 5]) + b"\0"),
            (8, AMOUNTS + bytes(8)),
            (8, version(HELD, 1)),
            (6, version(AMOUNTS, 2)),
            (6, amounts_bytes([MOST + 1, 4], [3, 6], [6, 0])[:-1]),
            (15, amounts_bytes([5], [3, 6], [6])),
            *((3, version(HELD, *other)) for other in ((0, 0), (3, 0), (0, 1), (1, 1), (2, 1), (0, 2))),
        ]:
            self.refused(number, (), placer.read_amounts, BOOK, file)
            self.assertEqual(set(self.every(BOOK, file).values()), {number})

    def test_in_turn(self):
        """21 comes before 18, 19, 17 and 13, and after the order's refusals and the panel's 20."""
        over = amounts_bytes([5, 4], [30, 6], [6, 0])
        for run in (placer.find_and_run, placer.find_and_run_idle, placer.find_and_run_panel):
            self.refused(21, (), run, BOOK, over, array("I", [9]))
            self.refused(21, (), run, book_bytes(NO_ORDER), amounts_bytes([1] * 3, [1] * 3, [2] * 3), array("I", [9] * 9))
        self.refused(21, (), placer.run_order, BOOK, ORDER, over, array("I"))
        self.refused(6, (), placer.run_order, BOOK, ORDER[:-1], over, array("I"))
        wide, over = book_bytes([[0] * 32]), amounts_bytes([1], [0] * 32, [2])
        self.refused(21, (), placer.find_and_run_idle, wide, over, array("I"))
        self.refused(20, (), placer.find_and_run_panel, wide, over, array("I"))

    def test_largest(self):
        """32 by 32 with reserves has 391 bytes, and a byte more is 8; all may be reserved."""
        book, most = book_bytes([[1_000_000] * 32] * 32), [MOST] * 32
        self.assertEqual(placer.find_and_run(book, amounts_bytes(most, most, [0] * 32)).cost, 32 * 10**15)
        held = amounts_bytes(most, [0] * 32, most)
        self.assertEqual((len(held), placer.find_and_run(book, held).verdict), (391, Verdict.FULL))
        self.refused(8, (), placer.find_and_run, book, held + b"\0")
        self.refused(8, (), placer.find_and_run, book, amounts_bytes(most, most) + bytes(128))


class Tables(CommandCase):
    """The command, with a column of reserves in the table of lots."""

    def test_placed(self):
        """The example's reserves leave F1, by every way of placing; an empty cell is 0, and encode writes version 2."""
        placed = (ROOT / "examples" / "csv" / "placed.csv").read_text()
        self.write({"lots.csv": (ROOT / "examples" / "csv" / "lots_with_reserves.csv").read_text()})
        self.assertEqual(self.run_it("encode", "--order", *TABLES), (0, "", ""))
        self.assertEqual([Path(name).read_bytes() for name in ("book.clb", "order.clo", "amounts.cla")], [BOOK, ORDER, HELD])
        for how in ([], ["--idle"], ["--panel"], ["--order", "order.clo"]):
            self.assertEqual(self.run_it("place", *how, *TABLES), (0, placed, "full: 9 units, cost 24\n"))
            self.assertEqual(self.run_it("place", *how, "book.clb", "amounts.cla")[::2], (0, "full: 9 units, cost 24\n"))
        self.assertEqual(self.run_it("check", "book.clb", "amounts.cla")[0], 0)
        exported = self.run_it("dimacs", *TABLES)[1]
        self.write({"lots.csv": LOTS})
        self.assertEqual(exported, self.run_it("dimacs", *TABLES)[1])

    def test_versions(self):
        """Version 2 exactly where the table has the column, whatever its cells."""
        for lots, reserves in [
            (LOTS, None),
            (HEAD + "Bund 2031,5,0\nOAT 2029,4,0\n", [0, 0]),
            (HEAD + "Bund 2031,5,\nOAT 2029,4, \n", [0, 0]),
            (HEAD + "Bund 2031, 5, 05\n\nOAT 2029,4,4\n", [5, 4]),
        ]:
            self.write({"lots.csv": lots})
            self.run_it("encode", *TABLES)
            self.assertEqual(Path("amounts.cla").read_bytes(), amounts_bytes([5, 4], [3, 6], reserves))
        self.assertEqual(self.run_it("place", *TABLES)[::2], (1, "short: 0 units, cost 0\n"))
        self.write({"pairs.csv": "lot,call,cost\n", "lots.csv": HEAD})
        self.run_it("encode", *TABLES)
        self.assertEqual(Path("amounts.cla").read_bytes(), amounts_bytes([], [3, 6], []))

    def test_left(self):
        """What is reserved is not left: a lot that keeps just its reserve is used up."""
        for reserve, word in [("1", "covered: 9 units, cost 21"), ("2", "full: 9 units, cost 24"), ("3", "short: 8 units, cost 22")]:
            self.write({"lots.csv": f"{HEAD}Bund 2031,7,{reserve}\nOAT 2029,4,\n"})
            self.assertEqual(self.run_it("place", *TABLES)[2], f"{word}\n")
        self.assertIn("calls.csv: refused 18", self.run_it("place", "--idle", *TABLES)[2])
        self.assertIn("c totals differ: the lots have 8 units, the calls ask for 9\n", self.run_it("dimacs", *TABLES)[1])

    def test_shown(self):
        """Amounts of version 2 are shown with their reserves, which calls do not have."""
        self.write({"held.cla": HELD, "none.cla": amounts_bytes([], [3], [])})
        lines = ["      number  amount  reserve", " lot       0       7        2", " lot       1       4        0"]
        lines += ["call       0       3        -", "call       1       6        -"]
        title = "amounts: the lots have 11 units, 2 of them reserved, the calls ask for 9"
        self.assertEqual(self.run_it("show", "held.cla"), (0, "\n".join([title, *lines, ""]), ""))
        self.assertIn("\ncall       0       3        -\n", self.run_it("show", "none.cla")[1])

    def test_bad_tables(self):
        """Each message names the line and, where a reserve exceeds its lot, the lot."""
        bad_head = "1: the header line must be lot,amount or lot,amount,reserve"
        for text, message in [
            (HEAD + "OAT 2029,4,4\nBund 2031,5,6\n", "3: the reserve 6 is above 5, what 'Bund 2031' holds (refusal 21)"),
            (HEAD + "OAT 2029,1000,9999999999\n", "2: the reserve 9999999999 is above 1,000, what 'OAT 2029' holds (refusal 21)"),
            (HEAD + "OAT 2029,0,1\n", "2: the reserve 1 is above 0, what 'OAT 2029' holds (refusal 21)"),
            (HEAD + "OAT 2029,1000000001,2\n", "2: the amount 1000000001 is above 1,000,000,000 (refusal 16)"),
            (HEAD + "OAT 2029,4,-1\n", "2: the reserve '-1' is not a whole number"),
            (HEAD + "OAT 2029,4,1.5\n", "2: the reserve '1.5' is not a whole number"),
            (HEAD + "OAT 2029,,1\n", "2: the amount '' is not a whole number"),
            (HEAD + "OAT 2029,4\n", "2: 2 fields, not 3"),
            ("lot,amount\nOAT 2029,4,1\n", "2: 3 fields, not 2"),
            ("lot,reserve,amount\nOAT 2029,1,4\n", bad_head),
            ("lot,amount,reserve,\nOAT 2029,4,1,\n", bad_head),
        ]:
            self.write({"lots.csv": text})
            self.assertEqual(self.run_it("place", *TABLES), (2, "", f"placer: lots.csv:{message}\n"))
        self.write({"lots.csv": LOTS, "calls.csv": CALLS.replace("amount", "amount,reserve")})
        self.assertEqual(self.run_it("place", *TABLES)[2], "placer: calls.csv:1: the header line must be call,amount\n")

    def test_refused(self):
        """A file whose reserve exceeds its lot is refused by the library's number."""
        self.write({"book.clb": BOOK, "over.cla": amounts_bytes([5, 4], [3, 6], [0, 5])})
        for command in (["place"], ["place", "--idle"], ["encode"], ["dimacs"], ["check"]):
            message = "placer: over.cla: refused 21: a reserve is above what its lot holds\n"
            self.assertEqual(self.run_it(*command, "book.clb", "over.cla"), (2, "", message))


if __name__ == "__main__":
    unittest.main()
