"""The page of `placer place --html`: its text, and what a browser shows of it."""

import html.parser
import os
import shutil
import struct
import subprocess
import sys
import tempfile
import unittest
import zlib
from collections import Counter
from pathlib import Path

import placer
from command import CALLS, LOTS, PAIRS, ROOT, TABLES, CommandCase
from support import NO_ORDER, ORDER, SPARE

BROWSER = next(filter(None, map(shutil.which, ("chromium", "chromium-browser", "google-chrome"))), None)
BAD_NAMES = ["<script>alert(1)</script>", "\"quoted\" & 'single'", "x" * 5000, "שטר חוב 2030", "</th><td>"]


class Cells(html.parser.HTMLParser):
    """The title of a page, the rows of its table, and every tag with its attributes."""

    def __init__(self, text):
        """Read the page. A cell is its texts, with the meaning of each sign in place of it."""
        super().__init__()
        self.title, self.rows, self.tags, self.open = "", [], [], []
        self.feed(text)

    def handle_starttag(self, tag, attributes):
        """Keep the tag; open a row or a cell."""
        self.tags.append((tag, dict(attributes)))
        if tag not in ("meta", "link"):
            self.open.append(tag)
        if tag == "tr":
            self.rows.append([])
        elif tag in ("th", "td"):
            self.rows[-1].append([])
        elif self.rows and "aria-label" in dict(attributes):
            self.rows[-1][-1].append(dict(attributes)["aria-label"])

    def handle_endtag(self, tag):
        """Close the tag."""
        assert self.open.pop() == tag, tag

    def handle_data(self, data):
        """Add to the title or to the cell that is open."""
        if self.open[-1:] == ["title"]:
            self.title += data
        elif {"th", "td"} & set(self.open) and "span" not in self.open[-1:] and data.strip():
            self.rows[-1][-1].append(data)

    def count(self, tag, **attributes):
        """Return how many tags there are with these attributes."""
        return sum(name == tag and attributes.items() <= of.items() for name, of in self.tags)


def expected(lots, calls, costs, amounts, placing):
    """Return the rows that the table of a page has."""
    left, lacks = amounts.remains(placing.flow)
    held = [amounts.lots] if amounts.reserves is None else [amounts.lots, amounts.reserves]
    blank = [[]] * len(held)
    words = [["holds"], ["reserved"]][: len(held)]
    rows = [[["lot"], *words, *(([] if units else ["lacks nothing"]) + [name] for name, units in zip(calls, lacks)), ["left"]]]
    rows.append([["wants"], *blank, *([f"{units:,}"] for units in amounts.calls), []])
    for lot, name in enumerate(lots):
        pairs = [
            ["not eligible"] if cost is None else [f"{units:,}", f"at {cost:,}"] for cost, units in zip(costs[lot], placing.flow[lot])
        ]
        heading = ([] if left[lot] else ["nothing left"]) + [name]
        rows.append([heading, *([f"{side[lot]:,}"] for side in held), *pairs, [f"{left[lot]:,}"]])
    return [*rows, [["lacks"], *blank, *([f"{units:,}"] for units in lacks), []]]


class Page(CommandCase):
    """The text."""

    def page(self, *arguments):
        """Place, and return the page that is written."""
        ran = self.run_it("place", "--html", "page.html", *arguments)
        self.assertIn(ran[0], (0, 1), ran)
        return Path("page.html").read_bytes().decode()

    def check(self, lots, calls, costs, amounts, *how):
        """Place these amounts from files, and compare the page's cells."""
        self.write({"book.clb": placer.book_bytes(costs, len(calls)), "amounts.cla": placer.amounts_bytes(*amounts)})
        cells = Cells(self.page(*how, "book.clb", "amounts.cla"))
        placing = placer.place(costs, *amounts, idle="--idle" in how)
        self.assertEqual(cells.rows, expected(lots, calls, costs, amounts, placing))
        self.assertEqual(cells.title, f"{placing.verdict.name.capitalize()}: {placing.units:,} units, cost {placing.cost:,}")
        self.assertEqual((cells.open, cells.count("caption"), cells.count("th", scope="row")), ([], 1, len(lots) + 2))
        self.assertEqual(cells.count("th", scope="col"), len(calls) + 3 + (amounts.reserves is not None))
        left, lacks = amounts.remains(placing.flow)
        full, placed = left.count(0) + lacks.count(0), sum(map(bool, sum(placing.flow, ())))
        self.assertEqual(cells.count("td", **{"class": "lacking"}), len(lacks) - lacks.count(0))
        self.assertEqual([cells.count(tag, **{"class": "full"}) for tag in ("td", "th")], [full, full])
        self.assertEqual(cells.count("td", **{"class": "placed"}), placed)

    def test_cells(self):
        """Every pair's units and cost, and what lots and calls hold, want and have left: of each verdict, with gaps and rebates."""
        two = ["0", "1"]
        self.check(two, two, [[1, 2], [3, 5]], placer.Amounts([5, 4], [3, 6], None))
        self.check(two, two, SPARE, placer.Amounts([5, 4], [3, 2], [2, 0]), "--idle")
        self.check(two, two, [[-1_000_000, None], [None, 7]], placer.Amounts([10**9, 4], [10**9, 6], [0, 4]))
        self.check([], two, [], placer.Amounts([], [3, 6], None))
        self.check(two, [], [[], []], placer.Amounts([5, 4], [], [0, 4]))
        self.check([], [], [], placer.Amounts([], [], []))

    def test_names(self):
        """Names are text, whatever they hold, and stand apart from the direction of the text around them."""
        quoted = ['"' + name.replace('"', '""') + '"' for name in BAD_NAMES]
        self.write({"pairs.csv": "lot,call,cost\n" + "".join(f"{lot},{call},1\n" for lot in quoted for call in quoted)})
        self.write({"lots.csv": "lot,amount\n" + "".join(f"{lot},1\n" for lot in quoted)})
        self.write({"calls.csv": "call,amount\n" + "".join(f"{call},1\n" for call in quoted)})
        cells = Cells(self.page(*TABLES))
        self.assertEqual([row[0] for row in cells.rows[2:-1]], [["nothing left", name] for name in BAD_NAMES])
        self.assertEqual(cells.rows[0][2:-1], [["lacks nothing", name] for name in BAD_NAMES])
        self.assertEqual((cells.count("script"), cells.count("bdi"), cells.count("th")), (0, 10, 15))
        self.assertEqual([of["title"] for _, of in cells.tags if "title" in of], BAD_NAMES * 2)
        self.write({"lots.csv": LOTS.replace("OAT", "\x01O\x7fA\uffffT"), "pairs.csv": PAIRS.replace("OAT", "\x01O\x7fA\uffffT")})
        self.write({"calls.csv": CALLS})
        self.assertIn("<bdi>\ufffdO\ufffdA\ufffdT 2029</bdi>", self.page(*TABLES))

    def test_how(self):
        """The page says by which order was placed, and the path of an order file is text too."""
        not_text = os.fsdecode(b"\xff.clo")
        self.write({"<b>.clo": ORDER, not_text: ORDER})
        for how, told in [
            ([], "by an order that was found for the book"),
            (["--idle"], "by an order that was found for the book with an idle call, which takes what stays in the lots"),
            (["--panel"], "by an order that was found for the book, within the limits of a ticket panel"),
            (["--order", "<b>.clo"], "by the order of &lt;b&gt;.clo"),
            (["--order", not_text], "by the order of \ufffd.clo"),
        ]:
            self.assertIn(f"<p>Placed {told}.</p>\n", self.page(*how, *TABLES))

    def test_whole(self):
        """The page needs nothing from elsewhere, and is the same each time; the CSV is written beside it."""
        text = self.page(*TABLES)
        for word in ("http", "//", "url(", "@import", "<script", "<img", "<link", " src=", " href="):
            self.assertNotIn(word, text.replace("http-equiv", ""))
        self.assertIn("default-src 'none'", text)
        self.assertEqual(text, self.page(*TABLES))
        placed = (ROOT / "examples" / "csv" / "placed.csv").read_text()
        self.assertEqual(self.run_it("place", *TABLES, "--html", "page.html"), (0, placed, "full: 9 units, cost 24\n"))
        self.assertEqual(self.run_it("place", *TABLES, "--html", "-", "-o", "out.csv")[:2], (0, text))
        self.assertEqual(Path("out.csv").read_text(), placed)
        status, out, told = self.run_it("place", *TABLES, "--html", "-")
        self.assertEqual((status, out, "cannot both go to standard output" in told), (2, "", True))

    def test_not_written(self):
        """Nothing is written where nothing was placed; a page that cannot be written is told, and no CSV follows."""
        self.write({"none.clb": placer.book_bytes(NO_ORDER), "zeros.cla": placer.amounts_bytes([0] * 3, [0] * 3)})
        self.assertEqual(self.run_it("place", "none.clb", "zeros.cla", "--html", "page.html")[:2], (2, ""))
        self.assertEqual(self.run_it("place", "none.clb", "absent", "--html", "page.html")[:2], (2, ""))
        self.assertFalse(os.path.exists("page.html"))
        status, out, told = self.run_it("place", *TABLES, "--html", "absent/page.html")
        self.assertEqual((status, out, "No such file" in told), (2, "", True))


def pixels(data):
    """Return the width, the height and the rows of a PNG of 8-bit RGB or RGBA."""
    at, compressed, width, height, channels = 8, b"", 0, 0, 0
    while at < len(data):
        length, kind = struct.unpack(">I4s", data[at : at + 8])
        body = data[at + 8 : at + 8 + length]
        if kind == b"IHDR":
            width, height, depth, colour = struct.unpack(">IIBB", body[:10])
            channels = {2: 3, 6: 4}[colour]
            assert depth == 8
        compressed += body if kind == b"IDAT" else b""
        at += 12 + length
    raw, size = zlib.decompress(compressed), 1 + width * channels
    rows, above = [], bytearray(width * channels)
    for row in range(height):
        kind, line = raw[row * size], bytearray(raw[row * size + 1 : (row + 1) * size])
        for at, byte in enumerate(line):
            left, up = (line[at - channels] if at >= channels else 0), above[at]
            corner = above[at - channels] if at >= channels else 0
            paeth = min((left, up, corner), key=lambda near, sum=left + up - corner: abs(sum - near))
            line[at] = (byte + (0, left, up, (left + up) // 2, paeth)[kind]) % 256
        rows.append(bytes(line))
        above = line
    return width, height, rows


class InBrowser(CommandCase):
    """The page in headless Chromium."""

    def test_shown(self):
        """The cells that the browser holds are those of the placing, and it draws them: placed, full and lacking in their colours."""
        if BROWSER is None:
            print("SKIPPED: the page in a browser, no chromium on this machine", file=sys.stderr)
            self.skipTest("no chromium")
        lots, calls = ["Bund & <b>2031</b>", "OAT 2029", "שטר חוב"], ["Clearing A", '"B"']
        self.write({"lots.csv": f"lot,amount,reserve\n{lots[0]},5,2\n{lots[1]},4,\n{lots[2]},3,1\n"})
        self.write({"calls.csv": 'call,amount\nClearing A,3\n"""B""",6\n'})
        pairs = f'{lots[0]},Clearing A,3\n{lots[0]},"""B""",5\n{lots[1]},Clearing A,1\n{lots[1]},"""B""",2\n'
        self.write({"pairs.csv": f"lot,call,cost\n{pairs}"})
        self.run_it("place", "--html", "page.html", *TABLES)
        size = (640, 480)
        with tempfile.TemporaryDirectory() as profile:
            command = [BROWSER, "--headless", "--no-sandbox", "--disable-gpu", "--no-first-run", f"--user-data-dir={profile}"]
            command += ["--dump-dom", "--screenshot=page.png", f"--window-size={size[0]},{size[1]}", Path("page.html").resolve().as_uri()]
            ran = subprocess.run(command, capture_output=True, timeout=60, check=True)
        costs, amounts = [[3, 5], [1, 2], [None, None]], placer.Amounts([5, 4, 3], [3, 6], [2, 0, 1])
        cells = Cells(ran.stdout.decode())
        self.assertEqual(cells.rows, expected(lots, calls, costs, amounts, placer.place(costs, *amounts)))
        self.assertTrue(cells.title.startswith("Short: 7 units"))
        *drawn, rows = pixels(Path("page.png").read_bytes())
        self.assertEqual(tuple(drawn), size)
        shades = Counter(row[at : at + 3] for row in rows for at in range(0, len(row), len(row) // size[0]))
        for colour in ("dfeaf8", "d9efde", "fde3d3"):  # of placed units, of full lots and calls, of a call that lacks units
            self.assertGreater(shades[bytes.fromhex(colour)], 300, colour)


if __name__ == "__main__":
    unittest.main()
