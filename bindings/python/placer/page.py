"""A placing as one HTML page: lots by calls, with the units and the cost of each pair, and what is left and lacking.

The page is whole in itself: no script, and nothing is fetched. What is marked by a colour is marked by a sign or a word too.
"""

from __future__ import annotations

import re
from html import escape
from typing import Iterable, Iterator, List, Optional

from .lists import amounts_lists, book_costs
from .placing import Placing, Verdict
from .tables import Problem
from .version import __version__

_STYLE = """
:root { color-scheme: light dark; --paper: #fff; --ink: #1c2024; --faint: #5d6670; --line: #cdd3da; --head: #eef1f4; --gap: #e6e9ed;
  --placed: #dfeaf8; --full: #d9efde; --sign: #0b6a2b; --lacks: #fde3d3; }
@media (prefers-color-scheme: dark) {
  :root { --paper: #14171a; --ink: #e7eaed; --faint: #a0a9b3; --line: #3d454e; --head: #23292f; --gap: #2a3037;
    --placed: #1d3550; --full: #1a3f28; --sign: #7edb9b; --lacks: #5a2f1a; } }
body { margin: 0; padding: 1rem 1.5rem; background: var(--paper); color: var(--ink); font: 16px/1.4 system-ui, sans-serif; }
h1 { margin: 0 0 .3rem; font-size: 1.5rem; }
p { margin: .2rem 0; max-width: 60rem; }
.legend, footer, small, .zero, .gap { color: var(--faint); }
.legend, footer { font-size: .85rem; }
.scroll { width: fit-content; max-width: 100%; max-height: max(16rem, 100vh - 12.5rem); box-sizing: border-box; margin: .8rem 0;
  overflow: auto; border: 1px solid var(--line); }
table { border-collapse: separate; border-spacing: 0; font-variant-numeric: tabular-nums; }
caption { padding: .3rem .6rem; text-align: left; }
th, td { padding: .25rem .6rem; border-right: 1px solid var(--line); border-bottom: 1px solid var(--line); text-align: right;
  white-space: nowrap; background: var(--paper); }
th, td.amount { background: var(--head); }
th:first-child { text-align: left; }
.name { display: -webkit-box; -webkit-box-orient: vertical; -webkit-line-clamp: 3; max-width: 9rem; overflow: hidden;
  overflow-wrap: break-word; white-space: normal; }
tbody .name { width: max-content; max-width: min(15rem, 25vw); }
th.full, td.full { background: var(--full); }
td.lacking { background: var(--lacks); font-weight: 700; }
td.placed { background: var(--placed); font-weight: 700; }
td.gap { text-align: center; background: repeating-linear-gradient(135deg, var(--gap) 0 4px, var(--paper) 4px 8px); }
th.full [role=img] { color: var(--sign); }
small { display: block; font-size: .75em; font-weight: 400; }
@media screen {
  thead { position: sticky; top: 0; z-index: 2; }
  tfoot { position: sticky; bottom: 0; z-index: 2; }
  th:first-child { position: sticky; left: 0; z-index: 1; } }
@media screen and (min-width: 40rem) {
  tr > :last-child { position: sticky; right: 0; z-index: 1; border-left: 1px solid var(--line); } }
@media print {
  @page { size: landscape; margin: 1cm; }
  body { padding: 0; }
  .scroll { max-height: none; overflow: visible; border: 0; }
  table { font-size: min(.8rem, 265mm / var(--columns) / 6); }
  th, td { padding: .1em .3em; }
  .name, tbody .name { max-width: 7em; overflow-wrap: anywhere; }
  tr { break-inside: avoid; } }
"""
_MET = {
    Verdict.FULL: "Nothing is left in any lot or call, and no placement that meets everything costs less.",
    Verdict.COVERED: "Every call is met, and some lot has units left.",
    Verdict.SHORT: "A call lacks units: no placement meets every call, and none places more units.",
}


def _sign(sign: str, meaning: str) -> str:
    return f'<span role="img" aria-label="{meaning}">{sign}</span>'


_GAP, _NONE_LEFT, _NONE_LACKING = _sign("–", "not eligible"), _sign("✓", "nothing left"), _sign("✓", "lacks nothing")
_LEGEND = f"""Lots are rows, calls are columns. A pair has the units placed, and below them what each costs; {_GAP} where it is not
eligible. {_sign("✓", "checked")} where nothing is left in the lot, or the call lacks nothing."""


def _shown(text: str) -> str:
    """Return a text for the page, with a sign in place of what is no character of HTML."""
    return escape(re.sub("[^\t\n\r -~\xa0-\ud7ff\ue000-\ufdcf\ufdf0-\ufffd\U00010000-\U0010fffd]", "\ufffd", text))


def _heading(scope: str, name: str, sign: str) -> str:
    """Return the heading of a lot or call, with a sign if it is full."""
    kind, text = ' class="full"' if sign else "", _shown(name)
    return f'<th scope="{scope}"{kind}><span class="name" title="{text}">{sign and sign + " "}<bdi>{text}</bdi></span></th>'


def _pair(cost: Optional[int], units: int) -> str:
    if cost is None:
        return f'<td class="gap">{_GAP}</td>'
    return f'<td class="{"placed" if units else "zero"}">{units:,}<small>at {cost:,}</small></td>'


def _amounts(numbers: Iterable[int]) -> str:
    return "".join(f'<td class="amount">{number:,}</td>' for number in numbers)


def _rest(units: int, kind: str) -> str:
    """Return what is left or lacking, of this kind if any."""
    return f'<td class="{kind if units else "full"}">{units:,}</td>'


def _rows(problem: Problem, placing: Placing) -> Iterator[str]:
    """Yield the rows of the table: the calls with what they want, each lot, and what the calls lack."""
    amounts, costs = amounts_lists(problem.amounts), book_costs(problem.book)
    left, lacks = amounts.remains(placing.flow)
    sides: List[List[int]] = [amounts.lots] + ([] if amounts.reserves is None else [amounts.reserves])
    words = "".join(f'<th scope="col">{word}</th>' for word in ("holds", "reserved")[: len(sides)])
    calls = "".join(_heading("col", name, "" if units else _NONE_LACKING) for name, units in zip(problem.calls, lacks))
    blank = '<td class="amount"></td>'
    yield f'<thead>\n<tr><th scope="col">lot</th>{words}{calls}<th scope="col">left</th></tr>'
    yield f'<tr><th scope="row">wants</th>{blank * len(sides)}{_amounts(amounts.calls)}{blank}</tr>\n</thead>\n<tbody>'
    for lot, name in enumerate(problem.lots):
        heading, has = _heading("row", name, "" if left[lot] else _NONE_LEFT), _amounts(side[lot] for side in sides)
        yield f'<tr>{heading}{has}{"".join(map(_pair, costs[lot], placing.flow[lot]))}{_rest(left[lot], "amount")}</tr>'
    rests = "".join(_rest(units, "lacking") for units in lacks)
    yield f'</tbody>\n<tfoot>\n<tr><th scope="row">lacks</th>{blank * len(sides)}{rests}{blank}</tr>\n</tfoot>'


def page(problem: Problem, placing: Placing, how: str) -> str:
    """Return the page of a placing; `how` says by which order it was placed."""
    title = f"{placing.verdict.name.capitalize()}: {placing.units:,} units, cost {placing.cost:,}"
    return f"""<!DOCTYPE html>
<html lang="en">
<head>
<meta charset="utf-8">
<meta http-equiv="Content-Security-Policy" content="default-src 'none'; style-src 'unsafe-inline'">
<meta name="viewport" content="width=device-width, initial-scale=1">
<title>{title}</title>
<style>{_STYLE}</style>
</head>
<body>
<h1>{title}</h1>
<p>{_MET[placing.verdict]} Costs are in hundredths of a cent.</p>
<p>Placed {_shown(how)}.</p>
<p class="legend">{_LEGEND}</p>
<div class="scroll" tabindex="0" role="region" aria-label="The table, which scrolls">
<table style="--columns: {len(problem.calls) + 6}">
<caption>Units placed, lots by calls</caption>
{chr(10).join(_rows(problem, placing))}
</table>
</div>
<footer>Written by placer {__version__}. The library that placed is proved; this page is trusted.</footer>
</body>
</html>
"""
