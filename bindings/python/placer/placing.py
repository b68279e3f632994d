"""What a run answers: its verdict, and what it placed."""

from __future__ import annotations

import enum
from dataclasses import dataclass
from typing import Tuple


class Verdict(enum.IntEnum):
    """What a run met, by the numbers of the C header. Reserved units of a lot do not count as left.

    Attributes:
        FULL: nothing is left in any lot or call; the cost is the least of all allocations that meet everything.
        SHORT: a call lacks units; no allocation meets every call.
        COVERED: every call is met and some lot has units left; the cost is the least of all allocations that meet every call by
            `find_and_run_idle`, and need not be by the other runs.
    """

    FULL = 1
    SHORT = 2
    COVERED = 3

    def __str__(self) -> str:
        """Return the name, as `Verdict.FULL`."""
        return f"Verdict.{self.name}"

    __repr__ = __str__


@dataclass(frozen=True)
class Placing:
    """What a run placed.

    Attributes:
        verdict: whether everything, or every call, is met.
        units: how many units were placed; no allocation has more.
        cost: the sum of units times cost, in hundredths of a cent; below 0 where rebates outweigh.
        flow: the units of each pair: `flow[lot][call]`, 0 where not eligible.
    """

    verdict: Verdict
    units: int
    cost: int
    flow: Tuple[Tuple[int, ...], ...]

    @property
    def full(self) -> bool:
        """Whether nothing is left in any lot or call."""
        return self.verdict is Verdict.FULL

    @property
    def met(self) -> bool:
        """Whether every call is met: the verdict is FULL or COVERED."""
        return self.verdict in (Verdict.FULL, Verdict.COVERED)
