"""The refusals of document 01: their numbers, names, values and sentences, as docs/refusals.tsv lists them, and their files."""

from __future__ import annotations

import enum
from typing import Dict, Literal, Optional, Tuple

File = Literal["book", "order", "amounts"]


class Cause(enum.IntEnum):
    """Why an input was refused. The numbers are those of the table "Refused" of document 01."""

    UNDER_SEVEN = 1
    MARK_DIFFERS = 2
    VERSION_NOT_ONE = 3
    COUNT_OUTSIDE = 4
    BIT_OUTSIDE = 5
    ENDS_EARLY = 6
    COST_TOO_HIGH = 7
    BYTES_AFTER = 8
    PAIR_NOT_ELIGIBLE = 9
    PAIR_MET_BEFORE = 10
    CROSS_NOT_ELIGIBLE = 11
    CROSS_SUM_TOO_HIGH = 12
    NO_ORDER = 13
    PAIR_MISSING = 14
    COUNTS_DIFFER = 15
    AMOUNT_TOO_HIGH = 16
    BUFFER_TOO_SHORT = 17
    CALLS_EXCEED_LOTS = 18
    NO_IDLE_CALL = 19
    ABOVE_EIGHT = 20
    RESERVE_EXCEEDS_LOT = 21


_SENTENCES: Dict[int, str] = {
    Cause.UNDER_SEVEN: "a file is under 7 bytes",
    Cause.MARK_DIFFERS: "a file does not open with its mark",
    Cause.VERSION_NOT_ONE: "a file's version is not 1 (of a book or amounts: neither 1 nor 2)",
    Cause.COUNT_OUTSIDE: "the book's count of lots or calls is above 32",
    Cause.BIT_OUTSIDE: "an eligibility bit is set for a call that the book does not have",
    Cause.ENDS_EARLY: "a file ends before its last field",
    Cause.COST_TOO_HIGH: "a cost is above 1,000,000 (in a book of version 2: or below -1,000,000)",
    Cause.BYTES_AFTER: "a file has bytes after its last field",
    Cause.PAIR_NOT_ELIGIBLE: "a pair of the order is not in the book or not eligible",
    Cause.PAIR_MET_BEFORE: "a pair of the order was met before",
    Cause.CROSS_NOT_ELIGIBLE: "the order has (i, j) before (i, l) and (k, j), and (k, l) is not eligible",
    Cause.CROSS_SUM_TOO_HIGH: "the order has (i, j) before (i, l) and (k, j), which cost less than (i, j) and (k, l)",
    Cause.NO_ORDER: "no order of this book (with an idle call: of the enlarged book) is good for all amounts",
    Cause.PAIR_MISSING: "an eligible pair is missing from the order",
    Cause.COUNTS_DIFFER: "the amounts' count of lots or calls differs from the book's",
    Cause.AMOUNT_TOO_HIGH: "an amount of a lot or call is above 1,000,000,000",
    Cause.BUFFER_TOO_SHORT: "the buffer lent is too short",
    Cause.CALLS_EXCEED_LOTS: "the calls' total exceeds the lots' total, less their reserves",
    Cause.NO_IDLE_CALL: "the book already has 32 calls, and the idle call would be one more",
    Cause.ABOVE_EIGHT: "the book's count of lots or calls is above 8, the most that a ticket panel shows",
    Cause.RESERVE_EXCEEDS_LOT: "a reserve is above what its lot holds",
}
_VALUES: Dict[int, Tuple[str, ...]] = {
    Cause.BIT_OUTSIDE: ("lot",),
    Cause.COST_TOO_HIGH: ("lot", "call"),
    Cause.PAIR_NOT_ELIGIBLE: ("place",),
    Cause.PAIR_MET_BEFORE: ("place",),
    Cause.CROSS_NOT_ELIGIBLE: ("i", "j", "k", "l"),
    Cause.CROSS_SUM_TOO_HIGH: ("i", "j", "k", "l"),
}
# The numbers that tell the file, and those that do not; 17 is about the lent buffer.
_OF_FILE: Dict[File, Tuple[int, ...]] = {"book": (4, 5, 7, 13, 19, 20), "order": (9, 10, 11, 12, 14), "amounts": (15, 16, 18, 21)}
_FILES = {number: file for file, numbers in _OF_FILE.items() for number in numbers}
OF_ANY_FILE = (1, 2, 3, 6, 8)


class Refused(ValueError):
    """An input was refused; every lent buffer is as it was.

    Attributes:
        number: 1 to 21, as in document 01; a later library may have more.
        cause: the same as a `Cause`; None if this package does not know the number.
        values: the table's values in its order, as (lot,), (lot, call), (place,) or (i, j, k, l); often none.
        file: "book", "order" or "amounts", which was refused; None for 17, which is about the lent buffer, and for an unknown number.

    Examples:
        >>> str(Refused(7, (0, 3)))
        'refused 7: a cost is above 1,000,000 (in a book of version 2: or below -1,000,000) [lot 0, call 3]'
        >>> str(Refused(6, file="amounts"))
        'refused 6: a file ends before its last field [amounts]'
        >>> Refused(13).cause, Refused(13).file
        (<Cause.NO_ORDER: 13>, 'book')
        >>> Refused(99).cause, str(Refused(99))
        (None, 'refused 99: not a number of this library')
    """

    def __init__(self, number: int, values: Tuple[int, ...] = (), file: Optional[File] = None) -> None:
        """Keep as many of the values as the cause has, and the file if the number does not tell it."""
        self.number = int(number)
        self.cause = Cause(number) if number in _SENTENCES else None
        self.values = tuple(values[: len(_VALUES.get(number, ()))])
        self.file = file if number in OF_ANY_FILE else _FILES.get(number)
        super().__init__(self.number, self.values, self.file)

    @property
    def sentence(self) -> str:
        """The refusal in plain English, the same in every language that the library is called from."""
        return _SENTENCES.get(self.number, "not a number of this library")

    def __str__(self) -> str:
        """Return the number, the sentence and, in brackets, the values, or the file if the number does not tell it."""
        details = [f"{name} {value}" for name, value in zip(_VALUES.get(self.number, ()), self.values)]
        if self.file and self.number in OF_ANY_FILE:
            details = [self.file]
        return f"refused {self.number}: {self.sentence}" + (f" [{', '.join(details)}]" if details else "")
