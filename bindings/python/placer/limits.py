"""The limits of document 01, by the names of the C header without their PLACER_."""

LOTS_MAX = 32
CALLS_MAX = 32
COST_MAX = 1_000_000  # hundredths of a cent per unit
COST_MIN = -1_000_000  # in a book of version 2; in one of version 1 it is 0
AMOUNT_MAX = 1_000_000_000  # units
BOOK_MAX = 4231  # bytes of the largest book, order and amounts file
ORDER_MAX = 2055
AMOUNTS_MAX = 391  # of version 2; of version 1 it is 263
FLOW_MAX = 1024  # entries of the largest flow
PANEL_SIDE_MAX = 8  # lots, and calls, that a ticket panel shows
PANEL_FLOW_MAX = 64  # entries of the largest flow of a ticket panel
