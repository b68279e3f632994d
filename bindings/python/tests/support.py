"""What the tests share: the files of F1, and test cases with a check for refusals, and with a folder."""

import tempfile
import unittest
from pathlib import Path

from placer import Refused, amounts_bytes, book_bytes, order_bytes

F1 = [[1, 2], [3, 5]]
BOOK = book_bytes(F1)
ORDER = order_bytes([(0, 1), (0, 0), (1, 0), (1, 1)])
AMOUNTS = amounts_bytes([5, 4], [3, 6])
NO_ORDER = [[None if lot == call else 0 for call in range(3)] for lot in range(3)]  # F9
SPARE = [[3, 5], [1, 2]]  # lot 0 is the dear one
REBATES = [[1, -2], [-3, 5]]  # needs a book of version 2
NO_ORDER_IDLE = [[None, 1], [0, 0], [1, None]]  # has an order, and with an idle call none


class Case(unittest.TestCase):
    """A test case with a check for refusals."""

    def refused(self, number, values, call, *arguments):
        """Check that a call is refused so, and that the last argument, a lent buffer or not, keeps its contents."""
        before = arguments[-1][:]
        with self.assertRaises(Refused) as caught:
            call(*arguments)
        self.assertEqual((caught.exception.number, caught.exception.values), (number, values))
        self.assertEqual(arguments[-1], before)


class FolderCase(Case):
    """A test case with a folder of its own."""

    def setUp(self):
        """Make the folder."""
        folder = tempfile.TemporaryDirectory()
        self.addCleanup(folder.cleanup)
        self.folder = Path(folder.name)
