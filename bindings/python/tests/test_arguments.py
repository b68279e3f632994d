"""What the calls take: every bytes-like object, whole numbers, and buffers of the right kind."""

import ctypes
import dataclasses
import mmap
import os
import subprocess
import sys
import tempfile
import unittest
from array import array

import placer
from placer import amounts_bytes, book_bytes, order_bytes
from support import AMOUNTS, BOOK, F1, REBATES, Case


class Arguments(Case):
    """Arguments, good and bad."""

    def test_bytes_like(self):
        """Each kind of bytes-like object reads the same, and its costs are views of it."""
        with tempfile.TemporaryFile() as file:
            file.write(BOOK)
            file.flush()
            with mmap.mmap(file.fileno(), 0, access=mmap.ACCESS_READ) as mapped:
                self.assertEqual(placer.read_book(mapped), (2, 2))
        strided = memoryview(bytes(byte for pair in zip(BOOK, BOOK) for byte in pair))[::2]
        self.assertEqual(placer.find_and_run(strided, AMOUNTS).flow, ((0, 5), (3, 1)))
        self.assertRaises(TypeError, placer.lot_costs, strided, 0)
        for book in (BOOK, bytearray(BOOK), memoryview(BOOK), memoryview(bytearray(BOOK)), array("B", BOOK)):
            self.assertEqual(placer.find_and_run(book, bytearray(AMOUNTS)).cost, 24)
            view = placer.lot_costs(book, 0)
            self.assertEqual((list(view), view.itemsize), ([1, 2], 4))
            self.assertIs(view.obj, memoryview(book).obj)

    def test_own_book(self):
        """A change of the book shows in the view."""
        book = bytearray(BOOK)
        view = placer.lot_costs(book, 1)
        book[23] = 9
        self.assertEqual(list(view), [9, 5])

    def test_lot_numbers(self):
        """A lot outside has no costs; one below 0 or above 64 bits is an error."""
        for lot in (2, 3, 32, 255, 256, 2**32, 2**32 + 1, 2**64 - 1):
            self.assertEqual(list(placer.lot_costs(BOOK, lot)), [])
        for lot in (-1, 2**64):
            self.assertRaises(ValueError, placer.lot_costs, BOOK, lot)
        self.assertRaises(TypeError, placer.lot_costs, BOOK, 0.0)
        self.assertEqual(list(placer.lot_costs(book_bytes([[None], [4]]), 0)), [])

    def test_pair_numbers(self):
        """A pair outside has no cost; a number below 0 or above 64 bits is an error."""
        self.assertEqual([placer.pair_cost(BOOK, *pair) for pair in ((0, 0), (0, 1), (1, 0), (1, 1))], [1, 2, 3, 5])
        for outside in (2, 32, 255, 256, 2**32, 2**32 + 1, 2**64 - 1):
            for pair in ((outside, 0), (0, outside), (outside, outside)):
                self.assertIsNone(placer.pair_cost(BOOK, *pair))
        for bad in (-1, 2**64):
            self.assertRaises(ValueError, placer.pair_cost, BOOK, bad, 0)
            self.assertRaises(ValueError, placer.pair_cost, BOOK, 0, bad)
        self.assertRaises(TypeError, placer.pair_cost, BOOK, 0, 0.0)
        self.assertEqual(placer.pair_cost(book_bytes([[None, 0]]), 0, 1), 0)
        self.assertIsNone(placer.pair_cost(book_bytes([[None, 0]]), 0, 0))

    def test_no_files(self):
        """What is not bytes-like is a TypeError."""
        for bad in (None, 7, "CLB", [67, 76]):
            self.assertRaises(TypeError, placer.read_book, bad)
            self.assertRaises(TypeError, placer.check_order, BOOK, bad)
            self.assertRaises(TypeError, placer.find_and_run, BOOK, bad)

    def test_buffers(self):
        """A buffer to write is writable, contiguous and of the right items."""
        for bad in (bytes(16), bytearray(16), array("Q", [0] * 4), array("f", [0] * 4), memoryview(array("I", [0] * 8))[::2]):
            self.assertRaises(TypeError, placer.find_and_run, BOOK, AMOUNTS, bad)
        for bad in (bytes(2055), array("I", [0] * 600)):
            self.assertRaises(TypeError, placer.find_order, BOOK, bad)
        flow = memoryview(bytearray(16)).cast("I")
        placer.find_and_run(BOOK, AMOUNTS, flow)
        self.assertEqual(flow.tolist(), [0, 5, 3, 1])

    def test_shapes(self):
        """The items of a buffer are counted by its bytes, whatever its shape."""
        square = (ctypes.c_uint32 * 2 * 2)()
        placer.find_and_run(BOOK, AMOUNTS, square)
        self.assertEqual([list(row) for row in square], [[0, 5], [3, 1]])
        room = bytearray(64)
        none, no_bytes = (ctypes.c_uint32 * 0 * 8).from_buffer(room), (ctypes.c_uint8 * 0 * 40).from_buffer(room)
        self.assertRaisesRegex(placer.Refused, "refused 17", placer.find_and_run, BOOK, AMOUNTS, none)
        self.assertRaisesRegex(placer.Refused, "refused 17", placer.find_order, BOOK, no_bytes)
        self.assertEqual(room, bytes(64))

    def test_overlap(self):
        """A buffer to write that shares memory with a file is an error, and the file is as it was."""
        room = bytearray(BOOK + bytes(-len(BOOK) % 4) + bytes(16))
        flow, book = memoryview(room).cast("I"), memoryview(room)[: len(BOOK)]
        self.assertRaises(ValueError, placer.find_and_run, book, AMOUNTS, flow)
        self.assertRaises(ValueError, placer.find_order, book, room)
        self.assertEqual(bytes(book), BOOK)
        self.assertEqual(placer.find_and_run(book, AMOUNTS, flow[len(flow) - 4 :]).cost, 24)
        self.refused(17, (), placer.find_and_run, book, AMOUNTS, flow[2:2])  # which has no byte of the book

    def test_lists(self):
        """The makers of files take whole numbers that fit."""
        for bad in ([[1, 2], [3]], [[], [3]], [[1], []], [[-1, 2**31]], [[-(2**31) - 1]], [[2**32]], [[0]] * 256):
            self.assertRaises(ValueError, book_bytes, bad)
        for calls in (-1, 0, 1, 3, 256):
            self.assertRaises(ValueError, book_bytes, [[1, 2]], calls)
        self.assertEqual(book_bytes([[1, 2]], 2), book_bytes([[1, 2]]))
        self.assertRaises(ValueError, book_bytes, [], 256)
        self.assertRaises(TypeError, book_bytes, [], 2.0)
        for bad in ([[1.0]], [[-1.0]], [["1"]], [[float("nan")]]):
            self.assertRaises(TypeError, book_bytes, bad)
        self.assertRaises(ValueError, amounts_bytes, [-1], [1])
        self.assertRaises(TypeError, amounts_bytes, [1.5], [1])
        self.assertRaises(ValueError, order_bytes, [(0, 256)])
        self.assertRaises(ValueError, order_bytes, [(0, 0)] * 65536)
        for costs, calls in (([[0]] * 33, [0]), ([[]] * 33, []), ([[0] * 33], [0] * 33), ([], [0] * 33)):
            self.refused(4, (), placer.place, costs, [0] * len(costs), calls)

    def test_versions(self):
        """A book is of version 2 if a cost is below 0, else of version 1; either is read back as it was made."""
        for costs, version in ((F1, 1), ([[0]], 1), ([[None]], 1), (REBATES, 2), ([[None, -1]], 2), ([[-1_000_000, 1_000_000]], 2)):
            book = book_bytes(costs)
            self.assertEqual((book[3:5], placer.book_costs(book)), (bytes([version, 0]), costs))
            for lot, row in enumerate(costs):
                self.assertEqual(list(placer.lot_costs(book, lot)), [cost for cost in row if cost is not None])
                self.assertEqual([placer.pair_cost(book, lot, call) for call in range(len(row))], row)
        book = b"CLB\2" + BOOK[4:]  # F1 in version 2, which no cost below 0 asks for
        self.assertEqual((placer.book_costs(book), placer.find_and_run(book, AMOUNTS)), (F1, placer.find_and_run(BOOK, AMOUNTS)))

    def test_placing(self):
        """A placing cannot be changed, compares by value, and says by its verdict what is met."""
        placing = placer.place(F1, [5, 4], [3, 6])
        for name in ("units", "verdict", "full", "met"):
            self.assertRaises(dataclasses.FrozenInstanceError, setattr, placing, name, 0)
        self.assertEqual(placing, placer.find_and_run(BOOK, AMOUNTS))
        self.assertEqual(hash(placing), hash(placer.find_and_run(BOOK, AMOUNTS)))
        for lots, told in (([5, 4], ("FULL", True, True)), ([6, 4], ("COVERED", False, True)), ([4, 4], ("SHORT", False, False))):
            placing = placer.place(F1, lots, [3, 6])
            self.assertEqual((placing.verdict.name, placing.full, placing.met), told)
            self.assertEqual((repr(placing.verdict), f"{placing.verdict}"), (f"Verdict.{told[0]}",) * 2)

    def test_absent_library(self):
        """A library that cannot be loaded is said at the first call, not at import."""
        script = "import placer; placer.book_bytes([[1]]); placer.read_book(b'')"
        environment = {**os.environ, "PLACER_LIBRARY": "/nowhere/libplacer.so", "PYTHONPATH": os.pathsep.join(sys.path)}
        ran = subprocess.run([sys.executable, "-c", script], env=environment, capture_output=True, text=True, check=False)
        self.assertIn("ImportError: the placer library cannot be loaded", ran.stderr)


if __name__ == "__main__":
    unittest.main()
