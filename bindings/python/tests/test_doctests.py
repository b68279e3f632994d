"""The examples in the docstrings, run."""

import doctest
import unittest

import placer
from placer import _library, entry_points, files, lists, refused, version


def load_tests(loader, tests, pattern):
    """Add the doctests of each module."""
    for module in (placer, _library, entry_points, files, lists, refused, version):
        tests.addTests(doctest.DocTestSuite(module))
    tests.addTests(doctest.DocFileSuite("../README.md"))
    return tests


if __name__ == "__main__":
    unittest.main()
