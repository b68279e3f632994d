"""The version of the library against the package's: which libraries are loaded, and what is said of the others."""

import os
import shutil
import subprocess
import sys
import unittest

from command import ROOT
from placer import version
from support import FolderCase

ARCHIVE = ROOT / "build" / "libplacer.a"
BACKEND = ROOT / "bindings" / "python" / "backend.py"
SCRIPT = "import placer; print(placer.library_version(), placer.place([[1, 2], [3, 5]], [5, 4], [3, 6]).cost)"


class Fitting(unittest.TestCase):
    """The comparison alone."""

    def test_fits(self):
        """The same major version, and a minor version that is not below; the patch does not matter."""
        for number, told, fits in [
            (0, "0.0.0", False),
            (999_999, "0.999.999", False),
            (1_000_000, "1.0.0", True),
            (1_000_999, "1.0.999", True),
            (1_002_003, "1.2.3", True),
            (1_999_000, "1.999.0", True),
            (2_000_000, "2.0.0", False),
            (4_294_967_295, "4294.967.295", False),
        ]:
            self.assertEqual((version.text(number), version.fits(number)), (told, fits))


@unittest.skipUnless(shutil.which("cc"), "there is no C compiler")
class Loading(FolderCase):
    """Libraries of other versions, made by the C compiler."""

    def setUp(self):
        """Name the library."""
        super().setUp()
        self.path = self.folder / "libplacer.so"

    def make(self, source, *flags):
        """Make a library of this C source."""
        code = self.folder / "version.c"
        code.write_text(source)
        subprocess.run(["cc", "-shared", "-fPIC", code, *flags, "-o", self.path], check=True, capture_output=True)

    def make_whole(self, number):
        """Make the real library under another version."""
        linked = "-Wl,--allow-multiple-definition", "-Wl,--whole-archive", ARCHIVE, "-Wl,--no-whole-archive"
        self.make(f"unsigned placer_version(void) {{ return {number}; }}", *linked)

    def check_refused(self, told):
        """Check that the library is not loaded, and no wheel made with it; return what is said."""
        for start, arguments in [("ImportError", ["-c", SCRIPT]), ("the wheel was not written", [BACKEND, self.folder / "out"])]:
            out, error = self.run_with(*arguments)
            self.assertEqual(out, "")
            self.assertTrue(error.startswith(f"{start}: the library {self.path} is of {told}"), error)
        return error

    def run_with(self, *arguments):
        """Run Python with the library; return what it prints, and the last line of what it says."""
        environment = {**os.environ, "PLACER_LIBRARY": str(self.path), "PYTHONPATH": os.pathsep.join(sys.path)}
        ran = subprocess.run([sys.executable, *arguments], env=environment, capture_output=True, text=True, check=False)
        return ran.stdout, ran.stderr.splitlines()[-1] if ran.stderr else ""

    def test_incomplete(self):
        """A library without a version, and one that lacks a call."""
        self.make("int placer_other;")
        self.check_refused("a version before 1.0.0, this package needs 1.0 or a later 1.x (")
        self.make("unsigned placer_version(void) { return 1000000; }")
        error = self.check_refused("version 1.0.0, this package needs 1.0 or a later 1.x (")
        self.assertIn("undefined symbol: placer_read_book", error)

    @unittest.skipUnless(ARCHIVE.exists(), "the static library is not built")
    def test_whole(self):
        """The real library under another major version, under a later minor version, and under another patch."""
        for number, told in [(2_001_000, "2.1.0"), (9_000, "0.9.0")]:
            self.make_whole(number)
            self.assertTrue(self.check_refused(f"version {told}, this package needs 1.0 or a later 1.x").endswith(" 1.x"))
        for number, told in [(1_001_000, "1.1.0"), (1_000_007, "1.0.7")]:
            self.make_whole(number)
            self.assertEqual(self.run_with("-c", SCRIPT), (f"{told} 24\n", ""))


if __name__ == "__main__":
    unittest.main()
