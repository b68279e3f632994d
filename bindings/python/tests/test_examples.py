"""Each example prints what stands beside it."""

import contextlib
import io
import runpy
import unittest
from pathlib import Path

import placer

EXAMPLES = Path(placer.__file__).resolve().parents[3] / "examples" / "python"


class Examples(unittest.TestCase):
    """The programs of examples/python."""

    def test_output(self):
        """Run each, and compare."""
        names = sorted(path.stem for path in EXAMPLES.glob("*.py"))
        self.assertIn("place_f1", names)
        for name in names:
            out = io.StringIO()
            with contextlib.redirect_stdout(out):
                runpy.run_path(str(EXAMPLES / f"{name}.py"))
            self.assertEqual(out.getvalue(), (EXAMPLES / f"{name}.txt").read_text())


if __name__ == "__main__":
    unittest.main()
