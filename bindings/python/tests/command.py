"""What the tests of the command share: the tables of F1, and a test case that runs it."""

import contextlib
import io
import os
from pathlib import Path
from unittest import mock

import placer
from placer.cli import main
from support import FolderCase

ROOT = Path(placer.__file__).resolve().parents[3]
TABLES = ["pairs.csv", "lots.csv", "calls.csv"]
PAIRS, LOTS, CALLS = ((ROOT / "examples" / "csv" / name).read_text() for name in TABLES)


class CommandCase(FolderCase):
    """A test case in a folder that holds the tables of F1."""

    def setUp(self):
        """Write the tables, and go there."""
        super().setUp()
        self.addCleanup(os.chdir, os.getcwd())
        os.chdir(self.folder)
        self.write(dict(zip(TABLES, (PAIRS, LOTS, CALLS))))

    def write(self, files):
        """Write files of text or bytes; None removes one."""
        for name, data in files.items():
            if data is None:
                os.remove(name)
            else:
                Path(name).write_bytes(data if isinstance(data, bytes) else data.encode())

    def run_it(self, *arguments, stdin=b""):
        """Return the status, the output and the messages."""
        out, err = io.StringIO(), io.StringIO()
        with contextlib.redirect_stdout(out), contextlib.redirect_stderr(err):
            with mock.patch("sys.stdin", io.TextIOWrapper(io.BytesIO(stdin))):
                try:
                    status = main(list(arguments))
                except SystemExit as ended:
                    status = ended.code
        return status, out.getvalue(), err.getvalue()
