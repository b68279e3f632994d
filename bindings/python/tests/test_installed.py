"""The package as it is installed: by the wheel, and by `make install` with its launcher."""

import base64
import csv
import email
import hashlib
import importlib.util
import os
import re
import shutil
import subprocess
import sys
import unittest
import zipfile
from pathlib import Path

import placer
from command import ROOT, TABLES
from support import FolderCase

PYTHON = ROOT / "bindings" / "python"
NAME = f"placer-{placer.__version__}-py3-none-manylinux2014_x86_64.manylinux_2_17_x86_64.whl"
INFO = f"placer-{placer.__version__}.dist-info"
LIBRARY = ROOT / "build" / "libplacer.so"
CSV = ROOT / "examples" / "csv"


def run(*command, folder, check=True, **more):
    """Run a command in a folder, with neither the package nor the library named by the environment."""
    removed = ("PYTHONPATH", "PYTHONHOME", "PLACER_LIBRARY", "PIP_REQUIRE_VIRTUALENV")
    environment = {name: text for name, text in os.environ.items() if name not in removed}
    environment.update({"PIP_CONFIG_FILE": os.devnull, "PIP_DISABLE_PIP_VERSION_CHECK": "1"}, **more)
    ran = subprocess.run([str(word) for word in command], cwd=folder, env=environment, capture_output=True, text=True, check=False)
    if check and ran.returncode:
        raise AssertionError(f"{command} ended with {ran.returncode}:\n{ran.stdout}{ran.stderr}")
    return ran


class InstalledCase(FolderCase):
    """A test case that builds the wheel, and checks the command that is installed."""

    def build(self, folder, **more):
        """Write the wheel to a folder, as `make wheel` does."""
        return run(sys.executable, PYTHON / "backend.py", folder, folder=self.folder, check=False, **more)

    def check_command(self, *command):
        """Check what the command says and places."""
        self.assertIn("not the proved part", run(*command, "--help", folder=self.folder).stdout)
        self.assertEqual(run(*command, "--version", folder=self.folder).stdout, f"placer {placer.__version__}\n")
        placed = run(*command, "place", *(CSV / table for table in TABLES), folder=self.folder)
        self.assertEqual((placed.stdout, placed.stderr), ((CSV / "placed.csv").read_text(), "full: 9 units, cost 24\n"))


@unittest.skipUnless(LIBRARY.exists(), "the shared library is not built")
class Wheel(InstalledCase):
    """What `make wheel` writes."""

    def test_contents(self):
        """Built twice, the wheel is the same; it has the library, the command, the metadata, and hashes of all."""
        for folder in ("one", "two"):
            self.assertEqual(self.build(folder).stdout, os.path.join(folder, NAME) + "\n")
        self.assertEqual(*((self.folder / folder / NAME).read_bytes() for folder in ("one", "two")))
        with zipfile.ZipFile(self.folder / "one" / NAME) as wheel:
            files = {name: wheel.read(name) for name in wheel.namelist()}
            self.assertEqual({info.date_time for info in wheel.infolist()}, {(1980, 1, 1, 0, 0, 0)})
        sources = {f"placer/{path.name}": path.read_bytes() for path in (PYTHON / "placer").glob("*.py")}
        sources.update({"placer/py.typed": b"", "placer/libplacer.so": LIBRARY.read_bytes()})
        sources[f"{INFO}/LICENSE"] = (ROOT / "LICENSE").read_bytes()
        sources[f"placer-{placer.__version__}.data/data/share/man/man1/placer.1"] = (ROOT / "man" / "placer.1").read_bytes()
        self.assertEqual({name: files[name] for name in files if name in sources}, sources)
        self.assertEqual(set(files) - set(sources), {f"{INFO}/{name}" for name in ("METADATA", "WHEEL", "entry_points.txt", "RECORD")})
        metadata = email.message_from_bytes(files[f"{INFO}/METADATA"])
        self.assertEqual((metadata["Name"], metadata["Version"], metadata["Requires-Python"]), ("placer", placer.__version__, ">=3.9"))
        self.assertEqual(metadata.get_payload(), (PYTHON / "README.md").read_text())
        tags = email.message_from_bytes(files[f"{INFO}/WHEEL"]).get_all("Tag")
        self.assertEqual(tags, ["py3-none-manylinux2014_x86_64", "py3-none-manylinux_2_17_x86_64"])
        record = list(csv.reader(files[f"{INFO}/RECORD"].decode().splitlines()))
        self.assertEqual([row[0] for row in record], list(files))
        self.assertEqual(record.pop(), [f"{INFO}/RECORD", "", ""])
        for name, digest, length in record:
            whole = base64.urlsafe_b64encode(hashlib.sha256(files[name]).digest()).decode().rstrip("=")
            self.assertEqual((digest, length), (f"sha256={whole}", str(len(files[name]))))

    @unittest.skipUnless(shutil.which("readelf"), "there is no readelf")
    def test_glibc(self):
        """The library needs libc alone, and no symbol that is newer than the wheel's tag."""
        needed = run("readelf", "-dW", LIBRARY, folder=self.folder).stdout
        self.assertEqual(re.findall(r"NEEDED.*\[(.*)\]", needed), ["libc.so.6"])
        versions = re.findall(r"GLIBC_(\d+)\.(\d+)", run("readelf", "-VW", LIBRARY, folder=self.folder).stdout)
        self.assertLessEqual(max((int(major), int(minor)) for major, minor in versions), (2, 17))

    def test_refused(self):
        """Without a library, or with one that is none of this package's or too new for the tag, no wheel is written."""
        newer = self.folder / "newer.so"
        newer.write_bytes(LIBRARY.read_bytes() + b"\0GLIBC_2.34\0")
        (self.folder / "text.so").write_text("no library")
        for library, told in [
            ("absent.so", "there is no library absent.so: build it with `make`, or name one in PLACER_LIBRARY\n"),
            ("text.so", "the placer library cannot be loaded ("),
            (newer, f"the library {newer} needs glibc 2.34, and the wheel is for 2.17 on"),
        ]:
            ran = self.build("out", PLACER_LIBRARY=str(library))
            self.assertEqual((ran.returncode, ran.stdout), (1, ""))
            self.assertTrue(ran.stderr.startswith(f"the wheel was not written: {told}"), ran.stderr)
        self.assertEqual(list((self.folder / "out").iterdir()), [])
        self.assertEqual(self.build("out", PLACER_LIBRARY=str(LIBRARY)).returncode, 0)

    def test_installed(self):
        """In a fresh environment and another folder: the README's lines, and the command; pip builds the same wheel."""
        if not (importlib.util.find_spec("venv") and importlib.util.find_spec("ensurepip")):
            print("SKIPPED: the wheel in a fresh environment, no venv or ensurepip on this machine", file=sys.stderr)
            self.skipTest("no venv or ensurepip")
        self.build("wheels")
        run(sys.executable, "-m", "venv", "fresh", folder=self.folder)
        programs = self.folder / "fresh" / "bin"
        run(programs / "pip", "wheel", "-q", "--no-index", "-w", "by_pip", PYTHON, folder=self.folder)
        self.assertEqual(*((self.folder / folder / NAME).read_bytes() for folder in ("wheels", "by_pip")))
        run(programs / "pip", "install", "-q", "--no-index", self.folder / "wheels" / NAME, folder=self.folder)
        blocks = re.findall(r"^```python\n(>>> .*?)^```", (ROOT / "README.md").read_text(), re.DOTALL | re.MULTILINE)
        self.assertGreaterEqual("".join(blocks).count(">>> placer.place("), 3)
        (self.folder / "readme.txt").write_text("\n\n".join(blocks))
        self.assertEqual(run(programs / "python", "-m", "doctest", "readme.txt", folder=self.folder).stdout, "")
        script = "import placer, placer._library as loaded; print(placer.__file__, loaded.library()._name, placer.library_version())"
        *paths, version = run(programs / "python", "-c", script, folder=self.folder).stdout.split()
        self.assertEqual({Path(path).parents[1].name for path in paths}, {"site-packages"})
        self.assertEqual(version, placer.__version__)
        self.assertTrue((self.folder / "fresh" / "share" / "man" / "man1" / "placer.1").exists())
        self.check_command(programs / "placer")


@unittest.skipUnless(LIBRARY.exists(), "the shared library is not built")
class Launcher(InstalledCase):
    """What `make install` puts under its prefix."""

    def setUp(self):
        """Lay the files out as it does."""
        super().setUp()
        self.prefix = self.folder / "prefix"
        package = self.prefix / "share" / "placer" / "python" / "placer"
        shutil.copytree(PYTHON / "placer", package, ignore=shutil.ignore_patterns("__pycache__"))
        for name in ("bin", "lib64"):
            (self.prefix / name).mkdir()
        shutil.copy(LIBRARY, self.prefix / "lib64" / "libplacer.so.1")
        self.command = self.prefix / "bin" / "placer"
        self.command.write_text((PYTHON / "launcher.py").read_text().replace("@LIBRARY@", "../lib64/libplacer.so.1"))
        self.command.chmod(0o755)

    def test_launched(self):
        """By its path, and by a link from elsewhere; the environment may name another library."""
        self.assertTrue(os.access(PYTHON / "launcher.py", os.X_OK))
        self.check_command(self.command)
        (self.folder / "link").symlink_to(self.command)
        self.check_command(self.folder / "link")
        tables = [CSV / table for table in TABLES]
        ran = run(self.command, "place", *tables, folder=self.folder, check=False, PLACER_LIBRARY="/nowhere/libplacer.so")
        self.assertEqual((ran.returncode, ran.stdout, "/nowhere/libplacer.so" in ran.stderr), (2, "", True))
        (self.prefix / "lib64" / "libplacer.so.1").unlink()
        ran = run(self.command, "place", *tables, folder=self.folder, check=False)
        self.assertIn(str(self.prefix.resolve() / "lib64" / "libplacer.so.1"), ran.stderr)


if __name__ == "__main__":
    unittest.main()
