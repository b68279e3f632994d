"""The build backend (PEP 517), without any dependency: `pip install bindings/python`, or `python3 bindings/python/backend.py FOLDER`.

The wheel holds the package with the shared library in it, the command `placer` and its man page, for x86-64 Linux. The same sources
and the same library make the same bytes. There is no editable installation: set PYTHONPATH to this folder instead.
"""

from __future__ import annotations

import base64
import hashlib
import os
import re
import sys
import zipfile
from pathlib import Path
from typing import Any, Dict, List, Optional

from placer._library import NAME, load
from placer.version import __version__

HERE = Path(__file__).resolve().parent
ROOT = HERE.parents[1]
GLIBC = 17  # the minor version of glibc 2 that the platform tags below promise
PLATFORMS = ["manylinux2014_x86_64", f"manylinux_2_{GLIBC}_x86_64"]
INFO = f"placer-{__version__}.dist-info"
METADATA = f"""Metadata-Version: 2.1
Name: placer
Version: {__version__}
Summary: The collateral placer: lots to calls by an order that is good for all amounts, verified
License: MIT
License-File: LICENSE
Requires-Python: >=3.9
Classifier: License :: OSI Approved :: MIT License
Classifier: Operating System :: POSIX :: Linux
Classifier: Programming Language :: Python :: 3
Classifier: Typing :: Typed
Description-Content-Type: text/markdown

"""


def _library() -> bytes:
    """Return the shared library: that of PLACER_LIBRARY, or of the repository's build folder, if it fits the package and the tags."""
    path = Path(os.environ.get("PLACER_LIBRARY") or ROOT / "build" / NAME)
    if not path.is_file():
        raise RuntimeError(f"there is no library {path}: build it with `make`, or name one in PLACER_LIBRARY")
    load(str(path.resolve()))
    data = path.read_bytes()
    newest = max((int(minor) for minor in re.findall(rb"\0GLIBC_2\.(\d+)", data)), default=0)
    if newest > GLIBC:
        raise RuntimeError(f"the library {path} needs glibc 2.{newest}, and the wheel is for 2.{GLIBC} on: link it on an older system")
    return data


def _files() -> Dict[str, bytes]:
    """Return the files of the wheel by their names, in the order in which they stand in it; RECORD comes after them."""
    package = [path for path in (HERE / "placer").iterdir() if path.suffix == ".py" or path.name == "py.typed"]
    files = {f"placer/{path.name}": path.read_bytes() for path in package}
    files[f"placer/{NAME}"] = _library()
    man = ROOT / "man" / "placer.1"
    if man.exists():
        files[f"placer-{__version__}.data/data/share/man/man1/placer.1"] = man.read_bytes()
    tags = "".join(f"Tag: py3-none-{platform}\n" for platform in PLATFORMS)
    files[f"{INFO}/LICENSE"] = (ROOT / "LICENSE").read_bytes()
    files[f"{INFO}/METADATA"] = METADATA.encode() + (HERE / "README.md").read_bytes()
    files[f"{INFO}/WHEEL"] = f"Wheel-Version: 1.0\nGenerator: placer {__version__}\nRoot-Is-Purelib: false\n{tags}".encode()
    files[f"{INFO}/entry_points.txt"] = b"[console_scripts]\nplacer = placer.cli:main\n"
    return dict(sorted(files.items(), key=lambda item: (item[0].startswith(INFO), item[0])))


def _record(files: Dict[str, bytes]) -> bytes:
    """Return the wheel's list of its files with their hashes and lengths."""
    lines = []
    for name, data in files.items():
        digest = base64.urlsafe_b64encode(hashlib.sha256(data).digest()).rstrip(b"=").decode()
        lines.append(f"{name},sha256={digest},{len(data)}\n")
    return "".join([*lines, f"{INFO}/RECORD,,\n"]).encode()


def get_requires_for_build_wheel(config_settings: Optional[Dict[str, Any]] = None) -> List[str]:
    """Return what has to be installed to build the wheel: nothing."""
    return []


def build_wheel(wheel_directory: str, config_settings: Optional[Dict[str, Any]] = None, metadata_directory: Optional[str] = None) -> str:
    """Write the wheel to a folder, and return its name."""
    files = _files()
    files[f"{INFO}/RECORD"] = _record(files)
    name = f"placer-{__version__}-py3-none-{'.'.join(PLATFORMS)}.whl"
    with zipfile.ZipFile(Path(wheel_directory) / name, "w") as wheel:  # stored: compressed bytes would depend on the zlib at hand
        for path, data in files.items():
            info = zipfile.ZipInfo(path, (1980, 1, 1, 0, 0, 0))
            info.external_attr = (0o100755 if path.endswith(".so") else 0o100644) << 16
            wheel.writestr(info, data)
    return name


def main() -> None:
    """Write the wheel to the folder that is named, and print its path."""
    if len(sys.argv) != 2:
        sys.exit("usage: python3 backend.py FOLDER")
    try:
        os.makedirs(sys.argv[1], exist_ok=True)
        print(os.path.join(sys.argv[1], build_wheel(sys.argv[1])))
    except (RuntimeError, ImportError, OSError) as error:
        sys.exit(f"the wheel was not written: {error}")


if __name__ == "__main__":
    main()
