#!/usr/bin/env python3
"""The command `placer`, as it is installed at PREFIX/bin: `make install` fills in the path of the library, seen from there."""

import os
import sys
from pathlib import Path

if sys.version_info < (3, 9):
    sys.exit("placer needs Python 3.9 or later")
HERE = Path(__file__).resolve().parent
sys.path.insert(0, str(HERE.parent / "share" / "placer" / "python"))
if not os.environ.get("PLACER_LIBRARY"):
    os.environ["PLACER_LIBRARY"] = os.path.normpath(HERE / "@LIBRARY@")

from placer.cli import main

sys.exit(main())
