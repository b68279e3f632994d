"""`python3 -m placer` is the command `placer`."""

import sys

from .cli import main

sys.exit(main())
