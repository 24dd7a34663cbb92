"""The front as a program: `python3 front WORD..`."""

import os
import sys

if sys.version_info < (3, 8):
    print("ia64: Python 3.8 or later is needed", file=sys.stderr)
    sys.exit(125)

sys.path[0] = os.path.dirname(os.path.dirname(os.path.abspath(__file__)))

# Behind the path and the version, as they have to be right before.
from front.command import run  # noqa: E402

sys.exit(run())
