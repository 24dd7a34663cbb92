"""Where things are that the scripts of this folder call and import: the repository, the built program, and the modules of
generate/ and the package front. It is imported, and not called.
"""

import sys
from pathlib import Path

sys.dont_write_bytecode = True

ROOT = Path(__file__).resolve().parent.parent
PROGRAM = ROOT / "crates" / "ia64_cli" / "out" / "ia64_cli"
sys.path += [str(ROOT / "generate"), str(ROOT)]
