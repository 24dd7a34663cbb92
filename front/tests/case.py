"""What the tests share: the program that is asked, and calls of the command line in a folder of their own."""

import contextlib
import io
import os
import shutil
import tempfile
import unittest
from pathlib import Path

from front import command

ROOT = Path(__file__).resolve().parent.parent.parent
FRONT = str(ROOT / "front")
PROGRAM = os.environ.get("IA64_PROGRAM", str(ROOT / "crates" / "ia64_cli" / "out" / "ia64_cli"))
HAS_GNU = all(shutil.which(f"ia64-linux-gnu-{tool}") for tool in ("as", "ld", "ar", "objcopy", "objdump", "addr2line", "strip"))
needs_gnu = unittest.skipUnless(HAS_GNU, "GNU binutils for ia64 are missing")


@contextlib.contextmanager
def asked(program):
    """The front asks this program."""
    before = os.environ.get("IA64_PROGRAM")
    os.environ["IA64_PROGRAM"] = program
    try:
        yield
    finally:
        if before is None:
            del os.environ["IA64_PROGRAM"]
        else:
            os.environ["IA64_PROGRAM"] = before


class Case(unittest.TestCase):
    """A folder for files, and calls of `ia64` there."""

    def setUp(self):
        folder = tempfile.TemporaryDirectory()
        self.addCleanup(folder.cleanup)
        self.addCleanup(os.chdir, os.getcwd())
        os.chdir(folder.name)
        self.folder = Path(folder.name)
        self.program = PROGRAM

    def ia64(self, *words):
        """The status of a call, what it prints, as bytes, and what it says on standard error."""
        out, error = io.TextIOWrapper(io.BytesIO(), "utf-8"), io.StringIO()
        with contextlib.redirect_stdout(out), contextlib.redirect_stderr(error), asked(self.program):
            try:
                status = command.main(list(map(str, words)))
            except SystemExit as end:
                status = end.code
            out.flush()
        return status, out.buffer.getvalue(), error.getvalue()

    def lines(self, *words):
        """The same, and what it prints as lines."""
        status, printed, error = self.ia64(*words)
        return status, printed.decode().splitlines(), error
