"""What goes wrong."""

from typing import NamedTuple


class Fault(Exception):
    """Why a file can't be read; or another than the one that is read, by its path, can't be written."""

    def __init__(self, said, path=""):
        super().__init__(said)
        self.path = path


class Why(NamedTuple):
    """Why a function isn't judged: in the words that others share with it, and in its own."""
    reason: str
    said: str


class Unread(Exception):
    """Why a source can't be read without the GNU assembler, and at which of its lines; and whether what stands there is known
    to be something of that assembler."""

    def __init__(self, line, why, is_known=True):
        super().__init__(f"line {line}: {why}")
        self.line, self.why, self.is_known = line, why, is_known


class ProgramFault(Exception):
    """Why a program that is called gave no answer that can be used."""


def printable(text):
    """The text without what a terminal wouldn't print."""
    return text if text.isprintable() else "".join(c if c.isprintable() else "?" for c in text)
