"""What files of code have in common, whatever their format: sections, symbols, and what points into code.

A location is the number of a section and an offset in it. The readers of the formats (`elf`, `pe`) give their files this form,
and all that follows, from the functions of a file to the verdicts on them, looks at nothing else.
"""

import struct
from bisect import bisect_right
from enum import IntEnum
from typing import List, NamedTuple, Optional, Tuple

Location = Tuple[int, int]
WORD64 = (1 << 64) - 1
# How the names of sections begin that have tables for unwinding and exceptions: addresses in these don't say how code is reached.
TABLE_SECTIONS = (".IA_64.unwind", ".gnu.linkonce.ia64unw", ".gcc_except_table", ".eh_frame")


class Section(NamedTuple):
    """A section: its number, its name, its address where the file is linked, and how many bytes it has."""
    index: int
    name: str
    address: int
    size: int
    is_code: bool
    is_stored: bool                    # whether its bytes stand in the file


class Rank(IntEnum):
    """Which of several symbols at one address names it: the lowest."""
    GLOBAL = 0
    WEAK = 1
    LOCAL = 2


class Symbol(NamedTuple):
    """A symbol of a function, or a label, in code."""
    name: str
    rank: Rank
    location: Location                       # which a damaged file may have outside of the section
    size: int
    is_function: bool


class Relocation(NamedTuple):
    """Something that the linker has still to put in, or that the loader may move."""
    at: Location                          # of a branch, the offset of its bundle with the slot in the low bits
    is_branch: bool
    to: Optional[Location]
    name: str                          # of what it points to, or nothing


class Stretch(NamedTuple):
    """Code that a table for unwinding names as one function."""
    section: int
    start: int
    end: int


class Addresses:
    """The sections of a linked file by their addresses."""

    def __init__(self, sections):
        self.rows = sorted((section.address, section.index, section.size) for section in sections if section.size > 0)

    def location(self, address):
        """The section that has this address, and the offset in it, or None."""
        address &= WORD64
        at = bisect_right(self.rows, (address, float("inf"))) - 1
        if at < 0:
            return None
        start, index, size = self.rows[at]
        return (index, address - start) if address - start < size else None


class CodeFile:
    """A file of code. `sections` are in order, each with its number; `linked` says whether they have their addresses, by which
    `addresses` finds them."""

    sections: List[Section] = []
    linked = False
    addresses = Addresses([])
    word = struct.Struct("<Q")         # of data, as wide as an address

    def content(self, section):
        """The bytes of a section."""
        raise NotImplementedError

    def symbols(self):
        """The symbols in its code, those of functions and labels."""
        return []

    def stretches(self):
        """What its tables for unwinding name, where their addresses are known."""
        return []

    def relocations(self):
        """The relocations in code and data that say how code is reached."""
        return []

    def pointing(self):
        """The sections of data in which addresses of code may stand, and of each whether it is only read."""
        return []

    def pointed(self):
        """The locations in the code of a linked file of which the addresses stand in its data: an aligned word is one, or, in data
        that are only read, its distance from the word on."""
        code = [section for section in self.sections if section.is_code]
        low = min((section.address for section in code), default=0)
        high = max((section.address + section.size for section in code), default=0)
        size = self.word.size
        for section, is_only_read in self.pointing() if self.linked else ():
            skip = -section.address % size
            content = self.content(section)[skip:]
            for number, (word,) in enumerate(self.word.iter_unpack(content[:len(content) - len(content) % size])):
                if low <= word < high:
                    yield from self.code_locations(word)
                word = word + section.address + skip + size * number & (1 << 8 * size) - 1
                if is_only_read and low <= word < high:
                    yield from self.code_locations(word)

    def code_locations(self, address):
        """The location in code that has an address, if there is one."""
        location = self.addresses.location(address)
        return [location] if location and self.sections[location[0]].is_code else []

    def entry(self):
        """The location where a linked file begins, or None."""
        return None

    def line(self, location):
        """The line of the file itself at which a slot stands, where it is a source: a section, an offset, a slot."""
        return None
