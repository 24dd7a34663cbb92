"""States as the proved program prints them, and in what several of them differ."""

import re
from typing import NamedTuple

from front.faults import ProgramFault

# What the lines of a printed state are of, in their order.
KINDS = ("end", "groups", "frame", "rse", "r", "pr", "b", "ar.unat", "ar.pfs", "ar.lc", "ar.ec", "m", "alat")

# How many entries the ALAT has room for.
ALAT_LIMIT = 32

# The state in which a run begins, but for its data.
ZERO = "end limit at 0.0\ngroups 0\nframe 0 sof 0 sol 0 sor 0 rrb 0 0 0\nrse 0 0 0 0\npr 0000000000000001\n"


def lines_of(state):
    """The lines of a printed state by what they are of: `r8`, `m` and its address, `alat` and its number, from 1."""
    lines, entries = {}, 0
    for line in state.splitlines():
        if line.startswith("m "):
            lines[line[:18]] = line[19:]
            continue
        name, _, value = line.partition(" ")
        if name == "alat":
            entries += 1
            name = f"alat {entries}"
        lines[name] = value
    return lines


def rank_of(name):
    """Where a line of this name stands among the others of a printed state."""
    kind = re.match(r"[a-z.]+", name)[0]
    number = name[len(kind):]
    return KINDS.index(kind), len(number), number


def differing(states):
    """The names of the lines that aren't the same in all of these states, each given by its lines."""
    names = {name for state in states for name in state}
    return sorted((name for name in names if len({state.get(name) for state in states}) > 1), key=rank_of)


def table(heads, states, names):
    """The lines of these names of the states beside each other, each column as wide as its longest cell."""
    rows = [["", *heads]] + [[name, *(state.get(name, "-") for state in states)] for name in names]
    widths = [max(map(len, column)) for column in zip(*rows)]
    return ["  ".join(cell.ljust(width) for cell, width in zip(row, widths)).rstrip() for row in rows]


def position_of(said):
    bundle, slot = said.split(".")
    return int(bundle), int(slot)


class Frame(NamedTuple):
    """A printed frame: its first cell, its sizes, and the rename bases."""
    first: int
    sof: int
    sol: int
    sor: int
    rrb: int
    rrb_of_floats: int
    rrb_of_predicates: int

    def cell(self, register):
        """The cell that a register from r32 up names."""
        index, size = register - 32, 8 * self.sor
        return self.first + ((index + self.rrb) % size if index < size else index)

    def register(self, cell):
        """The number of the register that names a cell, None where it isn't in the frame."""
        index, size = cell - self.first, 8 * self.sor
        if not 0 <= index < self.sof:
            return None
        return 32 + ((index - self.rrb) % size if index < size else index)

    def place(self, predicate):
        """The place that a predicate names."""
        return predicate if predicate < 16 else 16 + (predicate - 16 + self.rrb_of_predicates) % 48

    def predicate(self, place):
        """The number of the predicate that names a place."""
        return place if place < 16 else 16 + (place - 16 - self.rrb_of_predicates) % 48


class State:
    """A printed state, as far as it tells what a group does that begins or ends there."""

    def __init__(self, text):
        self.lines = lines_of(text)
        found = re.fullmatch(r"(\w+)( \w+)? at (\d+\.\d)", self.lines.get("end", ""))
        frame = re.findall(r"\d+", self.lines.get("frame", ""))
        if not found or len(frame) != len(Frame._fields) or "pr" not in self.lines:
            raise ProgramFault(f"a state was printed that isn't known here: {text[:100]!r}")
        self.kind, self.position = found[1], position_of(found[3])
        self.frame = Frame(*map(int, frame))
        self.predicates = int(self.lines["pr"], 16)

    def register(self, number):
        """What a general register holds, and whether it has a NaT."""
        value = self.lines.get(f"r{number}", "0")
        return int(value.split(" ")[0], 16), value.endswith(" nat")

    def key(self, number):
        """What an entry of the ALAT calls a register."""
        return f"r{number}" if number < 32 else f"s{self.frame.cell(number)}"

    def alat(self):
        """The entries of the ALAT: registers, addresses and numbers of bytes, as they are printed."""
        values = (self.lines.get(f"alat {number}") for number in range(1, ALAT_LIMIT + 1))
        return [tuple(value.split(" ")) for value in values if value]

    def predicate(self, number):
        return bool(self.predicates >> self.frame.place(number) & 1)

    def counter(self, name):
        return int(self.lines.get(name, "0"), 16)
