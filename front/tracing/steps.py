"""The groups of a run, one after the other, as the proved program prints them by `trace FIRST COUNT`.

That command tells the state after FIRST groups, and then of at most 100 groups each one's first and last place, how it ended,
and the state behind it. So a long run is asked for in pieces, each of which goes on where the one before it ended; none of them
is larger than some 16 megabytes, and no more than one is held.
"""

import re
import struct
from typing import List, NamedTuple, Tuple

from front.bundle import slots_of
from front.ordering.answers import VIOLATED, Answers
from front.ordering.states import State, position_of
from front.program import CODE_AT, Parts
from front.tracing.changes import Change, changes
from front.usage import GROUP_LIMIT, TRACE_LIMIT

__all__ = ["Change", "Places", "Step", "Violated", "bundles_of", "steps"]

# How many bytes a piece may have, and a state at most beside its data, of which each word has a line of so many.
PIECE, STATE, LINE = 16_000_000, 6000, 36

# How an instruction under a predicate begins, but for a branch, which may see what its own group wrote.
GUARDED = re.compile(r"\((p(\d+))\) (?!br\.)")

# The line of a group.
GROUP = re.compile(r"^(\d+) (\d+\.\d) (\d+\.\d) (falls|taken|ends)\n", re.M)


class Step(NamedTuple):
    """A group of a run: its number, from 1; the places of its first and its last slot; how it ended; the places of all its
    slots; those that aren't branches and whose predicate is 0, each with that; the words of the line `end` of the state behind
    it; and what that state has otherwise than the one before it."""
    number: int
    first: Tuple[int, int]
    last: Tuple[int, int]
    how: str
    slots: List[Tuple[int, int]]
    off: List[Tuple[Tuple[int, int], str]]
    end: str
    changes: List[Change]

    @property
    def place(self):
        """The place in the words of the line `end`: that of the next slot, or of the one that ended the run."""
        return position_of(self.end.rsplit(" ", 1)[1])


class Violated(Exception):
    """The program has violations, and nothing runs: the verdict."""


class Places:
    """What is said of addresses: of the bundles of a program. What stands in these isn't known here."""

    def __init__(self, bundles):
        self.bundles = bundles

    def number_at(self, address):
        """The number of the bundle at an address, None where none is there."""
        number, rest = divmod(address - CODE_AT, 16)
        return None if rest or not 0 <= number < len(self.bundles) else number

    def bundle_at(self, address):
        """What is said of the bundle at an address, which a branch register holds."""
        number = self.number_at(address)
        return "" if number is None else f"bundle {number}"

    def address(self, value):
        """What is said of a number that may be an address of anything: nothing, since it may be any number."""
        return ""

    def canonical(self, place):
        """What stands in a slot, as the program spells it: nothing, since it isn't known."""
        return ""

    def word(self, place):
        """The mnemonic of a slot with its completers, as the program spells it."""
        return re.sub(r"^\(p\d+\) ", "", self.canonical(place)).split(" ")[0]


def bundles_of(image):
    """The bundles of an image."""
    return Parts(image).bundles


def steps(program, image, first=1, count=GROUP_LIMIT, places=None, look=changes):
    """The groups of the run of an image from the one with a number on, at most so many. `look` finds the changes from one state
    to another."""
    answers, bundles = Answers(program), bundles_of(image)
    places = places or Places(bundles)
    number, last = first, min(first + count - 1, GROUP_LIMIT)
    while number <= last:
        before, groups = piece(answers, image, number - 1, min(groups_of_a_piece(image), last - number + 1))
        how = "ends"
        for said, start, end, how, printed in groups:
            after, number = State(printed), int(said) + 1
            ends = position_of(start), position_of(end)
            slots = slots_between(bundles, *ends)
            yield Step(int(said), *ends, how, slots, off_before(before, slots, places), after.lines["end"],
                       look(before, after, places))
            before = after
        if how == "ends":
            return


def groups_of_a_piece(image):
    """How many groups are asked for at once."""
    words = struct.unpack_from("<I", image, 16)[0] // 8
    return max(1, min(TRACE_LIMIT, PIECE // (STATE + LINE * words) - 1))


def piece(answers, image, first, count):
    """The state after so many groups, and the groups behind it, each as the parts of its line and the printed state."""
    status, printed = answers.raw(["trace", str(first), str(count)], image)
    text = printed.decode("latin-1")
    if status == VIOLATED:
        raise Violated(text)
    state, *parts = GROUP.split(text)
    return State(state), zip(*[iter(parts)] * 5)


def slots_between(bundles, first, last):
    """The places from one to another, in order."""
    return [(bundle, slot) for bundle in range(first[0], last[0] + 1) for slot in slots_of(bundles[bundle])
            if first <= (bundle, slot) <= last]


def off_before(state, slots, places):
    """Of the slots of an accepted program's group those that aren't branches and whose predicate is 0 in the state before it,
    each with that predicate. No slot of the group writes it before they read it, since that would be a violation."""
    guarded = ((place, GUARDED.match(places.canonical(place))) for place in slots)
    return [(place, found[1]) for place, found in guarded if found and not state.predicate(int(found[2]))]
