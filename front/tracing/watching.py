"""The changes of some names alone: of what each of them reads before a group and behind it.

A register from r32 up and a predicate from p16 up are watched by their names, so one that names another cell or place behind a
group is another one, although nothing was written. Where it reads what the name read that this cell or place had before, this
is said.
"""

import re
import struct

from front.faults import Fault
from front.program import DATA_AT
from front.tracing.changes import (OUTSIDE, USED_NAMES, ZERO, Change, alat_changes, frame_changes, line_name, said,
                                   stack_changes)

# The names that may be watched: those with numbers by what they begin with, and the others.
NUMBERED = {"r": range(1, 128), "p": range(1, 64), "b": range(8)}
OTHERS = ("ar.unat", "ar.pfs", "ar.lc", "ar.ec", "frame", "rse", "alat")
ALIASES = {used: name for name, used in USED_NAMES.items()}
WATCHED = f"r1 to r127, {', '.join(ALIASES)}, p1 to p63, b0 to b7, {', '.join(OTHERS)}, and words of the data, as [0x100008]"


# ---- Names -----------------------------------------------------------------------------------------------

def names_of(text):
    """The names that are watched, by the words that stand for them."""
    return list(map(name_of, text.split(",")))


def name_of(word):
    """The name of the line of a state that has what a word names; a predicate has none of its own."""
    name = ALIASES.get(word, word)
    numbered = re.fullmatch(r"([rpb])(0|[1-9][0-9]{0,2})", name)
    address = re.fullmatch(r"\[(0x[0-9a-fA-F]{1,16})\]", name)
    if address:
        return f"m {int(address[1], 16):016x}"
    if name in OTHERS or numbered and int(numbered[2]) in NUMBERED[numbered[1]]:
        return name
    raise Fault(f"{word} is none that can be watched: {WATCHED}")


def check(names, image):
    """Refuses an address that is none of a word of the data."""
    end = DATA_AT + struct.unpack_from("<I", image, 16)[0]
    for address in (int(name[2:], 16) for name in names if name.startswith("m ")):
        if end == DATA_AT:
            raise Fault(f"[{address:#x}] can't be watched: the program has no data")
        if address % 8 or not DATA_AT <= address < end:
            raise Fault(f"[{address:#x}] is no word of the data: those stand at multiples of 8, {DATA_AT:#x} to {end - 8:#x}")


# ---- Readings --------------------------------------------------------------------------------------------

# What is no single register, by what finds its changes.
WHOLE = {"frame": lambda before, after: frame_changes(before.frame, after.frame), "rse": stack_changes, "alat": alat_changes}


def watching(names):
    """What finds the changes of these names."""
    def look(before, after, places):
        return [change for name in names for change in looked_at(name, before, after, places)]
    return look


def looked_at(name, before, after, places):
    """The changes of a name."""
    if name in WHOLE:
        yield from WHOLE[name](before, after)
        return
    old, new = (reading(name, state, places) for state in (before, after))
    if old != new:
        yield Change(line_name(name, places), old, new + kept(name, before, after))


def reading(name, state, places):
    """What a register, a predicate or a word of the data reads in a state."""
    if name[0] == "p":
        return str(int(state.predicate(int(name[1:]))))
    if name[0] == "r" and int(name[1:]) >= 32 + state.frame.sof:
        return OUTSIDE
    return said(name, state.lines.get(name, ZERO), places)


def kept(name, before, after):
    """Which other name the cell or the place of a register or a predicate had before, where it held the same there."""
    number = int(name[1:]) if re.fullmatch(r"[rp][0-9]+", name) else 0
    if name[0] == "r" and 32 <= number < 32 + after.frame.sof:
        was = before.frame.register(after.frame.cell(number))
        is_same = was is not None and before.register(was) == after.register(number)
    elif name[0] == "p" and number >= 16:
        was = before.frame.predicate(after.frame.place(number))
        is_same = before.predicate(was) == after.predicate(number)
    else:
        return ""
    return f", as {name[0]}{was} had" if is_same and was != number else ""
