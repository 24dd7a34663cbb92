"""In what the state behind a group differs from that before it.

General registers from r32 up and predicates from p16 up are names: a call, a return and a rotation let them name other cells
and other places. So what is told of them is told in two parts. First which names mean another cell or place than before: such a
register keeps its value under another name. Then the cells and the places whose values are others, by their names behind the
group. The cells below the frame, which no slot reaches, keep what they hold until the frame has them again.
"""

import re
from typing import NamedTuple

from front.ordering.states import Frame, rank_of


class Change(NamedTuple):
    """What is another behind a group than before it: its name and both values, ready to be shown."""
    name: str
    old: str
    new: str


# The names that people use beside those of the registers.
USED_NAMES = {"r1": "gp", "r8": "ret0", "r9": "ret1", "r10": "ret2", "r11": "ret3", "r12": "sp", "r13": "tp", "b0": "rp"}

# What a register holds that has no line, and what is said of one that isn't there.
ZERO, OUTSIDE, NO_ENTRY = "0" * 16, "outside the frame", "no entry"

# Numbers from here to there are shown in decimal too, as those below are that are negative.
LEAST, MOST = 10, 0xFFFF


# ---- Values ----------------------------------------------------------------------------------------------

def noted(text, note):
    """A text with a note in parentheses, where there is one."""
    return f"{text} ({note})" if note else text


def said_value(printed, places):
    """A value as it is printed, in hexadecimal as short as can be, with the decimal number beside it where that is small, or what
    stands at this address."""
    digits, _, nat = printed.partition(" ")
    value = int(digits, 16)
    signed = value - (value >> 63 << 64)
    is_small = LEAST <= signed <= MOST or -MOST <= signed < 0
    return noted(f"{value:#x}", str(signed) if is_small else places.address(value)) + f" {nat}" * bool(nat)


def said_frame(sof, sol, sor):
    return f"sof {sof}, sol {sol}" + f", sor {sor}" * bool(sor)


def said_pfs(printed):
    """The value of `ar.pfs`, with the frame that it stands for."""
    value = int(printed, 16)
    return noted(f"{value:#x}", said_frame(value & 127, value >> 7 & 127, value >> 14 & 15) if value else "")


def said_branch(printed, places):
    """The value of a branch register, with the bundle that it is the address of."""
    value = int(printed, 16)
    return noted(f"{value:#x}", places.bundle_at(value))


def said_entry(entry):
    """An entry of the ALAT but for its register."""
    if entry is None:
        return NO_ENTRY
    address, count = entry
    return f"[{int(address, 16):#x}], {count} byte{'s' * (count != '1')}"


def said(name, printed, places):
    """What a register or a word of the data holds, by the name of its line."""
    if name == "ar.pfs":
        return said_pfs(printed)
    return said_branch(printed, places) if name[0] == "b" else said_value(printed, places)


# ---- Names -----------------------------------------------------------------------------------------------

def line_name(name, places):
    """The name of a line of a state, with the name that people use, or what stands at the address."""
    if name.startswith("m "):
        address = int(name[2:], 16)
        return noted(f"[{address:#x}]", places.address(address))
    return noted(name, USED_NAMES.get(name))


def register_name(number, frame, was):
    """The name of a register of the frame: as an output of it, where it has locals, and with the name that it had before."""
    notes = [f"out{number - 32 - frame.sol}"] * (0 < frame.sol <= number - 32)
    notes += [f"r{was} before"] * (was not in (None, number))
    return noted(f"r{number}", ", ".join(notes))


def spans(letter, numbers):
    """Numbers of registers, told as spans: `r32 to r34`."""
    return [span(letter, first[0], last[0]) for first, last in stretches((number, number) for number in sorted(numbers))]


def span(letter, first, last):
    return f"{letter}{first}" if first == last else f"{letter}{first} to {letter}{last}"


def stretches(pairs):
    """The first and the last pair of each stretch of pairs in which both numbers go up by one."""
    found = []
    for pair in pairs:
        if found and pair == (found[-1][1][0] + 1, found[-1][1][1] + 1):
            found[-1][1] = pair
        else:
            found.append([pair, pair])
    return found


# ---- Changes ---------------------------------------------------------------------------------------------

# The lines of the registers that no frame has.
GLOBAL = re.compile(r"r([1-9]|[12][0-9]|3[01])")


def changes(before, after, places):
    """All changes from one state to another, in the order of the lines of a state, and the frame first."""
    lines = sorted({name for name, _ in before.lines.items() ^ after.lines.items()}, key=rank_of)
    return [*frame_changes(before.frame, after.frame), *names_changed(before.frame, after.frame),
            *line_changes([name for name in lines if GLOBAL.fullmatch(name)], before, after, places),
            *register_changes(before, after, places), *predicate_changes(before, after),
            *line_changes([name for name in lines if re.match(r"b\d|ar\.", name)], before, after, places),
            *line_changes([name for name in lines if name.startswith("m ")], before, after, places),
            *alat_changes(before, after), *stack_changes(before, after, False)]


def changed(name, old, new):
    """A change, where it is one."""
    return [Change(name, old, new)] * (old != new)


def frame_changes(before: Frame, after: Frame):
    """The parts of the frame that are others, and the rename bases of the general registers, the floating-point registers and
    the predicates."""
    yield from changed("frame", *parts_apart(("cell", before.first, after.first), ("sof", before.sof, after.sof),
                                             ("sol", before.sol, after.sol), ("sor", before.sor, after.sor)))
    yield from changed("rename bases", *parts_apart(("r", before.rrb, after.rrb),
                                                    ("f", before.rrb_of_floats, after.rrb_of_floats),
                                                    ("p", before.rrb_of_predicates, after.rrb_of_predicates)))


def parts_apart(*parts):
    """What is said of the parts that differ, before and after."""
    apart = [part for part in parts if part[1] != part[2]]
    return tuple(", ".join(f"{part[0]} {part[at]}" for part in apart) for at in (1, 2))


def names_changed(before: Frame, after: Frame):
    """The registers that a call leaves below the frame, those that a return brings back, and what is named otherwise."""
    if before == after:
        return
    left = range(before.first, min(after.first, before.first + before.sof))
    back = range(after.first, min(before.first, after.first + after.sof))
    yield from (Change(each, "in the frame", "below it") for each in spans("r", map(before.register, left)))
    yield from (Change(each, "below the frame", "in it again") for each in spans("r", map(after.register, back)))
    both = range(max(before.first, after.first), min(before.first + before.sof, after.first + after.sof))
    yield from renamed("r", ((before.register(cell), after.register(cell)) for cell in both))
    if before.rrb_of_predicates != after.rrb_of_predicates:
        yield from renamed("p", ((before.predicate(place), after.predicate(place)) for place in range(16, 64)))


def renamed(letter, pairs):
    for first, last in stretches(sorted((old, new) for old, new in pairs if old != new)):
        yield Change("renamed", *(span(letter, *ends) for ends in zip(first, last)))


def line_changes(names, before, after, places):
    """The changes of what has lines of these names, where one that is 0 has none."""
    for name in names:
        old, new = (state.lines.get(name, ZERO) for state in (before, after))
        if old != new:
            yield Change(line_name(name, places), said(name, old, places), said(name, new, places))


def register_changes(before, after, places):
    """The cells of the frame whose values are others."""
    for number in range(32, 32 + after.frame.sof):
        cell, new = after.frame.cell(number), after.lines.get(f"r{number}", ZERO)
        was = before.frame.register(cell)
        old = ZERO if was is None else before.lines.get(f"r{was}", ZERO)
        if new != old and (was is not None or cell >= before.frame.first):
            yield Change(register_name(number, after.frame, was), OUTSIDE if was is None else said_value(old, places),
                         said_value(new, places))


def predicate_changes(before, after):
    """The places of the predicates whose bits are others, by the names behind the group."""
    apart = before.predicates ^ after.predicates
    for number in range(64) if apart else ():
        place = after.frame.place(number)
        if apart >> place & 1:
            was, *bits = before.frame.predicate(place), *(str(state.predicates >> place & 1) for state in (before, after))
            yield Change(noted(f"p{number}", f"p{was} before" if was != number else ""), *bits)


def alat_changes(before, after):
    """The entries of the ALAT that are others, and those that are made anew as they were and so are the newest."""
    old, new = ({register: entry for register, *entry in state.alat()} for state in (before, after))
    for register in [*old, *(register for register in new if register not in old)]:
        name = f"alat {key_name(register, after.frame)}"
        yield from changed(name, said_entry(old.get(register)), said_entry(new.get(register)))
    for register in made_anew([each for each in old if new.get(each) == old[each]],
                              [each for each in new if old.get(each) == new[each]]):
        yield Change(f"alat {key_name(register, after.frame)}", said_entry(old[register]), "the same, and the newest")


def key_name(key, frame):
    """The register of an entry of the ALAT, by its name behind the group, or the cell that the frame doesn't have."""
    if key[0] == "r":
        return key
    number = frame.register(int(key[1:]))
    return f"cell {key[1:]}" if number is None else f"r{number}"


def made_anew(before, after):
    """Of the same entries in their order before and after, those that were put behind the others."""
    place = -1
    for at, register in enumerate(after):
        if before.index(register) < place:
            return after[at:]
        place = before.index(register)
    return []


def stack_changes(before, after, with_end=True):
    """What is another of the register stack's resident range; the end of that, which is the frame's, only where it is wanted."""
    numbers = list(zip(RANGE, *(state.lines["rse"].split() for state in (before, after))))
    yield from changed("rse", *parts_apart(*(row for row in numbers if with_end or row[0] != RANGE[1])))


# What the numbers of a resident range are called.
RANGE = ("from cell", "up to cell", "spilled", "filled")
