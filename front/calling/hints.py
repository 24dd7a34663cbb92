"""Hints outside the profile, which change nothing but perhaps their base: prefetches, predictions of branches, and the hints of
loads and stores. Where they are left out, what else they do stays: the base is updated, and the load or store is one without the
hint."""

from front.bundle import NOPS
from front.stand_ins import Effect, row_of, stand_in

LINE_FETCHES = {"M13", "M13 count", "M14", "M15"}
PREDICTIONS = {"B6", "B7"}
# A line fetch that may fault has this bit of its opcode.
FAULTING = 1 << 31


def hint_row(bundle, slot):
    """The row of a slot where that is a hint, or None."""
    unit, word = bundle.units[slot], bundle.words[slot]
    row = row_of(unit, word)
    if row is None:
        return None
    is_fetch = row.format in LINE_FETCHES and not word & FAULTING
    return row if is_fetch or row.format in PREDICTIONS or row.effect is Effect.HINT else None


def is_hint(bundle, slot):
    return hint_row(bundle, slot) is not None


def without_hint(bundle, slot):
    """The bundle without the hint of a slot, or None where there is none."""
    row = hint_row(bundle, slot)
    if row is None:
        return None
    unit, word = bundle.units[slot], bundle.words[slot]
    if row.effect is Effect.HINT:
        return bundle.with_word(slot, stand_in(unit, word)[1])
    guard = word & 63 if "qp" in row.pattern.fields else 0
    return bundle.with_word(slot, {"M14": added_register, "M15": added_number}.get(row.format, nop(unit))(word) | guard)


def nop(unit):
    return lambda word: NOPS[unit]


def added_register(word):
    """`add r3=r2,r3` for an update by r2."""
    base = word >> 20 & 127
    return 8 << 37 | base << 20 | (word >> 13 & 127) << 13 | base << 6


def added_number(word):
    """`adds r3=imm,r3` for an update by a number of nine bits."""
    base, sign, high = word >> 20 & 127, word >> 36 & 1, word >> 27 & 1
    return 8 << 37 | sign << 36 | 2 << 34 | (0x3E * sign | high) << 27 | base << 20 | (word >> 13 & 127) << 13 | base << 6
