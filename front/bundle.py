"""Bundles, and the fields of instructions that matter here: displacements, and what pads and traps (volume 3, chapter 4)."""

import struct
from enum import Enum
from typing import NamedTuple, Tuple

# The units of the slots by the template without its lowest bit, which tells of the stop at the end.
UNITS = {0x00: "mii", 0x02: "mii", 0x04: "mlx", 0x08: "mmi", 0x0A: "mmi", 0x0C: "mfi", 0x0E: "mmf",
         0x10: "mib", 0x12: "mbb", 0x16: "bbb", 0x18: "mmb", 0x1C: "mfb"}
WORD = (1 << 41) - 1
NOPS = {"m": 1 << 27, "i": 1 << 27, "f": 1 << 27, "b": 2 << 37, "l": 0, "x": 1 << 27}


class Layout(Enum):
    """Where the displacement of a direct branch or a check stands in its word: a lowest bit and a number of bits for
    each part, the lowest part first."""
    BRANCH = ((13, 20), (36, 1))                     # branches, chk.a
    CHECK = ((6, 7), (20, 13), (36, 1))              # chk.s
    FLOATING_CHECK = ((6, 20), (36, 1))              # fchkf


class Bundle(NamedTuple):
    template: int
    words: Tuple[int, int, int]

    @property
    def units(self):
        """None where the template is reserved, as no units."""
        return UNITS.get(self.template & ~1, "")

    def with_word(self, slot, word):
        return Bundle(self.template, self.words[:slot] + (word,) + self.words[slot + 1:])

    def packed(self):
        number = self.template
        for slot, word in enumerate(self.words):
            number |= word << (5 + 41 * slot)
        return number.to_bytes(16, "little")


# Behind which slots a template has stops. The manual's MII and MMI have a kind with one in their middle.
MIDDLE_STOPS = {0x02: {1}, 0x0A: {0}}
STOPS = {template | stop: frozenset(MIDDLE_STOPS.get(template, set()) | ({1 if units == "mlx" else 2} if stop else set()))
         for template, units in UNITS.items() for stop in (0, 1)}


def slots_of(bundle):
    """The numbers of a bundle's slots. A long instruction is slot 1."""
    return (0, 1) if bundle.units == "mlx" else (0, 1, 2)


def stops_behind(bundle):
    """The slots behind which there is a stop."""
    return STOPS[bundle.template]


def split(data):
    number = int.from_bytes(data, "little")
    return Bundle(number & 31, (number >> 5 & WORD, number >> 46 & WORD, number >> 87))


def split_all(code):
    """The bundles of bytes, whose number is a multiple of 16."""
    return [Bundle(low & 31, (low >> 5 & WORD, (low >> 46 | high << 18) & WORD, high >> 23))
            for low, high in struct.iter_unpack("<QQ", code)]


# What fills the room between functions: zeros, nops, and the nops with the numbers 6, 7 and 8 that GNU's linker puts there.
FILL = Bundle(0x00, (NOPS["m"] | 6 << 6, NOPS["i"] | 7 << 6, NOPS["i"] | 8 << 6))
PADDING = {bytes(16), FILL.packed()} | {Bundle(template | stop, tuple(NOPS[unit] for unit in units)).packed()
                                        for template, units in UNITS.items() for stop in (0, 1)}

# What GCC puts behind a call that doesn't come back: `break.f 0` among nops.
TRAPS = {Bundle(template | stop, tuple(0 if unit == "f" else NOPS[unit] for unit in units)).packed()
         for template, units in UNITS.items() if "f" in units for stop in (0, 1)}


def displacement_layout(unit, word):
    """The layout of a direct branch or a check, of floating-point ones too, or None."""
    major, x3 = word >> 37, word >> 33 & 7
    if unit == "b" and major in (4, 5) or unit == "m" and major == 0 and x3 in (4, 5, 6, 7):
        return Layout.BRANCH
    if (unit, major, x3) in (("m", 1, 1), ("m", 1, 3), ("i", 0, 1)):
        return Layout.CHECK
    return Layout.FLOATING_CHECK if unit == "f" and major == 0 and word >> 27 & 0x7F == 8 else None


def displacement(layout, word):
    """The displacement in bundles: 21 bits, signed."""
    value = width = 0
    for low, bits in layout.value:
        value |= (word >> low & (1 << bits) - 1) << width
        width += bits
    return value - ((value >> width - 1) << width)


def with_displacement(layout, word, value):
    for low, bits in layout.value:
        mask = (1 << bits) - 1
        word = word & ~(mask << low) | (value & mask) << low
        value >>= bits
    return word


# The parts of the displacement of a `brl`: which slot they stand in, a lowest bit and a number of bits, the lowest part first.
LONG = ((2, 13, 20), (1, 2, 39), (2, 36, 1))


def is_long_branch(bundle):
    return bundle.units == "mlx" and bundle.words[2] >> 37 in (0xC, 0xD)


def long_displacement(bundle):
    """The displacement in bundles of a `brl`: 60 bits, signed."""
    value = width = 0
    for slot, low, bits in LONG:
        value |= (bundle.words[slot] >> low & (1 << bits) - 1) << width
        width += bits
    return value - (value >> width - 1 << width)


def with_long_displacement(bundle, value):
    for slot, low, bits in LONG:
        mask = (1 << bits) - 1
        bundle = bundle.with_word(slot, bundle.words[slot] & ~(mask << low) | (value & mask) << low)
        value >>= bits
    return bundle


# The major opcodes of what may lead a walk elsewhere: branches, checks, breaks.
TURNS = {"m": frozenset((0, 1)), "i": frozenset((0,)), "f": frozenset((0,)), "b": frozenset((0, 1, 4, 5)), "l": frozenset(),
         "x": frozenset((0, 0xC, 0xD))}


def may_turn(unit, word):
    """Whether an instruction may lead a walk elsewhere. Most are told at once that don't: a `nop` of units M, I, F and X has
    just this bit above its number."""
    return word >> 37 in TURNS[unit] and word >> 27 != 1


def branches(bundle):
    """The slots of direct branches and checks, each with its displacement in bundles. A long instruction stands at slot 1."""
    found = []
    for slot, unit in enumerate(bundle.units):
        word = bundle.words[slot]
        if may_turn(unit, word):
            layout = displacement_layout(unit, word)
            if layout:
                found.append((slot, displacement(layout, word)))
            elif unit == "x" and is_long_branch(bundle):
                found.append((1, long_displacement(bundle)))
    return found


def with_branch(bundle, slot, value):
    """The bundle with this displacement of its branch in the slot."""
    if bundle.units[slot] == "l":
        return with_long_displacement(bundle, value)
    word = bundle.words[slot]
    return bundle.with_word(slot, with_displacement(displacement_layout(bundle.units[slot], word), word, value))


def is_break(unit, word):
    """Whether it is a `break`, which has the same fields in all units: the major opcode and bits 35:27 are zero."""
    return unit != "l" and word >> 37 == 0 and word >> 27 & 0x1FF == 0


def without_breaks(bundle):
    """The bundle with the `nop` of the unit, of the same predicate and number, in place of each `break`."""
    for slot, (unit, word) in enumerate(zip(bundle.units, bundle.words)):
        if is_break(unit, word):
            bundle = bundle.with_word(slot, word | NOPS[unit])
    return bundle
