"""Stand-ins: in the place of an instruction outside the profile one of the profile, of which a verdict is the same.

A violation rests on the registers that two slots read and write, on the ways that a walk may go, and on what compares and
branches tell of predicates (docs/use/commands.md, "Violations"). A stand-in has all of this from the instruction that it stands in
for: the guard, the ways on, the kind of a compare, and the reads and writes of general registers, predicates, branch registers
and the application registers that the profile has. So the verdict on a function with stand-ins is right in all that it speaks
of. What the profile has no registers for, a stand-in doesn't look at, and its row says what that is (`Row.unseen`).

One thing it can't say: a branch may read a predicate that an integer compare of its group has written, and not one that a
floating-point instruction has. Riding (`riding`) says that too; where a function can't ride and it matters, it isn't judged.

`ROWS` is the table of what the profile leaves out, and `SHAPES` says for what an instruction reads and writes which one stands
in. Formats, fields and operands have the manual's names (volume 3, chapter 4).
"""

import functools
from enum import Enum
from typing import Dict, FrozenSet, List, NamedTuple, Optional, Tuple

from front.bundle import (NOPS, Bundle, Layout, displacement, displacement_layout, is_long_branch, long_displacement,
                          with_displacement)


# ---- Formats --------------------------------------------------------------------------------------------------------------

# The fields of each format from bit 40 down, as `name:bits`; `_` is blank, and its bits are zero. The names below have the
# same width everywhere, and any other one without a width has one bit. `d` is the highest bit of a hint, which processors from
# the Itanium 9500 on have.
WIDTHS = {"op": 4, "qp": 6, "p1": 6, "p2": 6, "r1": 7, "r2": 7, "r3": 7, "f1": 7, "f2": 7, "f3": 7, "f4": 7, "ar3": 7, "cr3": 7,
          "b1": 3, "b2": 3}

FORMATS = {
    "A9": "op za x2a:2 zb x4:4 x2b:2 r3 r2 r1 qp",
    "A10": "op za x2a:2 zb x4:4 ct2d:2 r3 r2 r1 qp",
    "I1": "op za x2a:2 zb ve ct2d:2 x2b:2 _ r3 r2 r1 qp",
    "I2": "op za x2a:2 zb ve x2c:2 x2b:2 _ r3 r2 r1 qp",
    "I3": "op za x2a:2 zb ve x2c:2 x2b:2 _:4 mbt4c:4 r2 r1 qp",
    "I4": "op za x2a:2 zb ve x2c:2 x2b:2 mht8c:8 r2 r1 qp",
    "I5": "op za x2a:2 zb ve x2c:2 x2b:2 _ r3 r2 r1 qp",
    "I6": "op za x2a:2 zb ve x2c:2 x2b:2 _ r3 _ count5b:5 _ r1 qp",
    "I7": "op za x2a:2 zb ve x2c:2 x2b:2 _ r3 r2 r1 qp",
    "I8": "op za x2a:2 zb ve x2c:2 x2b:2 _:3 count5c:5 r2 r1 qp",
    "I9": "op za x2a:2 zb ve x2c:2 x2b:2 _ r3 _:7 r1 qp",
    "I16": "op tb x2:2 ta p2 r3 pos6b:6 y c p1 qp",
    "I17": "op tb x2:2 ta p2 r3 _:6 y c p1 qp",
    "I26": "op _ x3:3 x6:6 ar3 r2 _:7 qp",
    "I27": "op s x3:3 x6:6 ar3 imm7b:7 _:7 qp",
    "I28": "op _ x3:3 x6:6 ar3 _:7 r1 qp",
    "I29": "op _ x3:3 x6:6 r3 _:7 r1 qp",
    "I30": "op tb x2:2 ta p2 _:7 x imm5b:5 y c p1 qp",
    "M1": "op m x6:6 hint:2 x r3 d _:6 r1 qp",
    "M4": "op m x6:6 hint:2 x r3 r2 d _:6 qp",
    "M6": "op m x6:6 hint:2 x r3 d _:6 f1 qp",
    "M7": "op m x6:6 hint:2 x r3 r2 f1 qp",
    "M8": "op s x6:6 hint:2 i r3 imm7b:7 f1 qp",
    "M9": "op m x6:6 hint:2 x r3 f2 d _:6 qp",
    "M10": "op s x6:6 hint:2 i r3 f2 imm7a:7 qp",
    "M11": "op m x6:6 hint:2 x r3 f2 f1 qp",
    "M12": "op m x6:6 hint:2 x r3 f2 f1 qp",
    "M13": "op m x6:6 hint:2 x r3 y _:6 d _:6 qp",
    "M13 count": "op m x6:6 hint:2 x r3 y _ stride:5 d count:6 qp",
    "M14": "op m x6:6 hint:2 x r3 r2 d _:6 qp",
    "M15": "op s x6:6 hint:2 i r3 imm7b:7 d _:6 qp",
    "M16": "op m x6:6 hint:2 x r3 r2 r1 qp",
    "M18": "op m x6:6 _:2 x _:7 r2 f1 qp",
    "M19": "op m x6:6 _:2 x _:7 f2 r1 qp",
    "M21": "op s x3:3 imm13c:13 f2 imm7a:7 qp",
    "M23": "op s x3:3 imm20b:20 f1 qp",
    "M24": "op _ x3:3 x2:2 x4:4 _:21 qp",
    "M25": "op _ x3:3 x2:2 x4:4 _:27",
    "M27": "op _ x3:3 x2:2 x4:4 _:14 f1 qp",
    "M28": "op x x3:3 x6:6 r3 _:14 qp",
    "M29": "op _ x3:3 x6:6 ar3 r2 _:7 qp",
    "M30": "op s x3:3 x2:2 x4:4 ar3 imm7b:7 _:7 qp",
    "M31": "op _ x3:3 x6:6 ar3 _:7 r1 qp",
    "M32": "op _ x3:3 x6:6 cr3 r2 _:7 qp",
    "M33": "op _ x3:3 x6:6 cr3 _:7 r1 qp",
    "M35": "op _ x3:3 x6:6 _:7 r2 _:7 qp",
    "M36": "op _ x3:3 x6:6 _:14 r1 qp",
    "M38": "op _ x3:3 x6:6 r3 r2 r1 qp",
    "M39": "op _ x3:3 x6:6 r3 _:5 i2b:2 r1 qp",
    "M40": "op _ x3:3 x6:6 r3 _:5 i2b:2 _:7 qp",
    "M41": "op _ x3:3 x6:6 _:7 r2 _:7 qp",
    "M42": "op _ x3:3 x6:6 r3 r2 _:7 qp",
    "M43": "op _ x3:3 x6:6 r3 _:7 r1 qp",
    "M44": "op i x3:3 i2d:2 x4:4 imm21a:21 qp",
    "M45": "op _ x3:3 x6:6 r3 r2 _:7 qp",
    "M46": "op _ x3:3 x6:6 r3 _:7 r1 qp",
    "M47": "op _ x3:3 x6:6 r3 _:14 qp",
    "B4": "op _ d wh:2 x6:6 _:11 b2 p _:3 btype:3 qp",
    "B6": "op s ih t2e:2 imm20b:20 timm7a:7 _ wh:2 _:3",
    "B7": "op _ ih t2e:2 x6:6 _:11 b2 timm7a:7 _ wh:2 _:3",
    "B8": "op _:4 x6:6 _:27",
    "F1": "op x sf:2 f4 f3 f2 f1 qp",
    "F2": "op x x2:2 f4 f3 f2 f1 qp",
    "F3": "op x _:2 f4 f3 f2 f1 qp",
    "F4": "op rb sf:2 ra p2 f3 f2 ta p1 qp",
    "F5": "op _:2 fc2:2 p2 fclass7c:7 f2 ta p1 qp",
    "F6": "op q sf:2 x p2 f3 f2 f1 qp",
    "F7": "op q sf:2 x p2 f3 _:7 f1 qp",
    "F8": "op _ sf:2 x x6:6 f3 f2 f1 qp",
    "F9": "op _:3 x x6:6 f3 f2 f1 qp",
    "F10": "op _ sf:2 x x6:6 _:7 f2 f1 qp",
    "F11": "op _:3 x x6:6 _:7 f2 f1 qp",
    "F12": "op _ sf:2 x x6:6 omask7c:7 amask7b:7 _:7 qp",
    "F13": "op _ sf:2 x x6:6 _:21 qp",
    "F14": "op s sf:2 x x6:6 _ imm20a:20 qp",
    "F16": "op i _:2 x x6:6 y imm20a:20 qp",
    "X3": "op i d wh:2 imm20b:20 p _:3 btype:3 qp",
    "X4": "op i d wh:2 imm20b:20 p _:3 b1 qp",
    "X5": "op i _:2 x x6:6 y imm20a:20 qp",
}

# The lowest bit of each operand, which is the same in all formats.
PLACES = {"r1": 6, "r2": 13, "r3": 20, "f1": 6, "f2": 13, "f3": 20, "f4": 27, "p1": 6, "p2": 27, "b1": 6, "b2": 13, "qp": 0}


def operand(name, word):
    """The number of the register that is an operand."""
    return word >> PLACES[name] & (1 << WIDTHS[name]) - 1


class Pattern:
    """The words of a format whose fields have these values: `op 8, x2b 1-3/5`, all numbers hexadecimal."""

    def __init__(self, layout, text):
        self.fields: Dict[str, Tuple[int, int]] = {}                   # lowest bit and width
        self.blank = 0                                                 # a mask
        self.lay_out(layout)
        self.mask = self.fixed = 0                                     # of the fields that have one value
        self.choices: List[Tuple[int, int, FrozenSet[int]]] = []       # of the others: lowest bit, mask and values
        for part in text.split(", "):
            self.fix(*part.split())

    def lay_out(self, layout):
        at = 41
        for part in layout.split():
            name, _, width = part.partition(":")
            bits = int(width) if width else WIDTHS.get(name, 1)
            at -= bits
            if name == "_":
                self.blank |= (1 << bits) - 1 << at
            else:
                self.fields[name] = (at, bits)

    def fix(self, name, values):
        low, bits = self.fields[name]
        numbers = frozenset(values_of(values))
        if len(numbers) == 1:
            self.mask |= (1 << bits) - 1 << low
            self.fixed |= min(numbers) << low
        else:
            self.choices.append((low, (1 << bits) - 1, numbers))

    def has(self, word):
        """Whether the fields have their values; blank bits aren't looked at."""
        return word & self.mask == self.fixed and all(word >> low & mask in values for low, mask, values in self.choices)


def values_of(text):
    for part in text.split("/"):
        first, _, last = part.partition("-")
        yield from range(int(first, 16), int(last or first, 16) + 1)


# ---- The table ------------------------------------------------------------------------------------------------------------

class Effect(Enum):
    """What an instruction does beside reading and writing registers."""
    PLAIN = "nothing"
    NORMAL = "it compares, and writes both predicates where its guard is 1"
    UNC = "it compares, and writes its predicates under each guard"
    AND = "it compares, and can only clear both predicates"
    OR = "it compares, and can only set both predicates"
    OR_ANDCM = "it compares, and can only set the first predicate and clear the second"
    CHECK = "it may go to its target"
    BRANCH = "it goes to its target"
    CALL = "it calls its target"
    CLEAR = "it sets the frame, and has to be the last of its group"
    HINT = "it is an instruction of the profile but for its hint"
    NONE = "nothing stands in for it"


COMPARES = (Effect.NORMAL, Effect.UNC, Effect.AND, Effect.OR, Effect.OR_ANDCM)

# What a row may read and write that the profile has registers for. All else that it names, no stand-in looks at.
SEEN = frozenset(("r1", "r2", "r3", "p1", "p2", "b1"))
UNSEEN = {"f1": "floating-point registers", "f2": "floating-point registers", "f3": "floating-point registers",
          "f4": "floating-point registers", "fpsr": "the floating-point status", "ar.ccv": "ar.ccv", "ar.csd": "ar.csd",
          "ar3": "application registers", "system": "system registers", "b2": "the branch register of a prediction"}


class Row(NamedTuple):
    """An instruction outside the profile, or a family whose completers change nothing that is read or written."""
    format: str                        # the number of its format
    units: str
    mnemonic: str                      # all of a family's, and pseudo-operations too, with `/` between them
    writes: Tuple[str, ...]            # operands, and what else it writes
    reads: Tuple[str, ...]
    effect: Effect
    none: str                          # why nothing stands in for it, or nothing
    pattern: Pattern

    @property
    def unseen(self):
        """What the stand-in doesn't look at, in words."""
        return tuple(dict.fromkeys(UNSEEN[name] for name in self.writes + self.reads if name not in SEEN))

    def is_of(self, word):
        """Whether this is the instruction that a word is. A target is neither r0, nor f0 or f1, which can't be written,
        and two targets of one kind differ."""
        if not self.pattern.has(word) or word & self.pattern.blank:
            return False
        targets = [(name, operand(name, word)) for name in self.writes if name in PLACES]
        return (all(number > {"r": 0, "f": 1}.get(name[0], -1) for name, number in targets)
                and len({(name[0], number) for name, number in targets}) == len(targets))


def row(format_number, text, mnemonic, writes="", reads="", effect=Effect.PLAIN, none=""):
    units = "mi" if format_number[0] == "A" else format_number[0].lower()
    return Row(format_number, units, mnemonic, tuple(writes.split()), tuple(reads.split()), Effect.NONE if none else effect, none,
               Pattern(FORMATS[format_number], text))


INTEGER_LOADS, INTEGER_STORES = "0-17/1B/20-2B", "30-37/3B"
LOADS, PAIR_LOADS, STORES = "0-F/1B/20-27", "1-3/5-7/9-B/D-F/21-23/25-27", "30-33/3B"
IGNORED = "30-3F/70-7F"                # application registers that read as 0, for both units
READ_IN_M = "0-7/10-13/15/18/1A-1E/28/2C/2D/" + IGNORED
WRITTEN_IN_M = "0-7/10/12/13/15/18/1A-1E/28/2C/" + IGNORED
FIRST = "it has to be the first of its group"
LAST = "it has to be the last of its group"

# In the manual's order. A base that is updated is read and written.
ROWS = (
    row("A9", "op 8, x2a 1, za 0, zb 0, x4 0, x2b 1-3", "padd1", "r1", "r2 r3"),
    row("A9", "op 8, x2a 1, za 0, zb 1, x4 0, x2b 1-3", "padd2", "r1", "r2 r3"),
    row("A9", "op 8, x2a 1, za 0, zb 0, x4 1, x2b 1-3", "psub1", "r1", "r2 r3"),
    row("A9", "op 8, x2a 1, za 0, zb 1, x4 1, x2b 1-3", "psub2", "r1", "r2 r3"),
    row("A9", "op 8, x2a 1, za 0, zb 0, x4 2, x2b 2/3", "pavg1", "r1", "r2 r3"),
    row("A9", "op 8, x2a 1, za 0, zb 1, x4 2, x2b 2/3", "pavg2", "r1", "r2 r3"),
    row("A9", "op 8, x2a 1, za 0, zb 0, x4 3, x2b 2", "pavgsub1", "r1", "r2 r3"),
    row("A9", "op 8, x2a 1, za 0, zb 1, x4 3, x2b 2", "pavgsub2", "r1", "r2 r3"),
    row("A10", "op 8, x2a 1, za 0, zb 1, x4 4", "pshladd2", "r1", "r2 r3"),
    row("A10", "op 8, x2a 1, za 0, zb 1, x4 6", "pshradd2", "r1", "r2 r3"),

    row("I1", "op 7, za 0, x2a 0, zb 1, ve 0, x2b 1/3", "pmpyshr2", "r1", "r2 r3"),
    row("I2", "op 7, za 0, x2a 2, zb 1, ve 0, x2c 3, x2b 1/3", "pmpy2", "r1", "r2 r3"),
    row("I2", "op 7, za 0, x2a 2, zb 0, ve 0, x2c 2, x2b 0/2", "mix1", "r1", "r2 r3"),
    row("I2", "op 7, za 0, x2a 2, zb 1, ve 0, x2c 2, x2b 0/2", "mix2", "r1", "r2 r3"),
    row("I2", "op 7, za 1, x2a 2, zb 0, ve 0, x2c 2, x2b 0/2", "mix4", "r1", "r2 r3"),
    row("I2", "op 7, za 0, x2a 2, zb 1, ve 0, x2c 0, x2b 0/2", "pack2", "r1", "r2 r3"),
    row("I2", "op 7, za 1, x2a 2, zb 0, ve 0, x2c 0, x2b 2", "pack4", "r1", "r2 r3"),
    row("I2", "op 7, za 0, x2a 2, zb 0, ve 0, x2c 1, x2b 0/2", "unpack1", "r1", "r2 r3"),
    row("I2", "op 7, za 0, x2a 2, zb 1, ve 0, x2c 1, x2b 0/2", "unpack2", "r1", "r2 r3"),
    row("I2", "op 7, za 1, x2a 2, zb 0, ve 0, x2c 1, x2b 0/2", "unpack4", "r1", "r2 r3"),
    row("I2", "op 7, za 0, x2a 2, zb 0, ve 0, x2c 0, x2b 1", "pmin1", "r1", "r2 r3"),
    row("I2", "op 7, za 0, x2a 2, zb 0, ve 0, x2c 1, x2b 1", "pmax1", "r1", "r2 r3"),
    row("I2", "op 7, za 0, x2a 2, zb 1, ve 0, x2c 0, x2b 3", "pmin2", "r1", "r2 r3"),
    row("I2", "op 7, za 0, x2a 2, zb 1, ve 0, x2c 1, x2b 3", "pmax2", "r1", "r2 r3"),
    row("I2", "op 7, za 0, x2a 2, zb 0, ve 0, x2c 2, x2b 3", "psad1", "r1", "r2 r3"),
    row("I2", "op 7, za 1, x2a 0, zb 0, ve 0, x2c 3, x2b 1", "mpy4", "r1", "r2 r3"),
    row("I2", "op 7, za 1, x2a 0, zb 0, ve 0, x2c 3, x2b 3", "mpyshl4", "r1", "r2 r3"),
    row("I3", "op 7, za 0, x2a 3, zb 0, ve 0, x2c 2, x2b 2, mbt4c 0/8-B", "mux1", "r1", "r2"),
    row("I4", "op 7, za 0, x2a 3, zb 1, ve 0, x2c 2, x2b 2", "mux2", "r1", "r2"),
    row("I5", "op 7, za 0, x2a 0, zb 1, ve 0, x2c 0, x2b 0/2", "pshr2", "r1", "r3 r2"),
    row("I5", "op 7, za 1, x2a 0, zb 0, ve 0, x2c 0, x2b 0/2", "pshr4", "r1", "r3 r2"),
    row("I6", "op 7, za 0, x2a 1, zb 1, ve 0, x2c 0, x2b 1/3", "pshr2", "r1", "r3"),
    row("I6", "op 7, za 1, x2a 1, zb 0, ve 0, x2c 0, x2b 1/3", "pshr4", "r1", "r3"),
    row("I7", "op 7, za 0, x2a 0, zb 1, ve 0, x2c 1, x2b 0", "pshl2", "r1", "r2 r3"),
    row("I7", "op 7, za 1, x2a 0, zb 0, ve 0, x2c 1, x2b 0", "pshl4", "r1", "r2 r3"),
    row("I8", "op 7, za 0, x2a 3, zb 1, ve 0, x2c 1, x2b 1", "pshl2", "r1", "r2"),
    row("I8", "op 7, za 1, x2a 3, zb 0, ve 0, x2c 1, x2b 1", "pshl4", "r1", "r2"),
    row("I9", "op 7, za 0, x2a 1, zb 1, ve 0, x2c 3, x2b 1", "clz", "r1", "r3"),
    row("I16", "op 5, x2 0, tb 1, ta 0, y 0", "tbit", "p1 p2", "r3", Effect.AND),
    row("I16", "op 5, x2 0, tb 0, ta 1, y 0", "tbit", "p1 p2", "r3", Effect.OR),
    row("I16", "op 5, x2 0, tb 1, ta 1, y 0", "tbit", "p1 p2", "r3", Effect.OR_ANDCM),
    row("I17", "op 5, x2 0, tb 1, ta 0, y 1", "tnat", "p1 p2", "r3", Effect.AND),
    row("I17", "op 5, x2 0, tb 0, ta 1, y 1", "tnat", "p1 p2", "r3", Effect.OR),
    row("I17", "op 5, x2 0, tb 1, ta 1, y 1", "tnat", "p1 p2", "r3", Effect.OR_ANDCM),
    row("I26", f"op 0, x3 0, x6 2A, ar3 {IGNORED}", "mov.i", "ar3", "r2"),
    row("I27", f"op 0, x3 0, x6 0A, ar3 {IGNORED}", "mov.i", "ar3"),
    row("I28", f"op 0, x3 0, x6 32, ar3 {IGNORED}", "mov.i", "r1", "ar3"),
    row("I29", "op 0, x3 0, x6 18/1C", "czx1", "r1", "r3"),
    row("I29", "op 0, x3 0, x6 19/1D", "czx2", "r1", "r3"),
    row("I30", "op 5, x2 0, tb 0, ta 0, x 1, y 1, c 0", "tf", "p1 p2", "", Effect.NORMAL),
    row("I30", "op 5, x2 0, tb 0, ta 0, x 1, y 1, c 1", "tf", "p1 p2", "", Effect.UNC),
    row("I30", "op 5, x2 0, tb 1, ta 0, x 1, y 1", "tf", "p1 p2", "", Effect.AND),
    row("I30", "op 5, x2 0, tb 0, ta 1, x 1, y 1", "tf", "p1 p2", "", Effect.OR),
    row("I30", "op 5, x2 0, tb 1, ta 1, x 1, y 1", "tf", "p1 p2", "", Effect.OR_ANDCM),

    row("M1", f"op 4, m 0, x 0, x6 {INTEGER_LOADS}, hint 2, d 0", "ld1/ld2/ld4/ld8", "r1", "r3", Effect.HINT),
    row("M1", f"op 4, m 0, x 0, x6 {INTEGER_LOADS}, d 1", "ld1/ld2/ld4/ld8", "r1", "r3", Effect.HINT),
    row("M1", "op 4, m 0, x 1, x6 28/2C", "ld16", "r1 ar.csd", "r3"),
    row("M4", f"op 4, m 0, x 0, x6 {INTEGER_STORES}, hint 1/2, d 0", "st1/st2/st4/st8", "", "r3 r2", Effect.HINT),
    row("M4", f"op 4, m 0, x 0, x6 {INTEGER_STORES}, d 1", "st1/st2/st4/st8", "", "r3 r2", Effect.HINT),
    row("M4", "op 4, m 0, x 1, x6 30/34", "st16", "", "r3 r2 ar.csd"),
    row("M6", f"op 6, m 0, x 0, x6 {LOADS}", "ldfe/ldf8/ldfs/ldfd/ldf.fill", "f1", "r3"),
    row("M7", f"op 6, m 1, x 0, x6 {LOADS}, hint 0/1/3", "ldfe/ldf8/ldfs/ldfd/ldf.fill", "f1 r3", "r3 r2"),
    row("M8", f"op 7, x6 {LOADS}, hint 0/1/3", "ldfe/ldf8/ldfs/ldfd/ldf.fill", "f1 r3", "r3"),
    row("M9", f"op 6, m 0, x 0, x6 {STORES}", "stfe/stf8/stfs/stfd/stf.spill", "", "r3 f2"),
    row("M10", f"op 7, x6 {STORES}, hint 0/3", "stfe/stf8/stfs/stfd/stf.spill", "r3", "r3 f2"),
    row("M11", f"op 6, m 0, x 1, x6 {PAIR_LOADS}, hint 0/1/3", "ldfp8/ldfps/ldfpd", "f1 f2", "r3"),
    row("M12", f"op 6, m 1, x 1, x6 {PAIR_LOADS}, hint 0/1/3", "ldfp8/ldfps/ldfpd", "f1 f2 r3", "r3"),
    row("M13", "op 6, m 0, x 0, x6 2C-2F, y 0", "lfetch", "", "r3"),
    row("M13 count", "op 6, m 0, x 0, x6 2C, y 1", "lfetch.count", "", "r3"),
    row("M14", "op 6, m 1, x 0, x6 2C-2F", "lfetch", "r3", "r3 r2"),
    row("M15", "op 7, x6 2C-2F", "lfetch", "r3", "r3"),
    row("M16", "op 4, m 0, x 1, x6 0/4, hint 0/1/3", "cmpxchg1", "r1", "r3 r2 ar.ccv"),
    row("M16", "op 4, m 0, x 1, x6 1/5, hint 0/1/3", "cmpxchg2", "r1", "r3 r2 ar.ccv"),
    row("M16", "op 4, m 0, x 1, x6 2/6, hint 0/1/3", "cmpxchg4", "r1", "r3 r2 ar.ccv"),
    row("M16", "op 4, m 0, x 1, x6 3/7, hint 0/1/3", "cmpxchg8", "r1", "r3 r2 ar.ccv"),
    row("M16", "op 4, m 0, x 1, x6 20/24, hint 0/1/3", "cmp8xchg16", "r1", "r3 r2 ar.csd ar.ccv"),
    row("M18", "op 6, m 0, x 1, x6 1C-1F", "setf", "f1", "r2"),
    row("M19", "op 4, m 0, x 1, x6 1C-1F", "getf", "r1", "f2"),
    row("M21", "op 1, x3 3", "chk.s", "", "f2", Effect.CHECK),
    row("M23", "op 0, x3 6/7", "chk.a", "", "", Effect.CHECK),
    row("M24", "op 0, x3 0, x2 2, x4 0", "fwb"),
    row("M24", "op 0, x3 0, x2 2, x4 3", "mf.a"),
    row("M24", "op 0, x3 0, x2 3, x4 0", "srlz.d", "", "system"),
    row("M24", "op 0, x3 0, x2 3, x4 1", "srlz.i", "", "system"),
    row("M24", "op 0, x3 0, x2 3, x4 3", "sync.i"),
    row("M25", "op 0, x3 0, x2 0, x4 C", "flushrs", none=FIRST),
    row("M25", "op 0, x3 0, x2 0, x4 A", "loadrs", none=FIRST),
    row("M27", "op 0, x3 0, x2 1, x4 3", "invala.e"),
    row("M28", "op 1, x3 0, x6 30", "fc", "", "r3"),
    row("M29", "op 1, x3 0, x6 2A, ar3 20", "mov.m", "ar.ccv", "r2"),
    row("M29", "op 1, x3 0, x6 2A, ar3 19", "mov.m", "ar.csd", "r2"),
    row("M29", f"op 1, x3 0, x6 2A, ar3 {WRITTEN_IN_M}", "mov.m", "ar3", "r2"),
    row("M30", "op 0, x3 0, x2 2, x4 8, ar3 20", "mov.m", "ar.ccv"),
    row("M30", "op 0, x3 0, x2 2, x4 8, ar3 19", "mov.m", "ar.csd"),
    row("M30", f"op 0, x3 0, x2 2, x4 8, ar3 {WRITTEN_IN_M}", "mov.m", "ar3"),
    row("M31", "op 1, x3 0, x6 22, ar3 20", "mov.m", "r1", "ar.ccv"),
    row("M31", "op 1, x3 0, x6 22, ar3 19", "mov.m", "r1", "ar.csd"),
    row("M31", f"op 1, x3 0, x6 22, ar3 {READ_IN_M}", "mov.m", "r1", "ar3"),
    row("M32", "op 1, x3 0, x6 2C", "mov", "system", "r2"),
    row("M33", "op 1, x3 0, x6 24", "mov", "r1", "system"),
    row("M35", "op 1, x3 0, x6 29/2D", "mov", "system", "r2"),
    row("M36", "op 1, x3 0, x6 21/25", "mov", "r1", "system"),
    row("M38", "op 1, x3 0, x6 38/39", "probe", "r1", "r3 r2 system"),
    row("M39", "op 1, x3 0, x6 18/19", "probe", "r1", "r3 system"),
    row("M40", "op 1, x3 0, x6 31-33", "probe", "", "r3 system"),
    row("M41", "op 1, x3 0, x6 2E/2F", "itc", "system", "r2", none=LAST),
    row("M42", "op 1, x3 0, x6 0-6", "mov", "system", "r3 r2"),
    row("M42", "op 1, x3 0, x6 0E/0F", "itr", "system", "r3 r2"),
    row("M43", "op 1, x3 0, x6 10-17/20", "mov", "r1", "r3 system"),
    row("M44", "op 0, x3 0, x4 4", "sum", "system"),
    row("M44", "op 0, x3 0, x4 5", "rum", "system"),
    row("M44", "op 0, x3 0, x4 6", "ssm", "system"),
    row("M44", "op 0, x3 0, x4 7", "rsm", "system"),
    row("M45", "op 1, x3 0, x6 9", "ptc.l", "system", "r3 r2"),
    row("M45", "op 1, x3 0, x6 0A", "ptc.g", "system", "r3 r2", none=LAST),
    row("M45", "op 1, x3 0, x6 0B", "ptc.ga", "system", "r3 r2", none=LAST),
    row("M45", "op 1, x3 0, x6 0C/0D", "ptr", "system", "r3 r2"),
    row("M46", "op 1, x3 0, x6 1A", "thash", "r1", "r3 system"),
    row("M46", "op 1, x3 0, x6 1B", "ttag", "r1", "r3 system"),
    row("M46", "op 1, x3 0, x6 1E", "tpa", "r1", "r3 system"),
    row("M46", "op 1, x3 0, x6 1F", "tak", "r1", "r3 system"),
    row("M47", "op 1, x3 0, x6 34", "ptc.e", "system", "r3"),

    row("B4", "op 0, x6 20, btype 1", "br.ia", "", "b2", none="it goes on as code of another instruction set"),
    row("B6", "op 7", "brp"),
    row("B7", "op 2, x6 10/11, wh 0/2", "brp", "", "b2"),
    row("B8", "op 0, x6 2", "cover", effect=Effect.CLEAR),
    row("B8", "op 0, x6 8", "rfi", none="it restores the place, the frame and the status of what was interrupted"),
    row("B8", "op 0, x6 0C/0D", "bsw", none="it changes which registers r16 to r31 are"),
    row("B8", "op 0, x6 10", "epc", none="it reads ar.pfs, and is no return"),
    row("B8", "op 0, x6 18/19", "vmsw", "system"),

    row("F1", "op 8", "fma/fadd/fmpy/fnorm", "f1 fpsr", "f3 f4 f2 fpsr"),
    row("F1", "op 9, x 0", "fma.d/fadd.d/fmpy.d/fnorm.d", "f1 fpsr", "f3 f4 f2 fpsr"),
    row("F1", "op 9, x 1", "fpma/fpmpy", "f1 fpsr", "f3 f4 f2 fpsr"),
    row("F1", "op A", "fms/fsub", "f1 fpsr", "f3 f4 f2 fpsr"),
    row("F1", "op B, x 0", "fms.d/fsub.d", "f1 fpsr", "f3 f4 f2 fpsr"),
    row("F1", "op B, x 1", "fpms", "f1 fpsr", "f3 f4 f2 fpsr"),
    row("F1", "op C", "fnma/fnmpy", "f1 fpsr", "f3 f4 f2 fpsr"),
    row("F1", "op D, x 0", "fnma.d/fnmpy.d", "f1 fpsr", "f3 f4 f2 fpsr"),
    row("F1", "op D, x 1", "fpnma/fpnmpy", "f1 fpsr", "f3 f4 f2 fpsr"),
    row("F2", "op E, x 1, x2 0/2/3", "xma/xmpy", "f1", "f3 f4 f2"),
    row("F3", "op E, x 0", "fselect", "f1", "f3 f4 f2"),
    row("F4", "op 4, ta 0", "fcmp", "p1 p2 fpsr", "f2 f3 fpsr", Effect.NORMAL),
    row("F4", "op 4, ta 1", "fcmp", "p1 p2 fpsr", "f2 f3 fpsr", Effect.UNC),
    row("F5", "op 5, ta 0", "fclass", "p1 p2", "f2", Effect.NORMAL),
    row("F5", "op 5, ta 1", "fclass", "p1 p2", "f2", Effect.UNC),
    row("F6", "op 0, x 1, q 0", "frcpa", "f1 p2 fpsr", "f2 f3 fpsr", Effect.UNC),
    row("F6", "op 1, x 1, q 0", "fprcpa", "f1 p2 fpsr", "f2 f3 fpsr", Effect.UNC),
    row("F7", "op 0, x 1, q 1", "frsqrta", "f1 p2 fpsr", "f3 fpsr", Effect.UNC),
    row("F7", "op 1, x 1, q 1", "fprsqrta", "f1 p2 fpsr", "f3 fpsr", Effect.UNC),
    row("F8", "op 0, x 0, x6 14", "fmin", "f1 fpsr", "f2 f3 fpsr"),
    row("F8", "op 0, x 0, x6 15", "fmax", "f1 fpsr", "f2 f3 fpsr"),
    row("F8", "op 0, x 0, x6 16", "famin", "f1 fpsr", "f2 f3 fpsr"),
    row("F8", "op 0, x 0, x6 17", "famax", "f1 fpsr", "f2 f3 fpsr"),
    row("F8", "op 1, x 0, x6 14", "fpmin", "f1 fpsr", "f2 f3 fpsr"),
    row("F8", "op 1, x 0, x6 15", "fpmax", "f1 fpsr", "f2 f3 fpsr"),
    row("F8", "op 1, x 0, x6 16", "fpamin", "f1 fpsr", "f2 f3 fpsr"),
    row("F8", "op 1, x 0, x6 17", "fpamax", "f1 fpsr", "f2 f3 fpsr"),
    row("F8", "op 1, x 0, x6 30-37", "fpcmp", "f1 fpsr", "f2 f3 fpsr"),
    row("F9", "op 0, x 0, x6 10-12", "fmerge/mov/fabs/fneg/fnegabs", "f1", "f2 f3"),
    row("F9", "op 0, x 0, x6 39-3B", "fmix", "f1", "f2 f3"),
    row("F9", "op 0, x 0, x6 3C/3D", "fsxt", "f1", "f2 f3"),
    row("F9", "op 0, x 0, x6 28", "fpack", "f1", "f2 f3"),
    row("F9", "op 0, x 0, x6 34-36", "fswap", "f1", "f2 f3"),
    row("F9", "op 0, x 0, x6 2C", "fand", "f1", "f2 f3"),
    row("F9", "op 0, x 0, x6 2D", "fandcm", "f1", "f2 f3"),
    row("F9", "op 0, x 0, x6 2E", "for", "f1", "f2 f3"),
    row("F9", "op 0, x 0, x6 2F", "fxor", "f1", "f2 f3"),
    row("F9", "op 1, x 0, x6 10-12", "fpmerge/fpabs/fpneg/fpnegabs", "f1", "f2 f3"),
    row("F10", "op 0, x 0, x6 18-1B", "fcvt", "f1 fpsr", "f2 fpsr"),
    row("F10", "op 1, x 0, x6 18-1B", "fpcvt", "f1 fpsr", "f2 fpsr"),
    row("F11", "op 0, x 0, x6 1C", "fcvt.xf", "f1", "f2"),
    row("F12", "op 0, x 0, x6 4", "fsetc", "fpsr", "fpsr"),
    row("F13", "op 0, x 0, x6 5", "fclrf", "fpsr"),
    row("F14", "op 0, x 0, x6 8", "fchkf", "", "fpsr", Effect.CHECK),
    row("F16", "op 0, x 0, x6 1, y 1", "hint.f"),

    row("X3", "op C, btype 0", "brl", "", "", Effect.BRANCH),
    row("X4", "op D", "brl.call", "b1", "", Effect.CALL),
    row("X5", "op 0, x 0, x6 1, y 1", "hint.x"),
)


def index_of(rows):
    """The rows by unit and major opcode, of which each row has one."""
    found: Dict[Tuple[str, int], List[Row]] = {}
    for entry in rows:
        for unit in entry.units:
            found.setdefault((unit, entry.pattern.fixed >> 37), []).append(entry)
    return found


INDEX = index_of(ROWS)
REMEMBERED = 1 << 17                                   # so many words, of which a large program has many more


@functools.lru_cache(maxsize=REMEMBERED)
def row_of(unit, word) -> Optional[Row]:
    """The row of an instruction outside the profile. There is none for the instructions of the profile, for words that no
    instruction has, and for the unit L. That of a long instruction is found by the word of its X slot."""
    return next((entry for entry in INDEX.get((unit, word >> 37), ()) if entry.is_of(word)), None)


# ---- What stands in -------------------------------------------------------------------------------------------------------

class Shape(NamedTuple):
    """Which instruction of the profile stands in for those that write just this, and read no more than this, of what the
    profile has. Its operands stand where theirs do."""
    units: str
    effect: Effect
    writes: str
    reads: str
    unit: str
    word: int                          # with r0 and p0 for its operands


def compare(major, parallel):
    """`cmp.eq p1,p2=r0,r3`, of 64 bits."""
    return major << 37 | parallel << 33


STORE = 4 << 37 | 0x33 << 30                           # st8 [r3]=r2
STORE_AND_UPDATE = 5 << 37 | 0x33 << 30                # st8 [r3]=r2,0
ADD = 8 << 37                                          # add r1=r2,r3
MOVE_TO_NO_PREDICATE = 3 << 33                         # mov pr=r2,0
UNC_BIT = 1 << 12
NO_OPERAND = ""

SHAPES = (
    Shape("m", Effect.PLAIN, "", NO_OPERAND, "m", NOPS["m"]),
    Shape("m", Effect.PLAIN, "", "r3 r2", "m", STORE),
    Shape("m", Effect.PLAIN, "r3", "r3 r2", "m", STORE_AND_UPDATE),
    Shape("m", Effect.PLAIN, "r1", "r3 r2", "m", ADD),
    Shape("m", Effect.CHECK, "", NO_OPERAND, "m", 1 << 37 | 1 << 33),           # chk.s.m r0,target
    Shape("i", Effect.PLAIN, "", NO_OPERAND, "i", NOPS["i"]),
    Shape("i", Effect.PLAIN, "", "r2", "i", MOVE_TO_NO_PREDICATE),
    Shape("i", Effect.PLAIN, "r1", "r3 r2", "i", ADD),
    Shape("if", Effect.NORMAL, "p1 p2", NO_OPERAND, "i", compare(0xE, 0)),
    Shape("if", Effect.UNC, "p1 p2", NO_OPERAND, "i", compare(0xE, 0) | UNC_BIT),
    Shape("f", Effect.UNC, "p2", NO_OPERAND, "i", compare(0xE, 0) | UNC_BIT),
    Shape("i", Effect.AND, "p1 p2", "r3", "i", compare(0xC, 1)),
    Shape("i", Effect.OR, "p1 p2", "r3", "i", compare(0xD, 1)),
    Shape("i", Effect.OR_ANDCM, "p1 p2", "r3", "i", compare(0xE, 1)),
    Shape("f", Effect.PLAIN, "", NO_OPERAND, "f", NOPS["f"]),
    Shape("f", Effect.CHECK, "", NO_OPERAND, "i", 1 << 33),                     # chk.s.i r0,target
    Shape("b", Effect.PLAIN, "", NO_OPERAND, "b", NOPS["b"]),
    # `cover` writes the frame as `clrrrb` does, and both have to be the last of their group.
    Shape("b", Effect.CLEAR, "", NO_OPERAND, "b", 4 << 27),                     # clrrrb
    Shape("x", Effect.PLAIN, "", NO_OPERAND, "x", NOPS["x"]),
    Shape("x", Effect.BRANCH, "", NO_OPERAND, "b", 4 << 37),                    # br.cond.sptk.few target
    Shape("x", Effect.CALL, "b1", NO_OPERAND, "b", 5 << 37),                    # br.call.sptk.few b1=target
)


def shape_of(entry, unit):
    """The shape of a row in a slot of this unit. A row has one where its effect is neither `HINT` nor `NONE`."""
    writes = " ".join(name for name in entry.writes if name in SEEN)
    reads = {name for name in entry.reads if name in SEEN}
    return next(shape for shape in SHAPES if unit in shape.units and shape.effect is entry.effect
                and shape.writes == writes and reads <= set(shape.reads.split()))


def copied(names, word):
    """The operands of a word, in their places."""
    return functools.reduce(lambda found, name: found | operand(name, word) << PLACES[name], names, 0)


class NoStandIn(Exception):
    """Nothing stands in for the instruction of a slot, and why."""

    def __init__(self, slot, entry, why):
        super().__init__(f"slot {slot}: {entry.mnemonic}: {why}")
        self.slot, self.row, self.why = slot, entry, why


@functools.lru_cache(maxsize=REMEMBERED)
def stand_in(unit, word):
    """The unit and the word of what stands in for an instruction that has a row. The displacement of a long branch is left
    out."""
    entry = row_of(unit, word)
    if entry.effect is Effect.HINT:
        hints = [entry.pattern.fields[name] for name in ("hint", "d")]
        return unit, word & ~sum((1 << bits) - 1 << low for low, bits in hints)
    shape = shape_of(entry, unit)
    targets = [name for name in entry.writes if name in SEEN]
    if entry.effect in COMPARES and not any(operand(name, word) for name in targets):
        # What writes no predicate but p0 writes none, and the profile has no such compare.
        return unit, NOPS[unit] | operand("qp", word)
    sources = [name for name in entry.reads if name in SEEN]
    guard = ["qp"] if "qp" in entry.pattern.fields else []
    made = shape.word | copied(targets + sources + guard, word)
    if entry.effect is Effect.CHECK:
        away = displacement(displacement_layout(unit, word), word)
        made = with_displacement(displacement_layout(shape.unit, shape.word), made, away)
    return shape.unit, made


class StoodIn(NamedTuple):
    """A bundle of the profile in the place of another one. Where that has nothing outside the profile, the two are one."""
    bundle: Bundle
    rows: Dict[int, Row]               # of each slot of the old bundle that is outside the profile
    slots: Dict[int, int]             # the slot of the old bundle that each slot of the new one stands for


# An I slot in the place of the F slot of a template.
WITHOUT_F = {0x0C: 0x00, 0x0E: 0x08, 0x1C: 0x10}
LONG, LONG_AS_BRANCH = 0x04, 0x10                      # MLX, and MIB for a branch that isn't long
SHORT_DISPLACEMENTS = range(-(1 << 20), 1 << 20)


def rows_of(bundle):
    """The rows of a bundle's slots outside the profile."""
    units = bundle.units
    found = {slot: row_of(unit, word) for slot, (unit, word) in enumerate(zip(units, bundle.words))}
    return {1 if units[slot] == "x" else slot: entry for slot, entry in found.items() if entry}


def stood_in(bundle) -> StoodIn:
    """The bundle with a stand-in for each slot outside the profile. NoStandIn where there is none for one; a word that no
    instruction has is left as it is."""
    rows = rows_of(bundle)
    slots = {slot: slot for slot in range(2 if bundle.template & ~1 == LONG else 3)}
    made = bundle
    for slot, entry in rows.items():
        if entry.none:
            raise NoStandIn(slot, entry, entry.none)
        if entry.units == "x":
            made = with_long_stand_in(made, entry)
            slots = {slot: min(slot, 1) for slot in range(2 if made.template & ~1 == LONG else 3)}
        else:
            unit, word = stand_in(bundle.units[slot], bundle.words[slot])
            template = WITHOUT_F[made.template & ~1] | made.template & 1 if unit != bundle.units[slot] else made.template
            made = Bundle(template, made.words).with_word(slot, word)
    return StoodIn(made, rows, slots)


def with_long_stand_in(bundle, entry):
    """The bundle with a stand-in for its long instruction: a `nop` in its place, or a branch in another template."""
    _, word = stand_in("x", bundle.words[2])
    if not is_long_branch(bundle):
        return bundle.with_word(2, word)
    away = long_displacement(bundle)
    if away not in SHORT_DISPLACEMENTS:
        raise NoStandIn(1, entry, "its target is too far away")
    return Bundle(LONG_AS_BRANCH | bundle.template & 1,
                  (bundle.words[0], NOPS["i"], with_displacement(Layout.BRANCH, word, away)))
