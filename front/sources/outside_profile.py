"""Instructions outside the profile, by the table of what stands in for them (`stand_ins.ROWS`).

What a verdict asks of one is its row and its operands. So such an instruction becomes a word that has the row's fields and the
operands in their places, and 0, or the first of a row's choices, for all that changes nothing of what is read and written:
completers and numbers. It is no assembler's word. `nop` stands for it in the text, and the word in its place in the code.

A row is that of an instruction if all its registers have a field there, it has as many numbers, and all operands of the row that
an instruction can't leave out are named. Those that it can are f0 and f1 in place of a factor or a sum, and the second of two
predicates.
"""

import functools
import re
from typing import NamedTuple

from front.sources.instructions import NEGATED_KINDS
from front.stand_ins import COMPARES, LAST, PLACES, ROWS, Effect

# What may stand behind a mnemonic's name.
COMPLETERS = frozenset("""
    s d s0 s1 s2 s3 a sa c clr nc acq rel excl fault nt1 nt2 nta sig exp m nm eq lt le gt ge neq nlt nle ngt nge ord unord unc and
    or andcm orcm l r lr nl nr lu hu h u uss sss fx fxu xf xuf trunc ns se z nz i few many sptk spnt dptk dpnt cond call ret loop
    exit imp rw w uus uuu raz d1 d2 d3 d4 d5 d6 d7 0 1
    """.split())
MOVES = ("mov.m", "mov.i")
EFFECTS = {"unc": Effect.UNC, "and": Effect.AND, "or": Effect.OR, "or.andcm": Effect.OR_ANDCM}
TARGETED = (Effect.CHECK, Effect.BRANCH, Effect.CALL)
PARALLEL = re.compile(r"\.(unc|and\.orcm|or\.andcm|andcm|orcm|and|or)(?=\.|$)")

# Registers of the profile by names that tell no number, and application registers.
NUMBERED = {"gp": "r1", "sp": "r12", "tp": "r13", "rp": "b0", **{f"ret{number}": f"r{8 + number}" for number in range(4)}}
APPLICATION = {**{f"k{number}": number for number in range(8)}, "rsc": 16, "bsp": 17, "bspstore": 18, "rnat": 19, "fcr": 21,
               "eflag": 24, "csd": 25, "ssd": 26, "cflg": 27, "fsr": 28, "fir": 29, "fdr": 30, "ccv": 32, "unat": 36, "fpsr": 40,
               "itc": 44, "ruc": 45, "pfs": 64, "lc": 65, "ec": 66}
NAMES = {number: name for name, number in APPLICATION.items()}
FLOATING = re.compile(r"(f|farg|fret)(\d{1,3})", re.A)
OPERAND = re.compile(r"(\[)?([rfpb])(\d+)\]?", re.A)
OF_MEMORY = frozenset(f"M{number}" for number in range(1, 17))         # the formats with an address in brackets
# Fields of numbers; those that begin alike are of one.
NUMBER = re.compile(r"t?imm|count|pos|ct2d|mbt|mht|i2b|omask|amask|fclass")


def outside_register(token):
    """A register that the profile lacks, by the name that is printed, or None."""
    found = FLOATING.fullmatch(token)
    if found:
        number = int(found[2]) + 8 * (found[1] != "f")
        return f"f{number}" if number < (128 if found[1] == "f" else 16) else None
    if re.fullmatch(r"ar\d{1,3}", token, re.A):
        return f"ar.{NAMES[int(token[2:])]}" if int(token[2:]) in NAMES else token
    return token if token[:3] == "ar." and token[3:] in APPLICATION else None


class Outside(NamedTuple):
    """An instruction outside the profile: the kind of its slot, its word, and its text."""
    kind: str
    word: int
    text: str


class Misfit(Exception):
    """An instruction isn't that of a row."""


def outside(mnemonic, guard, left, right, has_target):
    """An instruction of the table, by its operands on both sides of the `=`, or None."""
    for row in rows_of(mnemonic):
        if has_target == (row.effect in TARGETED):
            try:
                word = Filled(row, mnemonic).word(guard, left, right)
            except Misfit:
                continue
            text = printed(row, mnemonic, guard, left, right + ["L"] * has_target)
            return Outside("a" if row.units == "mi" else row.units, word, text)
    return None


def printed(row, mnemonic, guard, left, right):
    """The text of an instruction, as GNU's disassembler has it but for its numbers: with the letter of a move's unit, and the
    status field that a floating-point instruction uses. `L` stands for its target, as in the texts of the proved program."""
    if row.mnemonic in MOVES:
        mnemonic = row.mnemonic
    if "sf" in row.pattern.fields and not re.search(r"\.s[0-3]$", mnemonic):
        mnemonic += ".s0"
    sides = [",".join(side) for side in (left, right) if side]
    return f"{f'({guard}) ' * bool(guard)}{mnemonic} {'='.join(sides)}".rstrip()


@functools.lru_cache(maxsize=4096)
def rows_of(mnemonic):
    """The rows with the longest name that begins a mnemonic, with known completers behind it, and of compares those of its
    kind. A move to or from an application register may lack the letter of its unit."""
    found, longest = [], ""
    for row in ROWS:
        for name in row.mnemonic.split("/") if row.effect is not Effect.HINT and row.none != LAST else ():
            whole = name[:-2] if name in MOVES and mnemonic == "mov" else name
            if mnemonic != whole and not mnemonic.startswith(f"{whole}.") or len(whole) < len(longest):
                continue
            found, longest = (found if len(whole) == len(longest) else []) + [row], whole
    further = mnemonic[len(longest) + 1:]
    if further and not all(word in COMPLETERS for word in further.split(".")):
        return []
    effects = {row.effect for row in found}
    parallel = PARALLEL.search(mnemonic)
    wanted = EFFECTS[NEGATED_KINDS.get(parallel[1], parallel[1])] if parallel else Effect.NORMAL
    return [row for row in found if row.effect not in COMPARES or effects == {Effect.UNC} or row.effect is wanted]


class Filled:
    """A row on its way to the word of an instruction: the values of its fields, and which operands are still to be named."""

    def __init__(self, row, mnemonic):
        self.row, self.is_mirrored = row, ".and.orcm" in mnemonic
        self.fields = {}
        self.reads = [name for name in row.reads if name in PLACES]
        self.writes = [name for name in row.writes if name in PLACES and name not in self.reads]
        known = {*row.reads, *row.writes, "qp"}
        self.others = [name for name in row.pattern.fields if name in PLACES and name not in known]

    def word(self, guard, left, right):
        """The word of the row with these operands."""
        if self.is_mirrored:
            left = left[::-1]
        for operand in left:
            self.take(operand, self.reads if operand[0] == "[" else self.writes, self.row.writes)
        for operand in right:
            self.take(operand, self.reads + self.others, self.row.reads)
        if guard:
            self.set("qp", int(guard[1:]))
        self.require_numbers([*left, *right])
        if any(operand[0] == "[" for operand in [*left, *right]) != (self.row.format in OF_MEMORY):
            raise Misfit
        is_bare = self.reads and not any(name in self.fields for name in self.row.reads)
        if is_bare or {*self.writes} - {"p2"} or any(name[0] != "f" for name in self.reads):
            raise Misfit
        word = self.row.pattern.fixed
        for low, _, values in self.row.pattern.choices:
            word |= min(values) << low
        for name, number in self.fields.items():
            low, bits = self.row.pattern.fields[name]
            word = word & ~((1 << bits) - 1 << low) | number << low
        if not self.row.is_of(word):
            raise Misfit
        return word

    def take(self, operand, names, all_names):
        """Puts a register into the first field for one of its kind; a number goes nowhere."""
        found = OPERAND.fullmatch(operand)
        if found:
            name = next((name for name in names if name[0] == found[2]), None)
            if name is None:
                raise Misfit
            self.set(name, int(found[3]))
        elif operand.startswith("ar") and operand not in all_names:
            self.set("ar3" if "ar3" in all_names else "", APPLICATION[operand[3:]] if operand[2] == "." else int(operand[2:]))

    def set(self, name, number):
        if name not in self.row.pattern.fields or name in self.fields:
            raise Misfit
        self.fields[name] = number
        for names in (self.reads, self.writes, self.others):
            if name in names:
                names.remove(name)

    def require_numbers(self, operands):
        """An instruction has as many numbers as its format, and one more where it is added to an address and is always the
        same. That of a target isn't among these."""
        count = sum(not OPERAND.fullmatch(operand) and operand[:2] != "ar" for operand in operands)
        wanted = {found[0] for found in map(NUMBER.match, self.row.pattern.fields) if found and self.row.effect not in TARGETED}
        is_implied = not wanted and "r3" in self.row.writes and "r2" not in self.row.reads
        if count != len(wanted) + is_implied:
            raise Misfit
