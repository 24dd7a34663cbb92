"""What a slot reads and writes, told by its text.

Of an instruction of the profile the canonical text says nearly all: what stands left of `=` is written, what stands right of it
or in brackets is read, and a base with a number or a register behind its brackets is written too. What no text says is in
`IMPLICIT`. Of the others the rows of `stand_ins` have it.

The checker has its own table, which is proved (`crates/resource_sets`); `front/tests/test_drawing.py` holds this one to it, by
pairs of slots that clash exactly where they should. No verdict rests on what is said here.
"""

import re
import sys
from typing import FrozenSet, Iterable, NamedTuple

from front.stand_ins import Effect, Row, operand

NO_NAMES: FrozenSet[str] = frozenset()


class Accesses(NamedTuple):
    """What an instruction reads and writes: resources by the names that `check` has for them."""
    guard: str                         # its qualifying predicate, or nothing where that is p0
    reads: FrozenSet[str]
    writes: FrozenSet[str]
    seen: FrozenSet[str] = NO_NAMES    # of what it reads, that which it sees as earlier slots of its group wrote it
    unguarded: FrozenSet[str] = NO_NAMES   # that which it reads or writes whatever its qualifying predicate is


class Implicit(NamedTuple):
    """What instructions whose mnemonics begin so read and write beside what their texts say."""
    mnemonic: str
    reads: str
    writes: str


IMPLICIT = (
    Implicit(r"alloc", "cfm", "cfm"),
    Implicit(r"br\.call", "cfm ec", "cfm pfs"),
    Implicit(r"br\.ret", "pfs", "cfm ec"),
    Implicit(r"br\.c(top|exit|loop)", "lc", "lc"),
    Implicit(r"br\.[cw](top|exit)", "ec cfm", "ec cfm p63"),
    Implicit(r"clrrrb", "", "cfm"),
    Implicit(r"st8\.spill", "", "unat"),
    Implicit(r"ld8\.fill", "unat", ""),
)

INSTRUCTION = re.compile(r"(?:\((?P<guard>p\d+)\) )?(?P<mnemonic>\S+)(?: (?P<operands>.*))?$")
REGISTER = re.compile(r"(?<![\w.$])(?:ar\.(unat|pfs|lc|ec)|([rpb]\d+))(?![\w.$])")
BASE = re.compile(r"\[[^]]*\]")
ALL_PREDICATES, PROMISED = range(1, 64), range(1, 16)
ROTATING = range(16, 64)
FIRST_STACKED = {"r": 32, "p": 16, "f": 32}


def registers(text):
    """The registers that a text names, without r0 and p0."""
    names = [found[1] or found[2] for found in REGISTER.finditer(text)]
    return [name for name in names if name not in ("r0", "p0")]


def predicates(numbers: Iterable[int]):
    return {f"p{number}" for number in numbers}


def is_framed(name):
    """Whether what a name means depends on the frame."""
    return name[1:].isdigit() and int(name[1:]) >= FIRST_STACKED.get(name[0], sys.maxsize)


def accesses_of(text):
    """The accesses of an instruction of the profile by its canonical text."""
    found = INSTRUCTION.match(text)
    mnemonic, operands = found["mnemonic"], found["operands"] or ""
    left, equals, right = operands.partition("=")
    if not equals:
        left, right = "", left
    names = set(registers(operands))
    if mnemonic.startswith(("chk.a", "invala")):
        left = right = ""                      # they name a register of which they look at no value
    writes = set(registers(BASE.sub("", left)))
    reads = set(registers(right)) | {name for base in BASE.findall(left) for name in registers(base)}
    if mnemonic.startswith(("ld", "st")) and "," in (right if mnemonic.startswith("st") else BASE.sub("", right)):
        writes |= {name for base in BASE.findall(operands) for name in registers(base)}
    for row in IMPLICIT:
        if re.match(row.mnemonic, mnemonic):
            reads |= set(row.reads.split())
            writes |= set(row.writes.split())
    guard = found["guard"] or ""
    reads |= {guard} - {""}
    if any(map(is_framed, {*names, guard})):
        reads.add("cfm")
    reads |= placed_reads(mnemonic, right)
    writes |= placed_writes(left, right)
    return Accesses(guard, frozenset(reads), frozenset(writes), seen(mnemonic, guard, right, reads),
                    unguarded(mnemonic, guard, reads | writes))


def placed_reads(mnemonic, right):
    """The predicates that are read by their places: all of them, or those of which an entry may promise something."""
    if right == "pr":
        return predicates(ALL_PREDICATES)
    return predicates(PROMISED) if is_indirect(mnemonic, right) else set()


def placed_writes(left, right):
    """The predicates that a move writes by their places."""
    if left == "pr.rot":
        return predicates(ROTATING)
    if left != "pr":
        return set()
    mask = int(right.partition(",")[2], 0)
    return predicates(number for number in ALL_PREDICATES if mask >> min(number, 16) & 1)


def is_indirect(mnemonic, right):
    return mnemonic.startswith("br.") and re.match(r"b\d$", right) is not None


def seen(mnemonic, guard, right, reads):
    """What a branch sees as earlier slots of its group wrote it."""
    if not mnemonic.startswith("br."):
        return NO_NAMES
    names = {guard, right, "pfs"} if mnemonic.startswith("br.ret") else {guard, right}
    if is_indirect(mnemonic, right):
        names |= predicates(PROMISED)
    return frozenset(names & reads)


def unguarded(mnemonic, guard, names):
    always = {guard, "cfm"}
    if ".unc" in mnemonic:
        always |= {name for name in names if name[0] == "p" and name[1:].isdigit()}
    elif re.match(r"br\.w(top|exit)", mnemonic):
        always |= {"ec", "p63"}
    return frozenset(always & names)


# ---- Outside the profile -------------------------------------------------------------------------------------------------

# The numbers of application registers by their names (volume 1, chapter 3).
APPLICATION = {**{number: f"ar.k{number}" for number in range(8)}, 16: "ar.rsc", 17: "ar.bsp", 18: "ar.bspstore", 19: "ar.rnat",
               21: "ar.fcr", 24: "ar.eflag", 25: "ar.csd", 26: "ar.ssd", 27: "ar.cflg", 28: "ar.fsr", 29: "ar.fir", 30: "ar.fdr",
               32: "ar.ccv", 36: "unat", 40: "ar.fpsr", 44: "ar.itc", 45: "ar.ruc", 64: "pfs", 65: "lc", 66: "ec"}
# The registers of a kind that hold constants.
CONSTANTS = {"r": 0, "p": 0, "f": 1, "b": -1}
FILL, SPILL = 0x1B, 0x3B


def accesses_outside(row: Row, word):
    """The accesses of an instruction outside the profile by its row and its word."""
    reads, writes = (set(filter(None, (name_of(row, name, word) for name in names))) for names in (row.reads, row.writes))
    number = operand("qp", word) if "qp" in row.pattern.fields else 0
    guard = f"p{number}" if number else ""
    if row.effect is Effect.CALL:
        reads |= {"cfm", "ec"}
        writes |= {"cfm", "pfs"}
    elif row.effect is Effect.CLEAR:
        writes.add("cfm")
    elif row.effect is Effect.HINT and field(row, "x6", word) in (FILL, SPILL):
        (reads if field(row, "x6", word) == FILL else writes).add("unat")
    if guard:
        reads.add(guard)
    if any(map(is_framed, reads | writes)):
        reads.add("cfm")
    is_branch = row.effect in (Effect.BRANCH, Effect.CALL)
    always = {guard, "cfm", *(name for name in writes if row.effect is Effect.UNC and name[0] == "p")}
    return Accesses(guard, frozenset(reads), frozenset(writes), frozenset({guard} & reads if is_branch else ()),
                    frozenset(always & (reads | writes)))


def field(row, name, word):
    low, bits = row.pattern.fields[name]
    return word >> low & (1 << bits) - 1


def name_of(row, name, word):
    """The register that an operand is, or what else the row names; nothing for one that holds a constant."""
    if name == "ar3":
        number = field(row, name, word)
        return APPLICATION.get(number, f"ar{number}")
    if name == "fpsr":
        return "ar.fpsr"
    if name not in row.pattern.fields:
        return name
    number = operand(name, word)
    return f"{name[0]}{number}" if number > CONSTANTS[name[0]] else ""


# ---- As they are said ----------------------------------------------------------------------------------------------------

SHOWN = {"unat": "ar.unat", "pfs": "ar.pfs", "lc": "ar.lc", "ec": "ar.ec", "cfm": "the frame", "system": "system registers"}
KINDS = "rpbf"
OTHERS = ("unat", "pfs", "lc", "ec", "cfm")


def in_order(names):
    """Names of resources in the order of violations, and behind them those that `check` has no names for."""
    def key(name):
        if name[0] in KINDS and name[1:].isdigit():
            return KINDS.index(name[0]), int(name[1:]), name
        return len(KINDS), OTHERS.index(name) if name in OTHERS else len(OTHERS), name
    return sorted(names, key=key)


def shown(name):
    return SHOWN.get(name, name)
