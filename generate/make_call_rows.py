#!/usr/bin/env python3
"""Makes rows of the program `vectors`: whole calls of `ia64`, and what they have to answer.

  generate/make_call_rows.py            writes its part of `crates/vectors/stdin`, and prints how many rows speak of what
  generate/make_call_rows.py --check    writes nothing, and ends with status 1 where that isn't what it makes, or where the
                                        file has lost rows of any part

It runs in any folder, and needs nothing but Python 3.8 and the files of this repository. The gate calls it with --check.

The head of `crates/vectors/src/main.rt` says what a row is; here, a `Row`. An input or an output is pieces: a text, bytes, or so
many times one.

What is wanted is never the program's own output. The cases that are written here are worked by hand from docs/use/commands.md. It
says how a bundle, an image and a text are made, which status comes, and how much of the input is read then. The others are of
files of this repository. The comment of an example says what `run` or `check` prints, and a text of tests/check/ has its verdict
beside it, both worked by hand. A text of tests/run/ has its state beside it. A model gave that which was written apart, as it
gave the sum of a long trial.

In the last rows one thing is changed on purpose: the status, a byte of the output, a line of it, what is left of the input, or
the call that fails.
"""

import re
import struct
import sys
from pathlib import Path
from typing import Any, NamedTuple, Optional

sys.dont_write_bytecode = True

import vector_rows

ROOT = Path(__file__).resolve().parent.parent

# The most bytes of an input.
INPUT_LIMIT = 16_777_216

# Room for every output here, and how many bytes a call of a stream moves where nothing else is said.
ROOM, STEP = 530_000, 4096

# Orders of which `groups` has one state with every accepted program.
ORDERS = (0, 1, 7, 2**64 - 1)


class Times(NamedTuple):
    """So many times the same text or bytes."""
    count: int
    unit: Any


class Source(NamedTuple):
    """How many bytes a call gives, which call fails, from 0, and how many bytes are left after the call of `ia64`, or
    `FAILS` where the source's next call fails. None stands for what the status says."""
    step: int = STEP
    fault: Optional[int] = None
    left: Any = None


class Sink(NamedTuple):
    """How many bytes there is room for, how many a call takes, and which call fails, from 0."""
    room: int = ROOM
    step: int = STEP
    fault: Optional[int] = None


class Row(NamedTuple):
    """A call, or two where `|` stands between the words, and what it has to answer."""
    words: str
    input: Any
    status: int
    output: Any
    source: Source = Source()
    sink: Sink = Sink()


FAILS = "-"
SLOWLY = {"source": Source(1), "sink": Sink(step=1)}


def pieces_of(parts):
    return [parts] if isinstance(parts, (str, bytes, Times)) else list(parts)


def bytes_of(parts):
    """The bytes of a text, of bytes, of so many times one, or of a list of those."""
    if isinstance(parts, bytes):
        return parts
    if isinstance(parts, str):
        return parts.encode()
    if isinstance(parts, Times):
        return parts.count * bytes_of(parts.unit)
    return b"".join(map(bytes_of, parts))


def written_piece(piece):
    """A piece as a row has it: a text where no sign of it means something else there, and else digits."""
    if isinstance(piece, Times):
        return f"{piece.count}*{bytes_of(piece.unit).hex()}"
    data = bytes_of(piece)
    if all(byte == 10 or 32 <= byte < 127 and byte not in b"\\~" for byte in data):
        return '"' + data.decode().replace("\n", "\\")
    return data.hex()


def written(parts):
    """Pieces as a row has them."""
    return "~".join(map(written_piece, pieces_of(parts)))


def left_of(row):
    """How many bytes of its input a call leaves, where no call of the source fails."""
    length = len(bytes_of(row.input))
    if row.status == 2 or row.words.startswith("trial"):
        return length
    return length - INPUT_LIMIT - 1 if row.status == 4 else 0


def line_of(row):
    """A row of the file."""
    def call(fault):
        return "-" if fault is None else str(fault)
    step, fault, left = row.source
    source = f"{step} {call(fault)} {left_of(row) if left is None else left}"
    sink = f"{row.sink.room} {row.sink.step} {call(row.sink.fault)}"
    columns = row.words, str(row.status), source, sink, written(row.input), written(row.output)
    return "call " + "\t".join(columns)


# Bundles, in the order of their bytes: bit 0 is the lowest of the first one.

# Three `nop`, with a stop behind them and without one.
NOPS = bytes.fromhex("01000000010000000002000000000400")
OPEN = bytes.fromhex("00000000010000000002000000000400")

# `nop.m 0`, `add r8=r9,r10`, `add r11=r8,r9` and a stop.
CLASH = bytes.fromhex("01000000010080482800406081480080")

# A reserved template.
RESERVED = bytes([6]) + bytes(15)

# Two `nop`, a word that no instruction has, and a stop.
UNLISTED = bytes.fromhex("0100000001000000000280ffffffffff")

# `nop.m 0`, `nop.i 0`, a branch to the next bundle, and a stop.
BRANCH = bytes.fromhex("11000000010000000002000010000040")

# `cmp.eq p6,p7=r0,r0`, two `nop` and a stop.
COMPARE = bytes.fromhex("01300000073800000002000000000400")

# `nop.m 0`, `(p6) mov r8=1`, `(p7) mov r8=2` and a stop.
EITHER = bytes.fromhex("01000000018081080000c80321000090")

# Three bundles that land on a fourth by `b6`, with p6 and p7 both 1: `movl r9=0x10030`, `mov b6=r9` and
# `cmp.eq.or p6,p7=r8,r10`, `br.cond b6`, and a `break`.
LANDING = bytes.fromhex(
    "05000000010000000000002001230060"
    "0100000001006048048003c080501cd1"
    "11000000010000000002000060008000"
    "11000000010000000002000000000000")


def head(version, bundles, entries=0, data=0, relations=0):
    """The head of an image."""
    return [f"IA64IMG{version}", struct.pack("<4I", bundles, entries, data, relations)]


def image(version, count, bundle):
    """The image of so many times a bundle."""
    return [*head(version, count), Times(count, bundle) if count > 1 else bundle]


def numbers(*values):
    """Numbers of four bytes each."""
    return struct.pack(f"<{len(values)}I", *values)


def relation(bundle, lower, higher, *zeros):
    """A relation, with two bytes that are zero where nothing else is said."""
    return struct.pack("<I4B", bundle, lower, higher, *(zeros or (0, 0)))


def promising(*relations):
    """The image of the compare and the two moves, of which the second bundle is a declared entry, with these relations."""
    return [*head(2, 2, 1, 0, len(relations)), numbers(1), *relations, COMPARE, EITHER]


# The image of a branch to the next bundle, and of three `nop`.
BRANCHING = [*head(1, 2), BRANCH, NOPS]

# An image of two bundles, of which the second is a declared entry, and of eight bytes of data.
WITH_DATA = [*head(1, 2, 1, 8), numbers(1), NOPS, NOPS, "data of "]

# An image whose declared entry is no bundle from 1 on.
MISPLACED = [*head(1, 1, 1), numbers(1), NOPS]

# The image of the landing, with the promise at the fourth bundle that p6 and p7 aren't both 1.
BROKEN = [*head(2, 4, 1, 0, 1), numbers(3), relation(3, 6, 7), LANDING]

# A text of three `nop` and a stop, as it is shown and as it is listed.
NOPS_TEXT = "{ .mii\n  nop.m 0x0\n  nop.i 0x0\n  nop.i 0x0 ;;\n}\n"
NOPS_LIST = "0 01000000010000000002000000000400 mii\n  nop.m 0x0\n  nop.i 0x0\n  nop.i 0x0 ;;\n"

# The canonical text of the bundle whose second sum reads what the first writes, and its verdict.
CLASH_TEXT = "{ .mii\n  nop.m 0x0\n  add r8=r9,r10\n  add r11=r8,r9 ;;\n}\n"
CLASH_VERDICT = "violations 1\nRAW r8 0.1 0.2\n"

# Two writes of one register, of which `run` shows no state, and their verdict.
TWO_WRITES_TEXT = "{ .mii\nadds r14=1,r0\nadds r14=2,r0\nnop.i 0 ;;\n}\n"
TWO_WRITES = "violations 1\nWAW r14 0.0 0.1\n"

# Two writes of one register, under predicates of which one is 0.
EXCUSED_TEXT = """{ .mii
cmp.eq p6,p7=r0,r0
nop.i 0
nop.i 0 ;;
}
{ .mii
nop.m 0
(p6) mov r8=1
(p7) mov r8=2 ;;
}
"""

# What breaks two rules, on general registers, predicates, a branch register, UNAT and the frame, and its verdict.
RULES_TEXT = """{ .mii
cmp.eq p6,p7=r0,r0
(p6) mov r8=1
(p7) mov r8=2
}
{ .mii
alloc r32=ar.pfs,0,1,0,0
mov b6=r8
mov r9=b6 ;;
}
{ .mmi
mov.m ar.unat=r10
mov.m r11=ar.unat
nop.i 0
}
"""
RULES = """violations 7
RAW p6 0.0 0.1
RAW p7 0.0 0.2
ALLOC cfm 0.2 1.0
RAW r8 0.1 1.1
RAW r8 0.2 1.1
RAW b6 1.1 1.2
RAW unat 2.0 2.1
"""

# A label again, before a bundle that is open at the end.
TWICE_TEXT = "{ .mii\nnop.m 0\nnop.i 0\nnop.i 0 ;;\n}\nx:\nx:\n{"

# Relations behind the last bundle.
UNRELATED_TEXT = '{ .mii\nnop.m 0\nnop.i 0\nnop.i 0 ;;\n}\n.pred.rel "mutex",p6,p7\n'

# A sum whose value `break` leaves, and its end.
BREAK_TEXT = "{ .mii\nnop.m 0\nadds r8=-1,r0 ;;\nbreak.i 5\n}\n"

# Three `nop` and a word of data.
DATA_TEXT = "{ .mii\nnop.m 0\nnop.i 0\nnop.i 0 ;;\n}\n.data\ndata8 1\n"

# A return that finds no frame below, in the second of two groups.
RETURN_TEXT = "{ .mii\nnop.m 0\nadds r9=129,r0\nnop.i 0 ;;\n}\n{ .mib\nnop.m 0\nmov.i ar.pfs=r9\nbr.ret b0 ;;\n}\n"


def state(end, groups, *lines, frame="0 sof 0 sol 0 sor 0 rrb 0 0 0", rse="0 0 0 0", pr=1, below=()):
    """A printed state: registers, the predicates, and what stands below them."""
    return "".join(f"{text}\n" for text in (
        f"end {end}", f"groups {groups}", f"frame {frame}", f"rse {rse}", *lines, f"pr {pr:016x}", *below))


FELL_OFF = state("fault FellOff at 0.2", 1)
FELL_OFF_WITH_DATA = state("fault FellOff at 0.2", 1, below=["m 0000000000100000 0000000000000001"])
AT_LIMIT = state("limit at 1.0", 1)
AT_BREAK = state("break 0x5 at 0.2", 2, "r8 ffffffffffffffff")
UNDERFLOW = state("fault Underflow at 1.2", 2, "r9 0000000000000081", below=["ar.pfs 0000000000000081"])
SECOND_WRITE = state("fault FellOff at 0.2", 1, "r14 0000000000000002")
FIRST_WRITE = state("fault FellOff at 0.2", 1, "r14 0000000000000001")
BAD_RELATION = state("fault BadRelation at 2.2", 3, "r9 0000000000010030", pr=0xC1, below=["b6 0000000000010030"])

# A software-pipelined loop of two stages and four turns, and the state that it ends in.
PIPELINED_TEXT = """{ .mii
alloc r8=ar.pfs,0,8,0,8
mov.i ar.lc=3
mov.i ar.ec=2 ;;
}
{ .mii
nop.m 0
mov pr.rot=65536
nop.i 0 ;;
}
loop:
{ .mib
(p16) adds r32=1,r33
(p17) adds r10=1,r10
br.ctop loop ;;
}
{ .mib
nop.m 0
nop.i 0
break.b 0 ;;
}
"""
PIPELINED = state(
    "break 0x0 at 3.2", 8, "r10 0000000000000004", "r34 0000000000000004", "r35 0000000000000003",
    "r36 0000000000000002", "r37 0000000000000001",
    frame="0 sof 8 sol 8 sor 1 rrb 3 91 43", rse="0 8 0 0", pr=0xE000000000010001)

# A call that adds the words of a table, as a compiler writes it, and the state after the sum.
SUM_TEXT = """.global main#
.proc main#
main:
{ .mlx
  alloc r32 = ar.pfs, 0, 1, 2, 0
  movl r33 = table ;;
}
{ .mib
  mov r34 = 4
  nop.i 0
  br.call.sptk.many b0 = sum# ;;
}
{ .mib
  nop.m 0
  nop.i 0
  break.b 0 ;;
}
sum:
{ .mii
  alloc r34 = ar.pfs, 2, 3, 0, 0
  mov r35 = b0
  mov r8 = 0 ;;
}
{ .mii
  adds r36 = -1, r33
  nop.i 0
  nop.i 0 ;;
}
{ .mii
  nop.m 0
  mov ar.lc = r36
  nop.i 0 ;;
}
loop:
{ .mii
  ld8 r14 = [r32], 8
  nop.i 0
  nop.i 0 ;;
}
{ .mib
  add r8 = r8, r14
  nop.i 0
  br.cloop.sptk.few loop ;;
}
{ .mii
  nop.m 0
  mov ar.pfs = r34
  mov b0 = r35 ;;
}
{ .mib
  nop.m 0
  nop.i 0
  br.ret.sptk.many b0 ;;
}
.data
table:
  data8 10, 20, 30, 40
"""
SUM = state(
    "break 0x0 at 2.2", 16, "r8 0000000000000064", "r14 0000000000000028", "r33 0000000000100020",
    "r34 0000000000000004", frame="0 sof 3 sol 1 sor 0 rrb 0 0 0", rse="0 3 0 0", below=[
        "b0 0000000000010020", "ar.pfs c000000000000083",
        "m 0000000000100000 000000000000000a", "m 0000000000100008 0000000000000014",
        "m 0000000000100010 000000000000001e", "m 0000000000100018 0000000000000028"])

# A sum of a sum: a stop is needed between the two. It in a bundle, with the reason of its stop.
LOOSE_SUMS = "add r8=r9,r10\nadd r11=r8,r9\nbreak.i 0\n"
PACKED_SUMS = "{ .mmi\n  add r8=r9,r10 ;;\n  add r11=r8,r9\n  break.i 0x0\n}\n// 0.0 RAW r8 0.0 0.1\n"

# The same sums with a stop that is written behind them, and they in bundles.
STOPPED_SUMS = "add r8=r9,r10\nadd r11=r8,r9 ;;\nbreak.i 0\n"
PACKED_STOPPED_SUMS = """{ .mii
  add r8=r9,r10
  nop.i 0x0 ;;
  add r11=r8,r9 ;;
}
{ .mii
  nop.m 0x0
  break.i 0x0
  nop.i 0x0
}
// 0.1 RAW r8 0.0 0.2
// 0.2 written
"""

# Two moves under the two predicates of a compare, of which one alone is 1, and a return. They in bundles: the moves need a
# stop behind the compare, and none between them.
LOOSE_MOVES = "cmp.eq p6,p7=r0,r0\n(p6) mov r8=1\n(p7) mov r8=2\nbr.ret b0\n"
PACKED_MOVES = """{ .mmi
  cmp.eq p6,p7=r0,r0 ;;
  (p6) addl r8=1,r0
  (p7) addl r8=2,r0
}
{ .mib
  nop.m 0x0
  nop.i 0x0
  br.ret.sptk.few b0
}
// 0.0 RAW p6 0.0 0.1
"""

# A canonical text: a stop inside a bundle, a declared entry, relations of it and of bundle 0, a target, a long
# instruction, a predicate and nine words of data.
WHOLE_TEXT = """L0:
.pred.rel "mutex",p1,p15
{ .mii
  add r4=r5,r6
  nop.i 0x0 ;;
  nop.i 0x0
}
.entry L1
L1:
.pred.rel "mutex",p6,p7
.pred.rel "mutex",p6,p8
{ .mlx
  nop.m 0x1
  movl r7=0xfedcba9876543210 ;;
}
{ .mib
  nop.m 0x0
  nop.i 0x0
  (p6) br.cond.dpnt.many.clr L0 ;;
}
.data
data8 0x1,0x0,0x0,0x0,0x0,0x0,0x0,0xff00000000000000
data8 0x123456789abcdef
"""


def trial(seed, bundles, total=0):
    """What a trial prints whose registers have this sum."""
    return (f"trial {seed} {bundles}\naccepted\nend break 0x0 at {bundles - 1}.2\ngroups {bundles}\n"
            f"sum {total:016x}\n")


TRIAL = trial(1, 1)


def commands():
    """Outputs of commands on small inputs."""
    yield Row("check", image(1, 1, NOPS), 0, "accepted\n")
    yield Row("check", BRANCHING, 0, "accepted\n")
    yield Row("check", CLASH_TEXT, 1, CLASH_VERDICT)
    yield Row("check", EXCUSED_TEXT, 0, "accepted\n")
    yield Row("check", RULES_TEXT, 1, RULES)
    yield Row("check", "{ .mii", 3, "line 2: misplaced\n")
    yield Row("check", "", 3, "line 1: empty\n")
    yield Row("build", CLASH_TEXT, 0, image(1, 1, CLASH))
    yield Row("build", TWICE_TEXT, 3, "line 7: twice\n")
    yield Row("build", "{ .mii\nbr x", 3, "line 2: slot kind\n")
    yield Row("build", "", 3, "line 1: empty\n")
    yield Row("build", UNRELATED_TEXT, 3, "line 6: relation\n")
    yield Row("build", '.pred.rel "mutex",p6,p16\n', 3, "line 1: range\n")
    yield Row("show", image(1, 1, CLASH), 0, CLASH_TEXT)
    yield Row("show", "", 3, "image: short\n")
    yield Row("list", image(1, 1, NOPS), 0, NOPS_LIST)
    yield Row("list", "", 3, "image: short\n")


def refused_images():
    """Images that are none."""
    # An input of 16,777,216 bytes is read.
    yield Row("check", [*head(1, 1), Times(1_048_574, NOPS), "8 bytes."], 3, "image: length\n")
    yield Row("check", "IA64IMG1", 3, "image: short\n")
    yield Row("check", "IA64IMG1 has 23 bytes..", 3, "image: short\n")
    yield Row("check", [*head(1, 0), NOPS], 3, "image: counts\n")
    yield Row("check", [*head(1, 1, 0, 0, 1), NOPS], 3, "image: counts\n")
    yield Row("check", image(1, 4097, NOPS), 3, "image: counts\n")
    yield Row("check", image(2, 32_769, NOPS), 3, "image: counts\n")
    yield Row("check", [*head(1, 1), "bundle"], 3, "image: length\n")
    yield Row("check", MISPLACED, 3, "image: entry 0\n")
    yield Row("check", image(1, 1, RESERVED), 3, "image: bundle 0: template\n")
    yield Row("check", image(1, 1, UNLISTED), 3, "image: bundle 0 slot 2: unlisted\n")
    yield Row("check", image(1, 1, BRANCH), 3, "image: bundle 0 slot 2: target\n")


def wraps():
    """Bare bundles."""
    yield Row("wrap", NOPS, 0, image(1, 1, NOPS))
    yield Row("wrap", Times(4096, NOPS), 0, image(1, 4096, NOPS))
    yield Row("wrap", [BRANCH, NOPS], 0, BRANCHING)
    yield Row("wrap", "", 3, "image: counts\n")
    yield Row("wrap", Times(4097, NOPS), 0, image(2, 4097, NOPS))
    yield Row("wrap", Times(32_768, NOPS), 0, image(2, 32_768, NOPS))
    yield Row("wrap", Times(32_769, NOPS), 3, "image: counts\n")
    yield Row("wrap", [NOPS, "!"], 3, "image: length\n")
    yield Row("wrap", RESERVED, 3, "image: bundle 0: template\n")
    yield Row("wrap", [Times(32_767, NOPS), RESERVED], 3, "image: bundle 32767: template\n")
    yield Row("wrap", [Times(32_767, NOPS), UNLISTED], 3, "image: bundle 32767 slot 2: unlisted\n")
    yield Row("wrap", [Times(32_767, NOPS), BRANCH], 3, "image: bundle 32767 slot 2: target\n")
    yield Row("wrap", Times(65, OPEN), 3, "image: bundle 64 slot 0: long run\n")


def runs():
    """States at the end of runs, and trials."""
    yield Row("run 1", image(1, 1, NOPS), 9, FELL_OFF)
    yield Row("run 1", image(1, 2, NOPS), 8, AT_LIMIT)
    yield Row("run 10000000", BREAK_TEXT, 0, AT_BREAK)
    yield Row("run 1", DATA_TEXT, 9, FELL_OFF_WITH_DATA)
    yield Row("run 5", TWO_WRITES_TEXT, 1, TWO_WRITES)
    yield Row("run 10", RETURN_TEXT, 9, UNDERFLOW)
    yield Row("run 1", "", 3, "line 1: empty\n")
    yield Row("trial 0 3", "", 0, trial(0, 3))
    yield Row("trial 1 4096", "", 0, trial(1, 4096, 0x9FFFF3D2BF694F98))


def groups():
    """States after groups all at once."""
    # No verdict is made, and the number tells the order.
    yield Row("groups 5 0", TWO_WRITES_TEXT, 9, SECOND_WRITE)
    yield Row("groups 5 1", TWO_WRITES_TEXT, 9, FIRST_WRITE)
    yield Row("groups 1 0", image(1, 2, NOPS), 8, AT_LIMIT)
    yield Row("groups 1 0", "", 3, "line 1: empty\n")
    # What is accepted has one state in every order.
    yield Row("run 100", PIPELINED_TEXT, 0, PIPELINED)
    yield Row("groups 100 7", PIPELINED_TEXT, 0, PIPELINED)
    yield Row("run 1000", SUM_TEXT, 0, SUM)
    yield Row("groups 1000 18446744073709551615", SUM_TEXT, 0, SUM)


# A loop without an end, of a group a turn.
ENDLESS_TEXT = "loop:\n{ .mib\nadds r8=1,r8\nnop 0\nbr.cond.sptk.few loop ;;\n}\n"


def turn(number):
    """The state after so many turns of it."""
    return state("limit at 0.0", number, *[f"r8 {number:016x}"] * (number > 0))


def turns(first, count):
    """What `trace` prints of these turns of it."""
    return turn(first) + "".join(f"{number} 0.0 0.2 taken\n{turn(number)}" for number in range(first + 1, first + count + 1))


def stage(groups, *lines, bases, pr, counts):
    """A state of the pipelined loop, before one of its turns."""
    counters = [f"ar.{name} {value:016x}" for name, value in zip(("lc", "ec"), counts)]
    return state("limit at 2.0", groups, *lines, frame=f"0 sof 8 sol 8 sor 1 rrb {bases}", rse="0 8 0 0", pr=pr, below=counters)


def traces():
    """Groups of a run, and the states round them."""
    # A group that falls through a stop, and one that ends the run. Where the run has no group behind those that are passed over,
    # its end alone is printed.
    begin, between = state("limit at 0.0", 0), state("limit at 0.2", 1, "r8 ffffffffffffffff")
    yield Row("trace 0 1", BREAK_TEXT, 8, f"{begin}1 0.0 0.1 falls\n{between}")
    yield Row("trace 0 2", BREAK_TEXT, 0, f"{begin}1 0.0 0.1 falls\n{between}2 0.2 0.2 ends\n{AT_BREAK}")
    yield Row("trace 0 100", BREAK_TEXT, 0, f"{begin}1 0.0 0.1 falls\n{between}2 0.2 0.2 ends\n{AT_BREAK}")
    yield Row("trace 1 1", BREAK_TEXT, 0, f"{between}2 0.2 0.2 ends\n{AT_BREAK}")
    yield Row("trace 2 1", BREAK_TEXT, 0, AT_BREAK)
    yield Row("trace 10000000 100", BREAK_TEXT, 0, AT_BREAK)
    # The same of a fault, and the data of the state in which a run begins.
    middle = state("limit at 1.0", 1, "r9 0000000000000081")
    yield Row("trace 0 9", RETURN_TEXT, 9, f"{begin}1 0.0 0.2 falls\n{middle}2 1.0 1.2 ends\n{UNDERFLOW}")
    yield Row("trace 2 1", RETURN_TEXT, 9, UNDERFLOW)
    data = state("limit at 0.0", 0, below=["m 0000000000100000 0000000000000001"])
    yield Row("trace 0 1", DATA_TEXT, 9, f"{data}1 0.0 0.2 ends\n{FELL_OFF_WITH_DATA}")
    # Branches that are taken, as many as a trace may have, from the start and from later on; and a rotation.
    for first, count in ((0, 1), (0, 100), (1, 100), (1000, 2)):
        yield Row(f"trace {first} {count}", ENDLESS_TEXT, 8, turns(first, count))
    yield Row("trace 2 2", PIPELINED_TEXT, 8, "".join([
        stage(2, bases="0 0 0", pr=0x10001, counts=(3, 2)), "3 2.0 2.2 taken\n",
        stage(3, "r33 0000000000000001", bases="7 95 47", pr=0x8000000000010001, counts=(2, 2)), "4 2.0 2.2 taken\n",
        stage(4, "r10 0000000000000001", "r33 0000000000000002", "r34 0000000000000001", bases="6 94 46",
              pr=0xC000000000010001, counts=(1, 2))]))
    yield Row("trace 15 100", SUM_TEXT, 0, f"{SUM.replace('break 0x0 at 2.2', 'limit at 2.0').replace('groups 16', 'groups 15')}"
                                           f"16 2.0 2.2 ends\n{SUM}")
    # What isn't accepted isn't run.
    yield Row("trace 0 1", TWO_WRITES_TEXT, 1, TWO_WRITES)
    yield Row("trace 0 1", image(1, 1, CLASH), 1, CLASH_VERDICT)
    yield Row("trace 0 1", "", 3, "line 1: empty\n")


def relations():
    """Relations of an image: where they count, and how they are refused."""
    clash = "violations 1\nWAW r8 1.1 1.2\n"
    yield Row("check", promising(relation(1, 6, 7)), 0, "accepted\n")
    yield Row("check", promising(), 1, clash)
    yield Row("check", promising(relation(1, 6, 8)), 1, clash)
    yield Row("check", promising(relation(0, 6, 7)), 1, clash)
    yield Row("run 9", BROKEN, 9, BAD_RELATION)
    for number, *declared in (
            (0, relation(1, 6, 5)), (0, relation(1, 0, 5)), (0, relation(1, 6, 16)), (0, relation(2, 6, 7)),
            (0, relation(1, 6, 7, 1, 0)), (0, relation(1, 6, 7, 0, 1)),
            # The first one ends in a byte that isn't zero, and the second one doesn't rise; and the other way round.
            (0, relation(1, 6, 7, 1, 0), relation(1, 6, 7)), (0, relation(1, 7, 6), relation(1, 8, 9, 0, 1)),
            (1, relation(1, 6, 7), relation(1, 6, 7)), (1, relation(1, 6, 7), relation(0, 8, 9))):
        yield Row("check", promising(*declared), 3, f"image: relation {number}\n")


def lifts():
    """Images of version 2 of images."""
    related = promising(relation(1, 6, 7))
    yield Row("lift", image(1, 1, NOPS), 0, image(2, 1, NOPS))
    yield Row("lift", image(2, 1, NOPS), 0, image(2, 1, NOPS))
    yield Row("lift", related, 0, related)
    yield Row("lift", image(1, 1, RESERVED), 3, "image: bundle 0: template\n")
    yield Row("lift", CLASH_TEXT, 3, "image: magic\n")
    yield Row("lift", "", 3, "image: short\n")


def stops():
    """Loose texts that are packed."""
    yield Row("stops", LOOSE_SUMS, 0, PACKED_SUMS)
    yield Row("stops", LOOSE_MOVES, 0, PACKED_MOVES)
    yield Row("stops", STOPPED_SUMS, 0, PACKED_STOPPED_SUMS)
    yield Row("stops", "", 3, "line 1: empty\n")
    yield Row("stops", "{ .mii\n", 3, "line 1: misplaced\n")
    yield Row("stops", "br x\nnop 0x200000\n", 3, "line 2: range\n")
    yield Row("stops", file("examples/loose.s"), 0, file("tests/loose/example.packed"))


def texts_that_come_back():
    """Canonical texts, built and shown again, and images, shown and built again."""
    for text in (WHOLE_TEXT, CLASH_TEXT, NOPS_TEXT):
        yield Row("build | show", text, 0, text)
    for whole in (BRANCHING, BROKEN, WITH_DATA, promising(relation(1, 6, 7)), image(2, 4097, NOPS)):
        yield Row("show | build", whole, 0, whole)
    yield Row("show | build", image(2, 1, NOPS), 0, image(1, 1, NOPS))
    yield Row("lift | check", image(1, 1, NOPS), 0, "accepted\n")


def bundle(template, *slots):
    """The text of a bundle, with a stop at its end."""
    return "".join(f"{line}\n" for line in (f"{{ .{template}", *slots[:-1], f"{slots[-1]} ;;", "}"))


def constant(register, value):
    """The text of a bundle that puts a number into a register."""
    return bundle("mlx", "nop.m 0", f"movl r{register}={value:#x}")


# The end of a program.
END = bundle("mib", "nop.m 0", "nop.i 0", "break.b 0")

# Operations on lanes where they carry, wrap, are equal and have signs, and what they give.
LANES = (
    ("padd1", 0x1FF, 0x101, 0x200),
    ("padd2", 0x1FFFF, 0x10001, 0x20000),
    ("padd4", 2**64 - 1, 1, 0xFFFFFFFF00000000),
    ("psub1", 0x0100, 0x0001, 0x01FF),
    ("psub2", 0, 1, 0xFFFF),
    ("psub4", 0, 1 << 32, 0xFFFFFFFF00000000),
    ("pcmp1.eq", 0x00737300, 0x73737373, 0xFFFFFFFF00FFFF00),
    ("pcmp2.eq", 0, 0xFFFF0000FFFF, 0xFFFF0000FFFF0000),
    ("pcmp4.eq", 0x100000002, 0x100000003, 0xFFFFFFFF00000000),
    ("pcmp1.gt", 0x017F, 0x0080, 0xFFFF),
    ("pcmp2.gt", 0x7FFF8000, 0x80007FFF, 0xFFFF0000),
    ("pcmp4.gt", 1 << 63, 1, 0),
)

# Exchanges and fetch-and-adds of words of memory: what a word holds before and after.
IN_MEMORY = (
    ("xchg1 r17=[r16],r15", 0, 0xFF),
    ("xchg8 r17=[r16],r14", 0, 2**64 - 1),
    ("fetchadd8.acq r17=[r16],-4", 3, 2**64 - 1),
    ("fetchadd4.acq r17=[r16],-1", 0x200, 0x1FF),
    ("fetchadd4.acq r17=[r16],-1", 0, 0xFFFFFFFF),
)


def computations():
    """What single operations give."""
    text, lines = "", []
    for register, (operation, first, second, result) in enumerate(LANES, 16):
        text += constant(14, first) + constant(15, second)
        text += bundle("mii", "nop.m 0", f"{operation} r{register}=r14,r15", "nop.i 0")
        lines += [f"r{register} {result:016x}"] * bool(result)
    last = [f"r14 {LANES[-1][1]:016x}", f"r15 {LANES[-1][2]:016x}"]
    groups = 3 * len(LANES)
    yield Row("run 100", text + END, 0, state(f"break 0x0 at {groups}.2", groups + 1, *last, *lines))
    text, words = constant(14, 2**64 - 1) + constant(15, 0x1FF), []
    for address, (operation, _, after) in enumerate(IN_MEMORY):
        text += constant(16, 0x100000 + 8 * address) + bundle("mii", operation, "nop.i 0", "nop.i 0")
        words.append(f"m {0x100000 + 8 * address:016x} {after:016x}")
    text += END + ".data\n" + "".join(f"data8 {before}\n" for _, before, _ in IN_MEMORY)
    groups = 2 + 2 * len(IN_MEMORY)
    yield Row("run 100", text, 0, state(
        f"break 0x0 at {groups}.2", groups + 1, f"r14 {2**64 - 1:016x}", f"r15 {0x1FF:016x}",
        f"r16 {0x100000 + 8 * len(IN_MEMORY) - 8:016x}", below=words))


# Two slots of one group, and the rule that they break.
PAIRS = (
    ("add r8=r9,r9", "add r10=r8,r8", "RAW r8"),
    ("add r127=r9,r9", "add r127=r9,r9", "WAW r127"),
    ("add r127=r9,r9", "add r63=r127,r127", "RAW r127"),
    ("add r8=r9,r9", "add r9=r10,r10", None),
    ("add r72=r9,r9", "add r8=r9,r9", None),
    ("cmp.eq.or p6,p0=r9,r9", "cmp.eq.or p6,p0=r9,r9", None),
    ("cmp.eq.or p6,p0=r9,r9", "cmp.eq.and p6,p0=r9,r9", "WAW p6"),
    ("cmp.eq p6,p0=r9,r9", "(p6) add r8=r9,r9", "RAW p6"),
    ("st8.spill [r12]=r13", "ld8.fill r10=[r11]", None),
    ("st8.spill [r12]=r13", "st8.spill [r12]=r13", None),
)

# A slot under p63 and a loop branch that rotates, in either order, and what they break.
BEFORE_ROTATIONS = bundle("mbb", "nop.m 0", "(p63) {}", "br.ctop.sptk.few x")
BEHIND_ROTATIONS = "{ .mib\nnop.m 0\nnop.i 0\nbr.ctop.sptk.few x\n}\n" + bundle("bbb", "(p63) {}", "nop.b 0", "nop.b 0")
AT_ROTATIONS = (
    (BEFORE_ROTATIONS, "br.cond.sptk.few x", ("WAR63 p63 0.1 0.2",)),
    (BEFORE_ROTATIONS, "nop.b 0", ("WAR63 p63 0.1 0.2",)),
    (BEHIND_ROTATIONS, "br.cond.sptk.few x", ("RAW cfm 0.2 1.0",)),
    (BEHIND_ROTATIONS, "nop.b 0", ("RAW p63 0.2 1.0", "RAW cfm 0.2 1.0")),
)


def verdict(*violations):
    return f"violations {len(violations)}\n" + "".join(f"{line}\n" for line in violations) if violations else "accepted\n"


def pairs():
    """Two slots of one group."""
    for first, second, rule in PAIRS:
        found = [f"{rule} 0.0 0.1"] if rule else []
        yield Row("check", bundle("mmi", first, second, "nop.i 0"), len(found), verdict(*found))
    for text, slot, found in AT_ROTATIONS:
        yield Row("check", "x:\n" + text.replace("{}", slot), 1, verdict(*found))


def loops():
    """What is known of p6 and p7, set before a loop, in it and behind it, where a slot of the loop may take it away and an entry
    may lead into it. Two writes behind all that are on no walk."""
    for within, entry, violations in (
            ("nop.m 0", None, ()),
            ("cmp.eq.or p6,p0=r8,r9", None, ("WAW r10 1.1 1.2", "WAW r10 3.1 3.2")),
            ("nop.m 0", "loop", ("WAW r10 1.1 1.2", "WAW r10 3.1 3.2")),
            ("nop.m 0", "behind", ("WAW r10 3.1 3.2",))):
        moves = bundle("mii", "nop.m 0", "(p6) mov r10=1", "(p7) mov r10=2")
        text = (f".entry {entry}\n" if entry else "") + bundle("mii", "cmp.eq p6,p7=r8,r9", "nop.i 0", "nop.i 0")
        text += "loop:\n" + moves + bundle("mib", within, "nop.i 0", "(p8) br.cond.sptk.few loop")
        text += "behind:\n" + moves + bundle("mib", "nop.m 0", "nop.i 0", "br.cond.sptk.few behind")
        text += bundle("mii", "nop.m 0", "mov r11=1", "mov r11=2")
        yield Row("check", text, int(bool(violations)), verdict(*violations))


def many_violations():
    """A hundred violations are shown."""
    shown = [f"RAW r8 {n}.1 {n}.2\n" for n in range(100)]
    yield Row("check", image(1, 101, CLASH), 1, "".join(["violations 101\n", *shown]))


def other_words():
    """Words that are no command: nothing is read, and nothing is written."""
    slow = {"source": Source(16), "sink": Sink(100, 16)}
    for words in ("run", "run 0", "run 01", "run +5", "run 5x", "run 10000001", "run 5 6", "watch", "watch 0", "watch 10000001",
                  "groups 5", "groups 0 0", "groups 10000001 0", "groups 5 00", "groups 5 18446744073709551616",
                  "groups 5 0 0", "trace", "trace 0", "trace 0 0", "trace 0 101", "trace 01 1", "trace 10000001 1",
                  "trial 1 4097", "check now", "Check", "", 1000 * "w", "wrap " + 1000 * "w"):
        yield Row(words, image(1, 1, NOPS), 2, "", **slow)
    for words in ("run -5", "run 99999999999999999999", "watch 01", "watch +5", "watch 5 6", "Watch 5", "groups", "groups 5 01",
                  "groups 5 +1", "groups 5 -1", "groups 5 1x", "groups 01 0", "trace 1", "trace 00 1", "trace 0 01", "trace -1 1",
                  "trace 0 -1", "trace +0 1", "trace 0 1x", "trace 0 1 1", "Trace 0 1", "trial", "trial 1", "trial 1 0",
                  "trial 1 01", "trial -1 1", "trial 01 1", "trial 18446744073709551616 1", "trial 1 1 1", "build 1",
                  "stops now", "show 1",
                  "list 1", "lift 1", "wrap wrap", "check check", "ia64 check"):
        yield Row(words, image(1, 1, NOPS), 2, "", Source(16, 0, FAILS), Sink(0))


def failing_streams():
    """Each call of the source and of the sink of a check that fails in turn."""
    length = len(TWO_WRITES_TEXT)
    # A call takes a byte, and one more finds the end.
    for call in range(length + 1):
        yield Row("check", TWO_WRITES_TEXT, 5, "", Source(1, call, length - call), Sink(100, 1))
    # A call gives a byte, and those before the one that fails are given.
    for call in range(len(TWO_WRITES)):
        yield Row("check", TWO_WRITES_TEXT, 6, TWO_WRITES[:call], sink=Sink(100, 1, call))
    # No call is made after the end is found, nor after the last byte is given.
    yield Row("check", TWO_WRITES_TEXT, 1, TWO_WRITES, Source(1, length + 1, FAILS), Sink(100, 1, len(TWO_WRITES)))
    # A sink that is full, and one of longer pieces, whose second call fails.
    yield Row("check", TWO_WRITES_TEXT, 6, TWO_WRITES[:10], Source(1), Sink(10, 1))
    yield Row("check", TWO_WRITES_TEXT, 6, TWO_WRITES[:5], Source(1), Sink(100, 5, 1))
    # The input is too long with the byte that call 4096 takes.
    too_long = [Times(INPUT_LIMIT // 256, 256 * "/"), "/"]
    yield Row("check", too_long, 5, "", Source(4096, 4096, 1), Sink(100, 1))
    yield Row("check", too_long, 4, "", Source(4096, 4097, FAILS), Sink(100, 1))
    # `trial` asks no source.
    yield Row("trial 1 1", "", 0, TRIAL, Source(1, 0, FAILS), Sink(100, 1))


def cut_inputs():
    """The first bytes of an image, and then all of them and one more; and the first lines of a text."""
    whole = bytes_of(image(1, 1, NOPS))
    for count in [*range(len(whole)), len(whole) + 1]:
        yield Row("list", (whole + b"\0")[:count], 3, f"image: {'short' if count < 24 else 'length'}\n")
    lines = TWO_WRITES_TEXT.splitlines(keepends=True)
    for count in range(1, 5):
        yield Row("build", "".join(lines[:count]), 3, f"line {count + 1}: misplaced\n")


# A call of each command that gives something.
PLAIN = [
    Row("build", CLASH_TEXT, 0, image(1, 1, CLASH)),
    Row("stops", LOOSE_SUMS, 0, PACKED_SUMS),
    Row("show", image(1, 1, CLASH), 0, CLASH_TEXT),
    Row("list", image(1, 1, NOPS), 0, NOPS_LIST),
    Row("wrap", [BRANCH, NOPS], 0, BRANCHING),
    Row("lift", image(1, 1, NOPS), 0, image(2, 1, NOPS)),
    Row("check", image(1, 1, NOPS), 0, "accepted\n"),
    Row("run 10", RETURN_TEXT, 9, UNDERFLOW),
    Row("watch 10", RETURN_TEXT, 9, UNDERFLOW),
    Row("groups 5 1", TWO_WRITES_TEXT, 9, FIRST_WRITE),
    Row("trace 2 5", RETURN_TEXT, 9, UNDERFLOW),
    Row("trial 1 1", "not read", 0, TRIAL),
]


def slow_streams():
    """Each command with streams whose calls move a byte, with a call that fails and with a full sink."""
    for row in PLAIN:
        length, output = len(bytes_of(row.input)), bytes_of(row.output)
        reads = 0 if row.words.startswith("trial") else length + 1
        # As many calls as there are bytes, one more that finds the end, and none behind the last.
        yield row._replace(**SLOWLY)
        yield row._replace(source=Source(1, reads, FAILS), sink=Sink(step=1, fault=len(output)))
        for call in sorted({0, 1, reads // 2, reads - 1} & set(range(reads))):
            yield row._replace(status=5, output="", source=Source(1, call, length - call))
        # The bytes of the calls before, or as many as there is room for; and a sink without more room than is needed.
        for call in sorted({0, 1, len(output) // 2, len(output) - 1}):
            yield row._replace(status=6, output=output[:call], sink=Sink(step=1, fault=call))
            yield row._replace(status=6, output=output[:call], sink=Sink(room=call))
        yield row._replace(sink=Sink(room=len(output)))


def file(name):
    return (ROOT / name).read_text(encoding="ascii")


def said(text):
    """What the comment of an example says that is printed."""
    return "".join(re.findall(r"^//   (.*\n)", text, re.M))


def examples():
    """Programs of examples/, as their comments say."""
    for name in ("count", "counted_loop", "pipelined_loop", "predicated", "behind_a_call", "call", "deep_recursion",
                 "speculation", "equal_bytes", "lock", "counter"):
        text = file(f"examples/{name}.s")
        yield Row("check", text, 0, "accepted\n")
        yield Row("build | check", text, 0, "accepted\n", **SLOWLY)
        yield Row("build | run 1000", text, 0, said(text))
        yield Row("trace 1000 1", text, 0, said(text))
        for order in ORDERS:
            yield Row(f"groups 1000 {order}", text, 0, said(text))
    for name in ("loop_edge", "swap", "override", "late_alloc"):
        text = file(f"examples/{name}.s")
        for command in ("check", "run 100", "watch 100", "trace 0 100"):
            yield Row(command, text, 1, said(text))
    for name, verdict in (("three_nops", (0, "accepted\n")), ("read_after_write", (1, CLASH_VERDICT))):
        text, whole = file(f"examples/{name}.s"), (ROOT / f"examples/{name}.image").read_bytes()
        yield Row("build", text, 0, whole)
        yield Row("lift", whole, 0, b"IA64IMG2" + whole[8:])
        yield Row("check", text, *verdict)
        yield Row("check", whole, *verdict)
    yield Row("wrap", (ROOT / "examples/three_nops.bundles").read_bytes(), 0, (ROOT / "examples/three_nops.image").read_bytes())
    yield Row("check", file("examples/read_after_write_mended.s"), 0, "accepted\n")


def tries():
    """Texts of tests/run/, whose first lines say for how many groups they are run and with which status that ends. All are
    accepted. And those of tests/check/, with their verdicts."""
    for path in sorted((ROOT / "tests" / "run").glob("*.s")):
        text, ended = file(path), file(path.with_suffix(".state"))
        groups, status = map(int, re.match(r"// run (\d+), status (\d)", text).groups())
        yield Row(f"run {groups}", text, status, ended)
        yield Row(f"build | run {groups}", text, status, ended, **SLOWLY)
        yield Row("check", text, 0, "accepted\n")
        if status != 8:
            yield Row(f"trace {groups} 1", text, status, ended)
        for order in ORDERS:
            yield Row(f"groups {groups} {order}", text, status, ended)
    for path in sorted((ROOT / "tests/check").glob("*.s")):
        text, verdict = file(path), file(path.with_suffix(".verdict"))
        status = 0 if verdict == "accepted\n" else 1
        yield Row("check", text, status, verdict)
        yield Row("build | check", text, status, verdict, **SLOWLY)
        if status:
            yield Row("run 100", text, status, verdict)
            yield Row("watch 100", text, status, verdict)


def refused_texts():
    """Texts that are none, with each reason."""
    for line_number, reason, text in (
            (1, "char", b"nop.i 0 // d\xc3\xa9j\xc3\xa0 vu\n"), (1, "name", "ADD r8=r9,r10\n"),
            (1, "register", "add r8=in0,r10\n"), (1, "number", "adds r8=r9,r10\n"), (1, "range", "adds r8=8192,r9\n"),
            (1, "form", "add r8=r9\n"), (5, "template", "{ .mii\nnop 0 ;;\nnop 0\nnop 0\n}\n"),
            (2, "slot kind", "{ .mii\nbr.ret.sptk.few b0\n"), (2, "twice", "x:\nx:\n"),
            (4, "no label", "{ .mib\nnop 0\nnop 0\nbr.cond.sptk.few x\n}\n"),
            (3, "limit", ".data\n.skip 1048576\ndata1 0\n"), (1, "misplaced", "nop.i 0\n"), (2, "misplaced", "{ .mii\n"),
            (1, "empty", ""), (322, "long run", 65 * "{ .mii\nnop 0\nnop 0\nnop 0\n}\n")):
        for command in ("build", "check", "run 1", "groups 1 0", "trace 0 1"):
            yield Row(command, text, 3, f"line {line_number}: {reason}\n")


def wrong():
    """Rows with one thing changed."""
    plain = Row("check", CLASH_TEXT, 1, CLASH_VERDICT)
    yield plain._replace(status=0)
    yield plain._replace(output=CLASH_VERDICT.replace("0.2", "0.3"))
    yield plain._replace(output=CLASH_VERDICT[:-1])
    yield plain._replace(source=Source(left=1))
    yield plain._replace(source=Source(1, len(CLASH_TEXT), 0))
    yield plain._replace(words="build | check", output="")
    yield plain._replace(sink=Sink(step=1, fault=len(CLASH_VERDICT) - 1))
    yield Row("check now", CLASH_TEXT, 2, "", Source(left=0))


SECTIONS = (commands, refused_images, wraps, runs, groups, traces, relations, lifts, stops, texts_that_come_back, computations,
            pairs, loops, many_violations,
            other_words, failing_streams, cut_inputs, slow_streams, examples, tries, refused_texts)


def rows():
    """The rows, and how many each section has."""
    made = {section.__name__: [line_of(row) for row in section()] for section in SECTIONS}
    made["wrong"] = [f"not {line_of(row)}" for row in wrong()]
    return [row for section in made.values() for row in section], {name: len(section) for name, section in made.items()}


def main():
    made, counts = rows()
    if sys.argv[1:] == ["--check"]:
        stale = vector_rows.stale("call", made)
        print("".join(f"{fault}\n" for fault in stale), end="")
        sys.exit(1 if stale else 0)
    if sys.argv[1:]:
        sys.exit("usage: make_call_rows.py [--check]")
    vector_rows.write("call", made)
    print("\n".join(f"{name}: {count} rows" for name, count in counts.items()))


if __name__ == "__main__":
    main()
