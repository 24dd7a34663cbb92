"""Verdicts on files of code, as `ia64 check FILE..` prints them.

The bundles come of texts, by `ia64 build`; the files round them of the writers. What needs the GNU tools for ia64 is skipped
where they are missing.
"""

import json
import os
import random
import re
import shutil
import struct
import subprocess
import sys
import time
import unittest
import unittest.mock
from pathlib import Path

from front.bundle import NOPS as NOP_WORDS, Bundle, displacement_layout, split, with_displacement
from front.content import read_file
from front.faults import Fault
from front.listing import END
from front.program import Program
from front.tests import case
from front.tests.case import FRONT, HAS_GNU, PROGRAM, asked, needs_gnu
from front.tests.writers import DATA_FLAGS, DIR64, PCREL21B, PCREL21M, PCREL64, READ_ONLY, REL64, Elf

# ---- Files -----------------------------------------------------------------------------------------------


def bundle(names, *slots, stop=True):
    """A bundle's text, with a stop at its end; slots that are left out are `nop`."""
    units = "mx" if names == "mlx" else names
    slots = list(slots) + [f"nop.{unit} 0" for unit in units[len(slots):]]
    return "{ .%s\n%s%s\n}\n" % (names, "\n".join(slots), " ;;" if stop else "")


def writes_twice(offset, function="f"):
    """What is said of WRITES at this offset."""
    places = f"({offset:+#x} slot 1)", f"({offset:+#x} slot 2)"
    return (f"a.o(.text{offset:+#x}): error: {function}: WAW r8: written by 'adds r8=1,r32' {places[0]} "
            f"and by 'adds r8=2,r32' {places[1]}")


RETURN = bundle("mib", "nop.m 0", "nop.i 0", "br.ret.sptk.few b0")
WRITES = bundle("mii", "nop.m 0", "adds r8=1,r32", "adds r8=2,r32")         # WAW r8 of slots 1 and 2
NOPS = bundle("mii")
FLUSHRS = bytes.fromhex("110000000c0000000002000000000020")                 # { .mib flushrs .. ;; }
LFETCH = bytes.fromhex("11000040661900000002000000000020")                  # { .mib lfetch.nta [r32] .. ;; }
FLUSHRS_WORD = f"word {int.from_bytes(FLUSHRS, 'little') >> 5 & (1 << 41) - 1:#013x}"
FLUSHRS_TEXT = "flushrs" if HAS_GNU else FLUSHRS_WORD
FLUSHRS_MNEMONIC = FLUSHRS_TEXT.split(" [")[0]
FIRST = "it has to be the first of its group"                               # why nothing stands in for it


def bundles(text):
    """The bytes of the bundles of a text."""
    image = subprocess.run([PROGRAM, "build"], input=text.encode(), capture_output=True, check=False)
    if image.returncode != 0:
        raise AssertionError(f"{image.stdout} of {text}")
    count, entries = struct.unpack_from("<2I", image.stdout, 8)
    return image.stdout[24 + 4 * entries:24 + 4 * entries + 16 * count]


def one_function(text, name="f"):
    """An object file with a function of this text."""
    elf, code = Elf(), bundles(text) if isinstance(text, str) else text
    elf.symbol(name, elf.section(".text", code), 0, len(code))
    return elf


def many_functions(texts):
    """An object file with a function f0, f1 .. for each text or bytes."""
    parts = [bundles(text) if isinstance(text, str) else text for text in texts]
    elf = Elf()
    section = elf.section(".text", b"".join(parts))
    at = 0
    for number, part in enumerate(parts):
        elf.symbol(f"f{number}", section, at, len(part))
        at += len(part)
    return elf


def member(name, data):
    return head_of_member(name, len(data)) + data + b"\n" * (len(data) % 2)


def head_of_member(name, size):
    return name.ljust(16).encode() + b"0".ljust(32) + str(size).ljust(10).encode() + b"`\n"


def without_counts(lines):
    """The lines of an answer without the table of reasons and the counts at its end."""
    table = "not judged, by the first reason:"
    return lines[:lines.index(table)] if table in lines else lines[:-1]


class Case(case.Case):
    """Calls of `ia64 check`."""

    def call(self, *words, program=None):
        """The status, the lines of standard output, and standard error."""
        self.program = program or PROGRAM
        return self.lines("check", *words)

    def put(self, data, name="a.o"):
        Path(name).write_bytes(data.data() if isinstance(data, Elf) else data)
        return name

    def gives(self, elf, status, *lines, words=()):
        """The tool on this file ends with the status and prints just these lines, before that of the counts."""
        got = self.call(self.put(elf), *words)
        self.assertEqual((got[0], without_counts(got[1]), got[2]), (status, list(lines), ""))
        return got[1][-1]

    def json(self, elf, *words):
        return json.loads("\n".join(self.call(self.put(elf), "--format=json", *words)[1]))


# ---- Tries -----------------------------------------------------------------------------------------------

class Verdicts(Case):
    """What is said of a function by itself."""

    def test_accepted(self):
        self.assertEqual(self.gives(one_function(NOPS + RETURN), 0), "1 accepted, 0 violated, 0 not judged")
        self.gives(one_function(NOPS + RETURN), 0, "a.o(.text+0x0): note: f: accepted", words=["-v"])

    def test_violated(self):
        self.assertEqual(self.gives(
            one_function(NOPS + WRITES + RETURN), 1,
            writes_twice(0x10)),
            "0 accepted, 1 violated, 0 not judged")

    def test_each_rule(self):
        self.gives(one_function(bundle("mii", "ld8 r8=[r32]", "adds r9=1,r8") + RETURN), 1,
                   "a.o(.text+0x0): error: f: RAW r8: written by 'ld8 r8=[r32]' (+0x0 slot 0) and read by 'adds r9=1,r8' (+0x0 slot 1)")
        loop = "x:\n" + bundle("mbb", "nop.m 0", "(p63) br.cond.sptk.few x", "br.ctop.sptk.few x")
        self.gives(one_function(loop + RETURN), 1,
                   "a.o(.text+0x0): error: f: WAR63 p63: read by '(p63) br.cond.sptk.few +0x0' (+0x0 slot 1) "
                   "and written by 'br.ctop.sptk.few +0x0' (+0x0 slot 2)")
        self.gives(one_function(bundle("mmi", "nop.m 0", "alloc r33=ar.pfs,0,8,0,0") + RETURN), 1,
                   "a.o(.text+0x0): error: f: ALLOC cfm: 'alloc r33=ar.pfs,0,8,0,0' (+0x0 slot 1) has to be the first of its group, "
                   "and 'nop.m 0x0' (+0x0 slot 0) stands before it")
        self.gives(one_function(bundle("mbb", "nop.m 0", "clrrrb") + RETURN), 1,
                   "a.o(.text+0x0): error: f: CLEAR cfm: 'clrrrb' (+0x0 slot 1) has to be the last of its group, "
                   "and 'nop.b 0x0' (+0x0 slot 2) stands behind it")

    def test_a_loop_that_loses_what_is_known(self):
        loop = bundle("mii", "nop.m 0", "(p6) adds r8=1,r0", "(p7) adds r8=2,r0") \
            + bundle("mib", "cmp.eq p6,p0=r9,r10", "nop.i 0", "(p8) br.cond.sptk.few x")
        known = bundle("mii", "cmp.eq p6,p7=r9,r10")
        self.gives(one_function(known + "x:\n" + loop + RETURN), 1,
                   "a.o(.text+0x10): error: f: WAW r8: written by '(p6) adds r8=1,r0' (+0x10 slot 1) "
                   "and by '(p7) adds r8=2,r0' (+0x10 slot 2); only by the way back from +0x20 slot 2")
        self.gives(one_function(known + loop + "x:\n" + RETURN), 0)

    def test_more_than_a_hundred_violations(self):
        got = self.call(self.put(one_function(130 * WRITES + RETURN)))
        self.assertEqual((got[0], len(got[1])), (1, 102))
        self.assertTrue(got[1][99].startswith("a.o(.text+0x630): error: f: WAW r8"), got[1][99])
        self.assertEqual(got[1][100], "a.o(.text+0x0): note: f: 30 more violations")

    def test_more_than_a_hundred_violations_in_several(self):
        got = self.call(self.put(many_functions([count * WRITES + RETURN for count in (0, 60, 0, 70, 99, 1, 0, 101)])))
        of = [sum(f": f{number}: WAW" in line for line in got[1]) for number in range(8)]
        self.assertEqual(of, [0, 60, 0, 70, 99, 1, 0, 100])
        self.assertEqual(got[1][-2:], ["a.o(.text+0xed0): note: f7: 1 more violation", "3 accepted, 5 violated, 0 not judged"])

    def test_bundles_on_no_walk(self):
        dead = bundle("mib", "nop.m 0", "nop.i 0", "br.cond.sptk.few x") + WRITES + NOPS + "x:\n" + RETURN
        self.gives(one_function(dead), 0, "a.o(.text+0x0): note: f: 3 of 4 bundles are on a walk; the first that isn't is +0x10")
        self.assertEqual(self.json(one_function(dead))["files"][0]["functions"][0]["on_no_walk"], [0x10])

    def test_falls_out_of_its_end(self):
        self.gives(one_function(NOPS + bundle("mib", "nop.m 0", "nop.i 0", "(p6) br.ret.sptk.few b0", stop=False)), 0,
                   "a.o(.text+0x0): note: f: it falls out of its end, +0x20")
        self.gives(many_functions([bundle("mii", "nop.m 0", "nop.i 0", "adds r8=1,r0", stop=False), WRITES + RETURN]), 1,
                   "a.o(.text+0x0): note: f0: it falls out of its end, +0x10",
                   writes_twice(0x10, "f1"))
        self.gives(one_function(bundle("mib", "nop.m 0", "nop.i 0", "clrrrb", stop=False)), 1,
                   "a.o(.text+0x10): error: f: CLEAR cfm: 'clrrrb' (+0x0 slot 2) has to be the last of its group, "
                   "and what is behind the function, at +0x10, stands behind it",
                   "a.o(.text+0x0): note: f: it falls out of its end, +0x10")
        for last in ("br.ret.sptk.few b6", "br.call.sptk.few b0=b6", "break.b 0"):
            self.gives(one_function(bundle("mib", "nop.m 0", "nop.i 0", last)), 0)

    def test_indirect_branch(self):
        self.gives(one_function(bundle("mib", "nop.m 0", "nop.i 0", "(p6) br.cond.sptk.few b6") + RETURN), 0,
                   "a.o(.text+0x0): note: f: an indirect branch (+0x0 slot 2), and no table of its targets was found")


class Ties(Case):
    """Calls and branches out of a function, and ways into it."""

    FACTS = bundle("mii", "cmp.eq p16,p17=r9,r10")
    TWO = ("(p16) adds r8=1,r0", "(p17) adds r8=2,r0")

    def test_a_call_keeps_the_facts_before_it(self):
        text = self.FACTS + "x:\n" + bundle("mii", "nop.m 0", *self.TWO) \
            + bundle("mib", "nop.m 0", "nop.i 0", "br.call.sptk.few b0=x") + RETURN
        code = bytearray(bundles(text))
        self.gives(one_function(bytes(code)), 1,
                   "a.o(.text+0x10): error: f: WAW r8: written by '(p16) adds r8=1,r0' (+0x10 slot 1) "
                   "and by '(p17) adds r8=2,r0' (+0x10 slot 2); only by the way back from +0x20 slot 2")
        elf = one_function(bytes(code))
        elf.relocation(1, 0x22, PCREL21B, elf.symbol("memcpy", 0, kind=0))
        self.gives(elf, 0)

    def test_a_predicated_call_falls_through(self):
        text = "%s" + bundle("mib", "(p6) adds r8=1,r0", "nop.i 0", "(p8) br.call.sptk.few b0=x", stop=False) \
            + "x:\n" + bundle("mii", "nop.m 0", "(p7) adds r8=2,r0") + RETURN
        for front, status in ((bundle("mii", "cmp.eq p6,p7=r9,r10"), 0), (NOPS, 1)):
            elf = one_function(text % front)
            elf.relocation(1, 0x12, PCREL21B, elf.symbol("memcpy", 0, kind=0))
            self.assertEqual(self.call(self.put(elf))[0], status)

    def test_the_text_of_a_call_names_what_it_calls(self):
        text = "x:\n" + bundle("mib", "nop.m 0", "mov b0=r8", "br.call.sptk.few b0=x") + RETURN
        said = "a.o(.text+0x0): error: f: WAW b0: written by 'mov b0=r8,0' (+0x0 slot 1) and by 'br.call.sptk.few b0=%s' (+0x0 slot 2)"
        self.gives(one_function(text), 1, said % "+0x0")
        for name, addend, text_of_it in (("memcpy", 0, "memcpy"), ("memcpy", 32, "memcpy+0x20"), ("", 0, "outside")):
            elf = one_function(text)
            elf.relocation(1, 2, PCREL21B, elf.symbol(name, 0, kind=0), addend)
            self.gives(elf, 1, said % text_of_it)
        elf = many_functions([text, RETURN])
        elf.relocation(1, 2, PCREL21B, elf.symbol("", 1, kind=3, binding=0), 0x20)
        self.gives(elf, 1, (said % "f1").replace(" f: ", " f0: "))

    def test_a_relocation_within_the_function(self):
        """A branch to a bundle of the function, whose displacement the linker would put in."""
        code = bundles("y:\n" + bundle("mib", "nop.m 0", "nop.i 0", "br.cond.sptk.few y") + NOPS + WRITES + RETURN)
        elf = one_function(code)
        elf.relocation(1, 2, PCREL21B, 1, 0x20)
        self.gives(elf, 1, writes_twice(0x20))
        self.assertEqual(self.json(elf)["files"][0]["functions"][0]["entries"], [])
        self.assertEqual(self.call(self.put(one_function(code)))[0], 0)

    def test_checks(self):
        """Their recovery code is the linker's too: backwards in the function, or outside of it."""
        for slot, slots in ((0, ["chk.s.m r8,y"]), (1, ["nop.m 0", "chk.s.i r8,y"]), (0, ["chk.a.nc r8,y"])):
            code = bundles(bundle("mib", "nop.m 0", "nop.i 0", "br.cond.sptk.few y") + WRITES + RETURN
                           + "y:\n" + bundle("mib", *slots) + RETURN)
            note = "a.o(.text+0x0): note: f: 3 of 5 bundles are on a walk; the first that isn't is +0x10"
            self.gives(one_function(code), 0, note)
            elf = one_function(code)
            elf.relocation(1, 0x30 + slot, PCREL21M, 1, 0x10)
            self.gives(elf, 1, writes_twice(0x10))
            elf = one_function(code)
            elf.relocation(1, 0x30 + slot, PCREL21M, elf.symbol("other", 0, kind=0))
            self.gives(elf, 0, note)

    def test_a_tail_call(self):
        text = bundle("mib", "adds r8=1,r0", "nop.i 0", "br.cond.sptk.few x", stop=False) \
            + "x:\n" + bundle("mii", "adds r8=2,r0") + RETURN
        elf = one_function(text)
        elf.relocation(1, 2, PCREL21B, elf.symbol("exit", 0, kind=0))
        self.gives(elf, 0, "a.o(.text+0x0): note: f: 1 of 3 bundles are on a walk; the first that isn't is +0x10")

    def test_a_branch_between_functions(self):
        """It leaves the one, and is an entry of the other's middle; a call of its start is none."""
        jump = bundle("mib", "nop.m 0", "nop.i 0", "br.cond.sptk.few x")
        elf = many_functions([RETURN, RETURN + WRITES + RETURN, RETURN])
        code = bundles(jump + RETURN + "x:\n" + WRITES + RETURN)
        elf.sections[1] = (*elf.sections[1][:1], code + bundles(RETURN), *elf.sections[1][2:])
        got = self.json(elf)["files"][0]["functions"]
        self.assertEqual([function["verdict"] for function in got], ["accepted", "violated", "accepted"])
        self.assertEqual(got[1]["entries"], [{"offset": 0x20, "why": "branch from outside"}])
        elf = many_functions([RETURN, RETURN + WRITES + RETURN])
        elf.sections[1] = (*elf.sections[1][:1], bundles(jump + "x:\n" + RETURN + WRITES + RETURN), *elf.sections[1][2:])
        self.assertEqual([function["entries"] for function in self.json(elf)["files"][0]["functions"]], [[], []])

    TABLE = bundle("mib", "nop.m 0", "nop.i 0", "br.cond.sptk.few b6") + WRITES + RETURN

    def test_a_jump_table_by_relocation(self):
        for kind in (DIR64, PCREL64, REL64):
            elf = one_function(self.TABLE)
            elf.relocation(elf.section(".rodata", bytes(16), READ_ONLY), 8, kind, elf.symbol("", 1, kind=3, binding=0), 0x10)
            self.gives(elf, 1, "a.o(.text+0x0): note: f: 1 violation",
                       writes_twice(0x10),
                       "a.o(.text+0x0): note: f: declared entries: +0x10 (relocation)", words=["-v"])

    def test_what_is_no_jump_table(self):
        notes = ("a.o(.text+0x0): note: f: 1 of 3 bundles are on a walk; the first that isn't is +0x10",
                 "a.o(.text+0x0): note: f: an indirect branch (+0x0 slot 2), and no table of its targets was found")
        for name, flags, kind, addend in ((".IA_64.unwind", 2, 0x70000001, 0x10), (".IA_64.unwind_info", 2, 1, 0x10),
                                          (".gcc_except_table", 2, 1, 0x10), (".debug_info", 0, 1, 0x10),
                                          (".data", 3, 1, 0), (".data", 3, 1, 0x18), (".data", 3, 1, 0x30)):
            elf = one_function(self.TABLE)
            elf.relocation(elf.section(name, bytes(16), flags, kind), 0, DIR64, elf.symbol("", 1, kind=3, binding=0), addend)
            odd = ["a.o(.text+0x0): note: f: a relocation points into a bundle of it: a table of differences, perhaps, "
                   "whose targets aren't all found"] if addend == 0x18 else []
            self.gives(elf, 0, *notes, *odd)
        self.gives(one_function(self.TABLE), 0, *notes)

    def linked(self, flags, word, kind=2, name=".rodata"):
        """A linked program with code at 0x10000 and a word of data at 0x20000."""
        elf, code = Elf(kind), bundles(self.TABLE)
        elf.symbol("f", elf.section(".text", code, address=0x10000), 0x10000, len(code))
        elf.section(name, struct.pack("<Qq", 0, word), flags, address=0x20000)
        return elf

    def test_a_jump_table_by_value(self):
        for kind in (2, 3):
            for flags, word, status in ((READ_ONLY, 0x10010, 1), (DATA_FLAGS, 0x10010, 1), (READ_ONLY, 0x10010 - 0x20008, 1),
                                        (DATA_FLAGS, 0x10010 - 0x20008, 0), (READ_ONLY, 0x10000, 0), (READ_ONLY, 0x10018, 0),
                                        (READ_ONLY, 0x10030, 0), (0, 0x10010, 0)):
                self.assertEqual(self.call(self.put(self.linked(flags, word, kind)))[0], status, (kind, flags, hex(word)))
        self.assertEqual(self.call(self.put(self.linked(READ_ONLY, 0x10010, name=".eh_frame")))[0], 0)

    def test_a_relocation_of_a_shared_library(self):
        elf = self.linked(DATA_FLAGS, 0, 3)
        elf.relocation(0, 0x20008, REL64, 0, 0x10010)
        self.assertEqual(self.json(elf)["files"][0]["functions"][0]["entries"], [{"offset": 0x10, "why": "relocation"}])

    def test_a_linked_call(self):
        elf = Elf(2)
        code = bundles("x:\n" + bundle("mib", "nop.m 0", "mov b0=r8", "br.call.sptk.few b0=y") + RETURN + "y:\n" + RETURN)
        section = elf.section(".text", code, address=0x4000000000000080)
        elf.symbol("g", section, 0x40000000000000a0, 16)
        elf.symbol("f", section, 0x4000000000000080, 32)
        self.gives(elf, 1, "a.o(.text+0x0): error: f: WAW b0: written by 'mov b0=r8,0' (+0x0 slot 1) "
                           "and by 'br.call.sptk.few b0=g' (+0x0 slot 2)")

    def test_ways_into_the_middle(self):
        """A symbol inside, though it says more bytes than there are, and the entry point and a global label of a linked file:
        nothing is known there of the predicates that the compare before it sets."""
        text = bundle("mii", "cmp.eq p6,p7=r8,r9", "nop.i 0", "nop.i 0") + bundle(
            "mii", "nop.m 0", "(p6) adds r8=1,r0", "(p7) adds r8=2,r0") + RETURN
        elf = one_function(text)
        self.gives(elf, 0)
        elf.symbol("inner", 1, 0x10, 0x1000)
        self.assertEqual(self.call(self.put(elf))[:2], (1, [
            "a.o(.text+0x10): error: f: WAW r8: written by '(p6) adds r8=1,r0' (+0x10 slot 1) and by '(p7) adds r8=2,r0' (+0x10 slot 2)",
            "a.o(.text+0x10): warning: inner: not judged: cut off: it has 0x1000 bytes, and the section ends at +0x30",
            "not judged, by the first reason:", "      1 cut off", "0 accepted, 1 violated, 1 not judged"]))
        start = 0x4000000000000080
        for entry, label, status in ((start, None, 0), (start + 0x10, None, 1), (start, start + 0x10, 1), (start, start, 0)):
            elf, code = Elf(2, entry), bundles(text)
            section = elf.section(".text", code, address=start)
            elf.symbol("f", section, start, len(code))
            if label:
                elf.symbol("l", section, label, kind=0)
            self.assertEqual(self.call(self.put(elf))[0], status, (entry, label))

    def test_a_branch_from_another_section(self):
        code = bundles(bundle("mii", "cmp.eq p6,p7=r8,r9", "nop.i 0", "nop.i 0") + "middle:\n" + bundle(
            "mii", "nop.m 0", "(p6) adds r8=1,r0", "(p7) adds r8=2,r0") + RETURN + bundle("mib", "nop.m 0", "nop.i 0", "br.cond.sptk.few middle"))
        start, last = 0x4000000000000080, len(code) - 16
        elf = Elf(2)
        elf.symbol("f", elf.section(".text", code[:last], address=start), start, last)
        elf.symbol("g", elf.section(".text.g", code[last:], address=start + last), start + last, 16)
        self.assertEqual(self.call(self.put(elf))[1][-1], "1 accepted, 1 violated, 0 not judged")

    def test_system_calls(self):
        text = bundle("mib", "break.m 0x100000") + WRITES + RETURN
        self.gives(one_function(text), 0, "a.o(.text+0x0): note: f: 1 of 3 bundles are on a walk; the first that isn't is +0x10")
        self.assertEqual(self.call("a.o", "--syscalls")[0], 1)
        # It comes back to the slot after it, in its group.
        for slots in (("break.m 0", "adds r8=1,r0", "adds r8=2,r0"), ("adds r8=1,r0", "break.i 0", "adds r8=2,r0")):
            self.put(one_function(bundle("mii", *slots) + RETURN))
            self.assertEqual([self.call("a.o", *words)[0] for words in ((), ("--syscalls",))], [0, 1], slots)
        self.gives(one_function(bundle("mii", "nop.m 0", "cmp.eq p6,p7=r8,r9", "(p6) break.i 0") + RETURN), 1,
                   "a.o(.text+0x0): error: f: RAW p6: written by 'cmp.eq p6,p7=r8,r9' (+0x0 slot 1) and read by '(p6) break.i 0x0' (+0x0 slot 2)")
        for names, *slots in (("mii", "nop.m 0", "nop.i 0", "break.i 5"), ("mfb", "nop.m 0", "break.f 5"),
                              ("mlx", "nop.m 0", "break.x 5"), ("mib", "nop.m 0", "nop.i 0", "break.b 5")):
            elf = one_function(bundle(names, *slots) + WRITES + RETURN)
            self.assertEqual(self.call(self.put(elf), "--syscalls")[0], 1, slots)


def probes(bundle):
    """For each slot of a bundle a bundle that has the slot's instruction there and nops beside it. It stops at its end, and a
    displacement is 0. So the program takes the probe exactly where it takes the slot."""
    nops = Bundle(bundle.template | 1, tuple(NOP_WORDS[unit] for unit in bundle.units))
    for slot, (unit, word) in enumerate(zip(bundle.units, bundle.words)):
        layout = displacement_layout(unit, word)
        yield slot, nops.with_word(slot, with_displacement(layout, word, 0) if layout else word).packed()


class NotJudged(Case):
    """What can't be judged says why."""

    def test_outside_the_profile(self):
        elf = many_functions([RETURN, FLUSHRS + bundles(NOPS) + FLUSHRS + FLUSHRS + bundles(RETURN), WRITES + RETURN])
        self.assertEqual(self.gives(
            elf, 1, f"a.o(.text+0x10): warning: f1: not judged: {FLUSHRS_MNEMONIC} at +0x10 slot 0, and 2 more",
            writes_twice(0x60, "f2")),
            "1 accepted, 1 violated, 1 not judged")
        self.assertEqual(self.call("a.o", "-v")[1][2:5], [
            f"a.o(.text+{at:#x}): note: f1: outside the profile: '{FLUSHRS_TEXT}' (+{at:#x} slot 0): {FIRST}"
            for at in (0x10, 0x30, 0x40)])
        self.assertEqual(self.json(elf)["files"][0]["functions"][1]["unlisted"], [
            {"offset": at, "slot": 0, "text": FLUSHRS_TEXT, "source": None, "why": FIRST} for at in (0x10, 0x30, 0x40)])

    def test_without_a_disassembler(self):
        path = os.environ["PATH"]
        self.addCleanup(os.environ.__setitem__, "PATH", path)
        os.environ["PATH"] = ""
        self.gives(one_function(FLUSHRS + bundles(RETURN)), 0,
                   f"a.o(.text+0x0): warning: f: not judged: {FLUSHRS_WORD} at +0x0 slot 0")

    def test_every_unlisted_slot_is_found(self):
        """Each slot that the program refuses by itself, and no other, in whatever company."""
        draw = random.Random(5)
        words = [draw.getrandbits(41) & ~(0x1F << 36 if draw.random() < .5 else 0) for _ in range(120)] + [1 << 27, 2 << 37]
        code = b""
        for number in range(0, len(words) - 3, 3):
            template = draw.choice((0x01, 0x09, 0x11, 0x13, 0x17, 0x19, 0x0D, 0x1D))
            code += Bundle(template, tuple(words[number:number + 3])).packed()
        wanted = []
        for at in range(0, len(code), 16):
            for slot, probe in probes(split(code[at:at + 16])):
                done = subprocess.run([PROGRAM, "wrap"], input=probe, capture_output=True, check=False)
                if done.returncode == 3:
                    self.assertEqual(done.stdout, f"image: bundle 0 slot {slot}: unlisted\n".encode())
                    wanted.append((at, slot))
        told = self.json(one_function(code))["files"][0]["functions"][0]
        self.assertEqual(sorted((slot["offset"], slot["slot"]) for slot in told["unlisted"] + told["stood_in"]), wanted)
        self.assertGreater(len(wanted), 20)

    def test_many_listed_slots_behind_an_unlisted_one(self):
        listed = bundles("".join(bundle("mii", f"adds r8={number},r32") for number in range(100)))
        self.gives(one_function(FLUSHRS + listed + FLUSHRS + bundles(RETURN)), 0,
                   f"a.o(.text+0x0): warning: f: not judged: {FLUSHRS_MNEMONIC} at +0x0 slot 0, and 1 more")

    def test_a_reserved_template(self):
        code = bundles(NOPS) + FLUSHRS + bytes([0x1E]) + bytes(15) + bytes([0x06]) + bytes(15)
        self.gives(one_function(code), 0, f"a.o(.text+0x0): warning: f: not judged: {FLUSHRS_MNEMONIC} at +0x10 slot 0, and 2 more")
        self.gives(one_function(bundles(NOPS) + bytes([0x1E]) + bytes(15)), 0,
                   "a.o(.text+0x0): warning: f: not judged: reserved template 0x1e at +0x10")

    def test_limits_of_images(self):
        nops = bundles(NOPS)
        self.gives(one_function(32766 * nops + bundles(RETURN)), 0)
        self.gives(one_function(32768 * nops), 0, "a.o(.text+0x0): warning: f: not judged: 32768 bundles, and it may have 32767")
        self.gives(many_functions([RETURN, 65 * bundles(bundle("mii", stop=False)) + bundles(RETURN), WRITES + RETURN]), 1,
                   "a.o(.text+0x10): warning: f1: not judged: more than 192 slots without a stop, up to +0x410 slot 0",
                   writes_twice(0x430, "f2"))
        for count, said in ((1024, []), (1025, ["a.o(.text+0x0): warning: f: not judged: 1025 declared entries, and it may have 1024"])):
            elf = one_function(1026 * nops + bundles(RETURN))
            table = elf.section(".data", bytes(8 * 1025), DATA_FLAGS)
            for entry in range(count):
                elf.relocation(table, 8 * entry, DIR64, 1, 16 * entry + 16)
            self.gives(elf, 0, *said)

    def test_symbols_that_dont_fit(self):
        def function(value, size, said):
            elf, code = Elf(), bundles(NOPS + RETURN)
            elf.symbol("f", elf.section(".text", code), value, size)
            lines = self.call(self.put(elf))[1]
            self.assertIn(f"a.o(.text{value:+#x}): warning: f: not judged: {said}", lines)
        function(8, 16, "its start, +0x8, isn't a multiple of 16")
        function(0, 24, "cut off: its last bundle, +0x10, has 8 bytes")
        function(0, 48, "cut off: it has 0x30 bytes, and the section ends at +0x20")
        function(0x20, 16, "its symbol points out of the section, which has 0x20 bytes")
        function(1 << 63, 1 << 63, "its symbol points out of the section, which has 0x20 bytes")
        elf = Elf()
        elf.symbol("f", elf.section(".text", b"", kind=8, size=0x20), 0, 0x20)
        self.gives(elf, 0, "a.o(.text+0x0): warning: f: not judged: its section has no bytes in the file")
        elf = one_function(bundles(RETURN) + b"12345678")
        self.gives(elf, 0, "a.o(.text+0x0): warning: f: not judged: cut off: its last bundle, +0x10, has 8 bytes")


class Floating(Case):
    """Functions with instructions outside the profile."""

    COMPARE = (1 << 27, 4 << 37 | 9 << 20 | 8 << 13 | 7 << 27 | 6 << 6, 1 << 27)                 # fcmp.eq.s0 p6,p7=f8,f9
    MOVE = (1 << 27, 0x10 << 27 | 9 << 20 | 8 << 13 | 10 << 6, 1 << 27)                          # fmerge.s f10=f8,f9

    def bundle(self, words, template):
        return Bundle(template, words).packed()

    def leaves(self, *words, loop=""):
        """A floating-point compare and a branch under its predicate in one group, in a function with this loop branch."""
        branch = bundles(bundle("mib", "nop.m 0", "nop.i 0", "(p6) br.cond.sptk.few x") + "x:\n" + RETURN)[:16]
        tail = bundles("y:\n" + bundle("mib", "nop.m 0", "nop.i 0", f"{loop} y") + RETURN) if loop else bundles(RETURN)
        return self.bundle(self.COMPARE, 0x0C) + branch + tail

    def test_a_branch_behind_a_floating_point_compare(self):
        for loop in ("", "br.cloop.sptk.few", "br.ctop.sptk.few"):
            got = self.call(self.put(one_function(self.leaves(loop=loop))))
            self.assertEqual((got[0], ": RAW p6: " in got[1][0]), (1, True), loop)

    def test_where_that_cant_be_looked_at(self):
        """It isn't accepted then."""
        text = self.leaves() + bundles(bundle("mib", "nop.m 0", "nop.i 0", "br.ctop.sptk.few x", stop=False) + "x:\n" + RETURN)
        got = self.call(self.put(one_function(text)))
        self.assertEqual(got[1][-1], "0 accepted, 0 violated, 1 not judged")
        self.assertIn("not judged: a branch is under a predicate that a floating-point instruction writes, and it can't be looked "
                      "at: p6, as it rotates registers within a group", got[1][0])

    def test_floating_point_registers(self):
        code = self.bundle(self.MOVE, 0x0C) + self.bundle(self.MOVE, 0x0D) + bundles(RETURN)
        got = self.call(self.put(one_function(code)))
        self.assertEqual((got[0], got[1][0].split(": ")[2:4]), (1, ["f", "WAW f10"]))
        self.assertEqual(self.call("a.o", "--exact")[1][-1], "0 accepted, 0 violated, 1 not judged")

    def test_two_sorts_of_refusal(self):
        """The program tells of a word that no instruction has before it tells of a run that is too long."""
        unknown = self.bundle((1 << 27, 3 << 37, 1 << 27), 0x01)
        got = self.call(self.put(many_functions([RETURN, 65 * bundles(bundle("mii", stop=False)) + bundles(RETURN), unknown,
                                                 WRITES + RETURN, unknown, RETURN])))
        self.assertEqual((got[0], got[1][-1]), (1, "2 accepted, 1 violated, 3 not judged"))


class Symbols(Case):
    """Which functions a file has."""

    def test_several_symbols_at_one_address(self):
        elf, code = Elf(), bundles(WRITES + RETURN)
        section = elf.section(".text", code)
        for name, size, binding in (("local", 32, 0), ("weak", 0, 2), ("wide", 32, 1), ("wider", 32, 1)):
            elf.symbol(name, section, 0, size, binding=binding)
        got = self.json(elf)["files"][0]["functions"]
        self.assertEqual([(function["name"], function["names"], function["size"]) for function in got],
                         [("wide", ["wide", "wider", "weak", "local"], 32)])

    def test_a_symbol_inside_a_function_is_an_entry_of_it(self):
        elf, code = Elf(), bundles(RETURN + WRITES + RETURN)
        section = elf.section(".text", code)
        elf.symbol("f", section, 0, 48)
        elf.symbol("inner", section, 16, 16)
        self.gives(elf, 1, "a.o(.text+0x0): note: f: 1 violation",
                   writes_twice(0x10),
                   "a.o(.text+0x0): note: f: declared entries: +0x10 (function symbol inner)", words=["-v"])

    def test_a_global_label_is_an_entry(self):
        for section, value, kind, binding, status in ((1, 16, 0, 1, 1), (1, 16, 0, 2, 1), (1, 16, 0, 0, 0), (1, 16, 1, 1, 0),
                                                      (1, 8, 0, 1, 0), (0, 16, 0, 1, 0)):
            elf = one_function(RETURN + WRITES + RETURN)
            elf.symbol("label", section, value, 0, kind, binding)
            self.assertEqual(self.call(self.put(elf))[0], status, (section, value, kind, binding))

    def test_symbols_without_sizes(self):
        elf, code = Elf(), bundles(NOPS + RETURN + NOPS + WRITES + RETURN + NOPS + NOPS) + bytes(16)
        section = elf.section(".text", code)
        elf.symbol("g", section, 0x30)
        elf.symbol("f", section, 0)
        got = self.json(elf)["files"][0]["functions"]
        self.assertEqual([(function["name"], function["size"], function["verdict"]) for function in got],
                         [("f", 0x20, "accepted"), ("g", 0x20, "violated")])

    def test_no_symbols(self):
        elf = Elf()
        elf.section(".text", bundles(WRITES + RETURN))
        elf.section(".fini", bundles(RETURN))
        self.gives(elf, 1, writes_twice(0, ".text+0x0"),
                   "a.o(.text+0x0): note: .text+0x0: no function symbol covers these 0x20 bytes",
                   "a.o(.fini+0x0): note: .fini+0x0: no function symbol covers these 0x10 bytes")

    def test_code_between_functions(self):
        elf, code = Elf(), bundles(RETURN + NOPS + WRITES + RETURN + bundle("mfb") + RETURN + NOPS) + bytes(24)
        section = elf.section(".text", code)
        elf.symbol("f", section, 0, 16)
        elf.symbol("g", section, 0x50, 16)
        self.gives(elf, 1, writes_twice(0x20, ".text+0x20"),
                   "a.o(.text+0x20): note: .text+0x20: no function symbol covers these 0x20 bytes")

    def test_ends_in_code_without_symbols(self):
        """Behind an end another function may begin."""
        elf = Elf()
        elf.section(".text", bundles(RETURN + WRITES + RETURN))
        self.gives(elf, 1, writes_twice(0x10, ".text+0x0"),
                   "a.o(.text+0x0): note: .text+0x0: no function symbol covers these 0x30 bytes")

    def test_padding_behind_an_end(self):
        """In code without symbols another function may begin behind what pads up to it, too."""
        elf = Elf()
        elf.section(".text", bundles(RETURN + 3 * NOPS + WRITES + RETURN))
        self.gives(elf, 1, writes_twice(0x40, ".text+0x0"),
                   "a.o(.text+0x0): note: .text+0x0: no function symbol covers these 0x60 bytes")

    def test_what_a_linker_fills_with(self):
        """Between two functions without symbols: else the fill and the function behind it would be one, whose `alloc` isn't the
        first of its group."""
        fill = bytes.fromhex("00300000010070000002000001000400")                # { .mii nop.m 6; nop.i 7; nop.i 8 }
        elf = Elf()
        elf.section(".text", bundles(RETURN) + 3 * fill + bundles(bundle("mii", "alloc r33=ar.pfs,0,8,0,0") + RETURN))
        elf.symbol("f", 1, 0, 16)
        self.assertEqual(self.gives(elf, 0, "a.o(.text+0x40): note: .text+0x40: no function symbol covers these 0x20 bytes"),
                         "2 accepted, 0 violated, 0 not judged")

    def test_a_trap_behind_a_branch(self):
        """GCC puts it behind what doesn't come back: nothing is said of it, as of other padding."""
        leave = bundle("mib", "nop.m 0", "nop.i 0", "br.cond.sptk.few b6")
        note = "a.o(.text+0x0): note: f: an indirect branch (+0x0 slot 2), and no table of its targets was found"
        for trap in (bundle("mfi", "nop.m 0", "break.f 0"), bundle("mfb", "nop.m 0", "break.f 0"),
                     bundle("mmf", "nop.m 0", "nop.m 0", "break.f 0")):
            self.gives(one_function(leave + trap), 0, note)
        self.gives(one_function(leave + bundle("mfi", "nop.m 0", "break.f 1")), 0,
                   "a.o(.text+0x0): note: f: 1 of 2 bundles are on a walk; the first that isn't is +0x10", note)

    def test_what_is_no_function(self):
        elf, code = Elf(), bundles(RETURN)
        section = elf.section(".text", code)
        elf.symbol("f", section, 0, 16)
        elf.symbol("data", elf.section(".data", bytes(16), DATA_FLAGS), 0, 16)
        elf.symbol("label", section, 0, 16, kind=0)
        elf.symbol("absent", 0, 0, 16)
        elf.symbol("absolute", 0xFFF1, 0, 16)
        self.assertEqual(len(self.json(elf)["files"][0]["functions"]), 1)

    def test_dynamic_symbols(self):
        elf = one_function(WRITES + RETURN)
        data = bytearray(elf.data())
        headers, = struct.unpack_from("<Q", data, 40)
        self.assertEqual(struct.unpack_from("<I", data, headers + 64 * 3 + 4)[0], 2)
        struct.pack_into("<I", data, headers + 64 * 3 + 4, 11)
        self.assertTrue(self.call(self.put(bytes(data)))[1][0].startswith("a.o(.text+0x0): error: f: WAW"))


class Files(Case):
    """What is read, and what is refused."""

    def refused(self, data, said, name="a.o"):
        got = self.call(self.put(data, name))
        self.assertEqual((got[0], got[2]), (2, f"ia64: {name}: {said}\n"))

    def test_archives(self):
        good, bad = one_function(RETURN).data(), one_function(WRITES + RETURN).data()
        long_name = "a_member_with_a_long_name.o"
        archive = b"!<arch>\n" + member("/", b"12345") + member("//", f"{long_name}/\nother/\n".encode()) \
            + member("x.o/", good) + member("/0", bad) + member(f"#1/{len(long_name) + 3}", long_name.encode() + bytes(3) + bad)
        line = "(.text+0x0): error: f: WAW r8: written by 'adds r8=1,r32' (+0x0 slot 1) and by 'adds r8=2,r32' (+0x0 slot 2)"
        self.put(archive, "l.a")
        self.assertEqual(self.call("l.a"), (1, 2 * [f"l.a:{long_name}{line}"] + ["1 accepted, 2 violated, 0 not judged"], ""))
        self.put(archive[:-3], "l.a")
        got = self.call("l.a")
        self.assertEqual((got[0], got[1][-1]), (2, "1 accepted, 1 violated, 0 not judged"))
        self.assertRegex(got[2], r"^ia64: l.a: cut or damaged: the member at byte \d+ ends at byte \d+, "
                                 r"and the file at byte \d+\n$")
        os.mkdir("sub")
        self.put(bad, "sub/b.o")
        self.put(b"!<thin>\n" + member("//", b"b.o/\nmissing.o/\n") + head_of_member("/0", len(bad)) + head_of_member("/5", 7),
                 "sub/t.a")
        self.assertEqual(self.call("sub/t.a"), (2, [f"sub/t.a:b.o{line}", "0 accepted, 1 violated, 0 not judged"],
                                                "ia64: sub/t.a:missing.o: No such file or directory\n"))
        self.put(b"!<arch>\n" + member("note/", b"text"), "l.a")
        self.assertEqual(self.call("l.a"), (2, ["l.a:note:1: error: refused, name: the leading word begins no line: 'text'",
                                                "0 accepted, 0 violated, 0 not judged"], ""))
        self.assertEqual(self.call(self.put(b"!<arch>\n", "l.a")), (0, ["0 accepted, 0 violated, 0 not judged"], ""))

    def test_bundles_on_no_walk(self):
        """A text and an image with bundles that no walk reaches have a note of them; with an entry there they have none."""
        text = b"{ .mib\nnop 0\nnop 0\nbr.ret b0 ;;\n}\ng:\n{ .mib\nadd r8=r9,r10\nnop 0\nbr.ret b0 ;;\n}\n"
        note, last = "note: 1 of 2 bundles are on a walk; the first that isn't", "1 accepted, 0 violated, 0 not judged"
        self.assertEqual(self.call(self.put(text, "t.s")), (0, [f"t.s:8: {note} begins here, bundle 1", last], ""))
        self.assertEqual(self.call(self.put(b".entry g\n" + text, "t.s")), (0, [last], ""))
        image = subprocess.run([PROGRAM, "build"], input=text, stdout=subprocess.PIPE, check=True).stdout
        self.assertEqual(self.call(self.put(image, "t.image")), (0, [f"t.image: {note} is bundle 1", last], ""))

    def test_foreign_files(self):
        good = one_function(RETURN).data()
        only = "only those for IA-64 are read"
        self.refused(good[:18] + struct.pack("<H", 62) + good[20:], f"a little-endian ELF file of 64 bits for x86-64; {only}")
        self.refused(good[:5] + b"\2" + good[6:18] + struct.pack(">H", 2) + good[20:],
                     f"a big-endian ELF file of 64 bits for SPARC; {only}")
        self.refused(good[:16] + b"\4\0" + good[18:], "an ELF file of type 4, neither an object file nor linked")
        self.refused(b"", "empty")
        os.mkdir("folder")
        self.assertEqual(self.call("folder", "none")[::2], (
            2, "ia64: folder: Is a directory\nia64: none: No such file or directory\n"))

    def test_others_are_judged_beside_a_file_that_cant_be_read(self):
        self.put(one_function(WRITES + RETURN))
        got = self.call("none", "a.o", "none")
        self.assertEqual((got[0], len(got[1]), got[1][-1]), (2, 2, "0 accepted, 1 violated, 0 not judged"))

    def rich(self):
        """An object file with a bit of everything."""
        elf = many_functions([RETURN, bundle("mib", "nop.m 0", "nop.i 0", "br.cond.sptk.few b6") + WRITES + RETURN])
        elf.relocation(elf.section(".rodata", bytes(8), READ_ONLY), 0, DIR64, 2, 0x10)
        elf.relocation(1, 2, PCREL21B, elf.symbol("memcpy", 0, kind=0))
        return elf

    def test_every_cut(self):
        for headers_first in (False, True):
            data = self.rich().data(headers_first)
            for length in range(6, len(data), 3):
                status, _, error = self.call(self.put(data[:length]))
                self.assertTrue(status == 2 and error.startswith("ia64: a.o: ") or headers_first and status in (0, 1),
                                (length, status, error))
        self.assertEqual(self.call(self.put(data))[0], 1)
        archive = b"!<arch>\n" + member("x.o/", data)
        for length in range(0, len(archive) - 1, 8):
            self.assertIn(self.call(self.put(archive[:length], "l.a"))[0], (2,) if length != 8 else (0,), length)

    def test_damage(self):
        data, draw = self.rich().data(), random.Random(7)
        for _ in range(80):
            broken = bytearray(data)
            for _ in range(draw.choice((1, 1, 3))):
                at = draw.choice((draw.randrange(len(data)), draw.randrange(len(data) - 64 * 7, len(data))))
                broken[at] = draw.choice((0, 1, 0x7F, 0xFF, draw.randrange(256)))
            self.assertIn(self.call(self.put(bytes(broken)))[0], (0, 1, 2))

    def test_sections_over_one_another(self):
        data = bytearray(one_function(100 * RETURN).data())
        headers, = struct.unpack_from("<Q", data, 40)
        data[headers + 128:headers + 192] = data[headers + 64:headers + 128]
        self.refused(bytes(data), "cut or damaged: its sections have more bytes than the file")

    def test_relocations_out_of_range(self):
        elf = one_function(RETURN)
        elf.relocation(1, 2, PCREL21B, 9)
        self.refused(elf, "relocation 0 of .rela names symbol 9, and there are 2")
        elf = one_function(RETURN)
        elf.relocation(1, 16, PCREL21B, 1)
        self.refused(elf, "relocation 0 of .rela is at 0x10, and .text has 0x10 bytes")
        elf = one_function(RETURN)
        elf.relocation(77, 2, PCREL21B, 1)
        self.refused(elf, ".rela names section 77, and there are 5")
        elf = one_function(RETURN)
        elf.symbol("g", 44, 0, 16)
        self.refused(elf, "symbol 2 names section 44, and there are 4")

    def test_a_thousand_functions(self):
        good, others = bundles(3 * NOPS + RETURN), [bundles(WRITES + RETURN), FLUSHRS + bundles(RETURN), bundles(RETURN)]
        elf = many_functions([good if number % 10 else others[number // 10 % 3] for number in range(1000)])
        began = time.monotonic()
        got = self.call(self.put(elf))
        seconds = time.monotonic() - began
        print(f"test_ia64: a thousand functions in {seconds:.1f} seconds")
        self.assertEqual((got[0], got[1][-1]), (1, "933 accepted, 34 violated, 33 not judged"))
        self.assertLess(seconds, 60)

    def test_a_listing_of_many_functions(self):
        """They are asked about together, and each reads as it does alone, also beside a word of no instruction, but for the ends
        behind them and the lines that make their starts entries."""
        unknown = Bundle(0x01, ((1 << 41) - 1, 1 << 27, 1 << 27)).packed()
        codes = [bundles(WRITES + RETURN), FLUSHRS + bundles(RETURN), bytes([6]) + bytes(15), bundles(3 * NOPS)]
        self.put(many_functions([codes[number % 4] if number != 30 else unknown for number in range(60)]))
        calls = []

        def raw(program, words, data):
            calls.append(words)
            return whole(program, words, data)

        whole = Program.raw
        with unittest.mock.patch.object(Program, "raw", raw):
            together = self.lines("list", "a.o")[1]
        self.assertLess(len(calls), 12)
        alone = [line for number in range(60) for line in self.lines("list", "a.o", f"f{number}")[1]]
        end = "".join(f"{line}\n" for line in END)
        of_each, of_all = (re.sub(r"(?m)^(\.entry f\d+)?\n", "", "".join(f"{line}\n" for line in lines).replace(end, ""))
                           for lines in (alone, together))
        self.assertEqual(of_all.splitlines(), of_each.splitlines())
        self.assertEqual(sum(line.startswith("  word 0x1ffffffffff") for line in together), 1)

    def test_more_functions_than_an_image_has_entries(self):
        part = bundles(RETURN)
        self.assertEqual(self.gives(many_functions(1100 * [part]), 0), "1100 accepted, 0 violated, 0 not judged")


class Calls(Case):
    """Words, statuses, and what is printed."""

    def test_statuses(self):
        good, bad, other = (self.put(one_function(text), name) for text, name in
                            ((RETURN, "good.o"), (WRITES + RETURN, "bad.o"), (FLUSHRS, "other.o")))
        for words, status in (([good], 0), ([bad], 1), ([good, bad, other], 1), ([other], 0), (["none", bad], 2),
                              ([good, other, "--strict"], 3), ([good, "--strict"], 0), ([bad, other, "--strict"], 1),
                              (["none", other, "--strict"], 2), ([], 2), (["--unknown", good], 2)):
            self.assertEqual(self.call(*words)[0], status, words)

    def test_json(self):
        self.put(one_function(WRITES + RETURN))
        status, lines, _ = self.call("--format=json", "a.o", "none")
        got = json.loads("\n".join(lines))
        self.assertEqual((status, got["accepted"], got["violated"], got["not_judged"]), (2, 0, 1, 0))
        self.assertEqual(got["files"][1], {"file": "none", "error": "No such file or directory", "functions": []})
        slot = {"offset": 0, "slot": 1, "text": "adds r8=1,r32", "source": None}
        self.assertEqual(got["files"][0], {"file": "a.o", "error": None, "functions": [{
            "section": ".text", "offset": 0, "size": 32, "name": "f", "names": ["f"], "verdict": "violated",
            "violation_count": 1, "violations": [{"rule": "WAW", "resource": "r8", "first": slot,
                                                  "second": {**slot, "slot": 2, "text": "adds r8=2,r32"}, "only_by": []}], "excused": [],
            "reasons": [], "unlisted": [], "stood_in": [], "not_looked_at": [], "bundles": 2, "on_no_walk": [], "falls_out": False, "entries": []}]})

    def fake(self, script):
        Path("fake").write_text(f"#!/bin/sh\ncat > /dev/null\n{script}\n")
        os.chmod("fake", 0o755)
        self.put(one_function(RETURN))
        return self.call("a.o", program=os.path.abspath("fake"))

    def test_a_program_without_answers(self):
        listed = "[ $1 = list ] && printf '0 00 mib\\n  nop.m 0x0\\n1 00 mib\\n  nop.m 0x0\\n'; [ $1 != check ] || "
        unknown = "answered what isn't known here"
        for script, said in (("exit 7", "ended with status 7"), ("kill -SEGV $$", "ended with signal 11"),
                             ("echo hello; exit 3", f"{unknown}: 'hello\\n'"),
                             ("echo image: bundle 9999 slot 0: unlisted; exit 3", unknown),
                             (listed + "echo accepted now", f"{unknown}: 'accepted now\\n'"),
                             (listed + "printf 'violations 1\\nWAW r8 0.0 7.1\\n'", unknown),
                             (listed + "printf 'violations 1\\nWAW r8 0.0\\n'", unknown)):
            got = self.fake(script)
            self.assertEqual((got[0], got[1]), (2, ["0 accepted, 0 violated, 0 not judged"]), script)
            self.assertTrue(got[2].startswith("ia64: a.o: `") and said in got[2] and got[2].count("\n") == 1, got[2])

    def test_no_program(self):
        self.put(one_function(RETURN))
        for program in ("none", ".", "a.o"):
            status, lines, said = self.call("a.o", program=program)
            self.assertEqual((status, lines), (2, ["0 accepted, 0 violated, 0 not judged"]))
            self.assertRegex(said, r"ia64: a.o: .* can't be called: .*\n")

    def test_a_baseline(self):
        """What an earlier answer has is left out, wherever it stands now; what is new isn't."""
        self.put(one_function(WRITES + RETURN))
        lines = self.call("a.o")[1]
        Path("known").write_text("\n".join([f"a.c:7: {line}" for line in lines] + lines))
        self.put(one_function(NOPS + WRITES + RETURN))
        self.assertEqual(self.call("a.o", "--baseline", "known"),
                         (0, ["1 error of the baseline left out", "0 accepted, 1 violated, 0 not judged"], ""))
        self.put(one_function(NOPS + WRITES + bundle("mii", "nop.m 0", "adds r9=1,r32", "adds r9=2,r32") + RETURN))
        status, lines, _ = self.call("a.o", "--baseline", "known")
        self.assertEqual((status, [line.split(": ")[3] for line in lines[:1]]), (1, ["WAW r9"]))
        self.assertEqual(self.call("a.o", "--baseline", "nowhere"), (2, [], "ia64: nowhere: No such file or directory\n"))

    def test_several_processes(self):
        """They give the same answer in the same order."""
        for number, text in enumerate((RETURN, WRITES + RETURN, NOPS + WRITES + RETURN, RETURN)):
            self.put(one_function(text, f"f{number}"), f"{number}.o")
        with open("big.a", "wb") as archive:
            archive.write(b"!<arch>\n" + b"".join(member(f"{number % 4}.o/", Path(f"{number % 4}.o").read_bytes()) for number in range(1200)))
        words = ["0.o", "1.o", "none", "big.a", "3.o"]
        alone = self.call(*words)
        self.assertEqual(self.call(*words, "-j", "3"), alone)
        self.assertEqual(alone[1][-1], "602 accepted, 601 violated, 0 not judged")

    def test_a_reader_that_ends_early(self):
        self.put(one_function(RETURN))
        with asked(PROGRAM):
            done = subprocess.Popen([sys.executable, FRONT, "check", "a.o"], stdout=subprocess.PIPE, stderr=subprocess.PIPE)
        done.stdout.close()
        said = done.stderr.read()
        done.stderr.close()
        self.assertEqual((done.wait(), said), (2, b""))

    def test_a_full_output(self):
        self.put(one_function(RETURN))
        for words in (["check", "a.o"], ["check", "--help"]):
            with open("/dev/full", "w") as full, asked(PROGRAM):
                done = subprocess.run([sys.executable, FRONT, *words], stdout=full, stderr=subprocess.PIPE, check=False)
            self.assertEqual(done.returncode, 2)
            self.assertEqual(done.stderr, b"ia64: standard output: it can't be written: No space left on device\n")

    def test_a_closed_output(self):
        command = ["sh", "-c", 'exec "$0" "$1" check --help >&-', sys.executable, FRONT]
        done = subprocess.run(command, stderr=subprocess.PIPE, check=False)
        self.assertEqual((done.returncode, done.stderr), (2, b"ia64: standard output: it is closed\n"))

    def test_a_stream_without_an_end(self):
        with unittest.mock.patch("front.content.MOST_STREAMED", 1000), self.assertRaises(Fault) as refused:
            read_file("/dev/zero")
        self.assertEqual(str(refused.exception), "more than 1,000 bytes, and it is no regular file")

    def test_help(self):
        status, out, _ = self.call("--help")
        self.assertEqual(status, 0)
        self.assertIn("nothing stands in for instructions outside the profile", "\n".join(out))


@needs_gnu
class Gnu(Case):
    """Files of the GNU assembler, linker and archiver."""

    SOURCE = """
        .explicit
        .text
        .global f#, g#
        .proc f#
f:
{ .mib
        nop.m 0
        mov b0=r8
        br.call.sptk.few b0=g# ;;
}
{ .mib
        adds r8=1,r0
        adds r8=2,r0
        br.cond.sptk.few b6 ;;
}
.Lrow:
{ .mii
        ld8 r9=[r32]
        adds r10=1,r9
        nop.i 0 ;;
}
{ .mlx
        nop.m 0
        brl.cond.sptk.few h# ;;
}
        .endp f#
        .proc g#
g:
{ .mii
        ld8 r9=[r32]
        adds r10=1,r9
        nop.i 0 ;;
}
{ .mib
        nop.m 0
        nop.i 0
        br.ret.sptk.few b0 ;;
}
        .endp g#
        .section .rodata
        .align 8
        data8 @pcrel(.Lrow)
"""
    def gnu(self, tool, *words):
        done = subprocess.run([f"ia64-linux-gnu-{tool}", *words], capture_output=True, text=True, check=False)
        self.assertEqual(done.returncode, 0, done.stderr)

    def made(self, source=SOURCE, name="s"):
        Path(f"{name}.s").write_text(source)
        self.gnu("as", "-xnone", "-W", "-g", "-o", f"{name}.o", f"{name}.s")
        return f"{name}.o"

    def test_source_lines(self):
        short = self.SOURCE.replace("{ .mlx\n        nop.m 0\n        brl.cond.sptk.few h# ;;\n}\n", "")
        got = self.call(self.made(short))
        self.assertEqual(got[1], [
            "s.s:10: error: s.o(.text+0x0) f: WAW b0: written by 'mov b0=r8,0' (+0x0 slot 1) "
            "and by 'br.call.sptk.few b0=g' (+0x0 slot 2)",
            "s.s:14: error: s.o(.text+0x10) f: WAW r8: written by 'adds r8=1,r0' (+0x10 slot 0) "
            "and by 'adds r8=2,r0' (+0x10 slot 1)",
            "s.s:20: error: s.o(.text+0x20) f: RAW r9: written by 'ld8 r9=[r32]' (+0x20 slot 0) "
            "and read by 'adds r10=1,r9' (+0x20 slot 1)",
            "s.s:21: note: s.o(.text+0x0) f: it falls out of its end, +0x30",
            "s.s:28: error: s.o(.text+0x30) g: RAW r9: written by 'ld8 r9=[r32]' (+0x30 slot 0) "
            "and read by 'adds r10=1,r9' (+0x30 slot 1)",
            "0 accepted, 2 violated, 0 not judged"])
        self.gnu("ld", "-e", "f", "-o", "s.linked", "s.o", "--defsym=h=f")
        linked = self.call("s.linked")
        self.assertEqual([line.replace("s.linked", "s.o") for line in linked[1]], got[1])
        found = json.loads("\n".join(self.call("--format=json", "s.linked")[1]))["files"][0]["functions"][0]
        self.assertEqual(found["entries"], [{"offset": 0x20, "why": "value"}])
        self.assertEqual(found["violations"][0]["first"]["source"], "s.s:9")

    def test_no_source_lines_of_sections_of_one_name(self):
        """Which of the two is asked for can't be said, and so none is."""
        part = "        .section .text.x,\"axG\",@progbits,%s,comdat\n        .proc %s#\n%s:\n" + WRITES + "        .endp %s#\n"
        got = self.call(self.made("        .explicit\n" + part % (4 * ("f",)) + part % (4 * ("g",))))[1]
        self.assertEqual([line.split(": WAW")[0] for line in got if "WAW" in line], ["s.o(.text.x+0x0): error: f", "s.o(.text.x+0x0): error: g"])

    def test_what_is_stood_in_for(self):
        self.made()
        got = self.call("-v", "s.o")
        self.assertEqual(got[1][1], "s.s:25: note: s.o(.text+0x30) f: stood in for: 'brl.few h' (+0x30 slot 1)")

    def test_branches_of_functions_that_are_not_judged(self):
        """They lead into the middle of another one all the same."""
        excused = bundle("mii", "cmp.eq p6,p7=r8,r9", "nop.i 0", "nop.i 0") + ".Lmid:\n" + bundle(
            "mii", "nop.m 0", "(p6) adds r8=1,r0", "(p7) adds r8=2,r0") + RETURN
        text = "        .explicit\n        .proc f#\nf:\n" + excused + "        .endp f#\n        .proc g#\ng:\n"
        for far, counts in ((bundle("mlx", "nop.m 0", "brl.cond.sptk.few .Lmid"),
                             "1 accepted, 1 violated, 0 not judged (1 of these functions with stand-ins)"),
                            (32768 * bundle("mii", "nop.m 0", "nop.i 0", "nop.i 0")
                             + bundle("mib", "nop.m 0", "nop.i 0", "br.cond.sptk.few .Lmid"), "0 accepted, 1 violated, 1 not judged")):
            got = self.call(self.made(text + far + "        .endp g#\n"))
            self.assertEqual((got[0], got[1][-1]), (1, counts), got[1][:3])

    def test_a_source(self):
        self.made()
        got = self.call("--as-flags=-W", "s.s")
        self.assertEqual(got[0], 1)
        self.assertTrue(got[1][3].startswith("s.s:32: error: s.s(.text+0x40) g: RAW r9: "), got[1])
        Path("wrong.s").write_text("no instruction\n")
        got = self.call("wrong.s", "s.o")
        self.assertEqual((got[0], got[1][0], got[1][-1]), (2, "wrong.s:1: error: refused, name: the leading word begins no line: "
                                                           "'no instruction'",
                                                           "0 accepted, 2 violated, 0 not judged (1 of these functions with stand-ins)"))
        self.assertEqual(got[1][1], "wrong.s:1: error: the GNU assembler: Unknown opcode `no instruction'")
        self.assertEqual(got[2], "")
        Path("wrong.s").write_text("        .prologue\n        no instruction\n")
        got = self.call("wrong.s")
        self.assertEqual((got[0], got[1][1:-1], got[2]), (
            2, ["wrong.s:2: error: the GNU assembler: Unknown opcode `no instruction'"], ""))

    def test_the_stops_of_a_source(self):
        """They stand as they are in a source without `.explicit`, as GCC writes it, unless the assembler is told to set its own."""
        Path("wrong.s").write_text(".proc f#\nf:\n adds r8=1,r32\n adds r8=2,r32\n br.ret.sptk.few b0 ;;\n.endp f#\n")
        status, lines, said = self.call("wrong.s")
        self.assertEqual((status, lines[-1], said), (1, "0 accepted, 1 violated, 0 not judged", ""))
        status, lines, said = self.call("wrong.s", "--as-flags=-xauto -W")
        self.assertEqual((status, lines[-1]), (0, "1 accepted, 0 violated, 0 not judged"))
        self.assertEqual(said, "ia64: wrong.s: note: the GNU assembler has left out the stops of this source and put in others\n")

    def test_archives(self):
        shutil.copy(self.made(), "a_name_that_is_too_long_for_a_head.o")
        for flags in ("rcs", "rcsT"):
            self.gnu("ar", flags, f"{flags}.a", "s.o", "a_name_that_is_too_long_for_a_head.o")
            got = self.call(f"{flags}.a")
            self.assertEqual([re.search(r"\.a:([^(]*)\(", line)[1] for line in without_counts(got[1])],
                             4 * ["s.o"] + 4 * ["a_name_that_is_too_long_for_a_head.o"])
            self.assertEqual(got[1][-1], "0 accepted, 4 violated, 0 not judged (2 of these functions with stand-ins)")


if __name__ == "__main__":
    unittest.main()
