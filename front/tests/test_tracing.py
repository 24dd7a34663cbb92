"""Runs, told group by group: the lines of each kind, by hand; and of all examples and tests, that what is told of a group makes
the state behind it of that before it, as the program prints both by `run`."""

import json
import re
import shutil
import subprocess
import unittest

from front.ordering.states import lines_of
from front.program import Program
from front.tests import probes
from front.tests.case import PROGRAM, ROOT, Case
from front.tracing import changes, lines, steps, watching
from front.tracing.code import Code

ENDLESS = "loop:\n{ .mib\nadds r8=1,r8\nnop 0\nbr.cond.sptk.few loop ;;\n}\n"

# A program that says on standard error of each call what it was asked, and asks the real one.
LISTENER = """#!/bin/sh
echo "$@" >> "{log}"
exec "{program}" "$@"
"""

# One that answers a trace with what no trace is.
STRANGER = """#!/bin/sh
if [ "$1" = trace ]; then cat > /dev/null; echo something; exit 0; fi
exec "{program}" "$@"
"""


def example(name):
    return ROOT / "examples" / f"{name}.s"


def tried(name):
    return ROOT / "tests" / "run" / f"{name}.s"


def bundle(template, *slots, stop=" ;;"):
    return "\n".join([f"{{ .{template}", *slots[:-1], slots[-1] + stop, "}", ""])


END = bundle("mib", "nop 0", "nop 0", "break 0")


def raw(*words, data=b""):
    """The status of the program, and what it prints."""
    done = subprocess.run([PROGRAM, *map(str, words)], input=data, stdout=subprocess.PIPE, check=False)
    return done.returncode, done.stdout


class Traced(Case):
    """Calls of `ia64 trace`."""

    def call(self, *words):
        return self.lines("trace", *words)

    def gives(self, status, rows, *words):
        self.assertEqual(self.call(*words), (status, rows, ""))

    def refuses(self, text, *words):
        status, rows, error = self.call(*words)
        self.assertEqual((status, rows), (2, []))
        self.assertIn(text, error)

    def text(self, content):
        """A file with this text."""
        path = self.folder / "text.s"
        path.write_text(content)
        return path

    def image(self, path):
        """A file with the image of a text."""
        image = self.folder / "program.image"
        image.write_bytes(raw("build", data=path.read_bytes())[1])
        return image

    def told(self, content, *words):
        """The lines of the changes of each group of a text."""
        rows, found = self.call(self.text(content), *words)[1], []
        for row in rows:
            if row.startswith("group "):
                found.append([])
            elif row.startswith("    "):
                found[-1].append(re.sub(" {2,}", "  ", row.strip()))
        return found


# ---- Lines -----------------------------------------------------------------------------------------------

COUNTED = [
    "group 1: 0.0 to 0.2, then a stop",
    "  0.0  line 22  addl r8=0,r0",
    "  0.1  line 23  addl r9=0,r0",
    "  0.2  line 24  mov.i ar.lc=9",
    "    ar.lc  0x0 -> 0x9",
    "group 2: 1.0 (loop) to 1.2, then a stop",
    "  1.0  line 28  adds r9=1,r9",
    "    r9 (ret1)  0x0 -> 0x1",
    "group 3: 2.0 to 2.2, then a branch to 1.0 (loop)",
    "  2.1  line 34  add r8=r8,r9",
    "  2.2  line 35  br.cloop.sptk.few loop",
    "    r8 (ret0)  0x0 -> 0x1",
    "    ar.lc      0x9 -> 0x8",
]

LAST = ["group 22: 3.0 to 3.2, then break 0x0", "  3.2  line 40  break.b 0", "    nothing changes",
        "the run ended at 3.2 with break 0x0, after 22 groups"]


class Groups(Traced):
    """The lines of groups, and where they begin and end."""

    def test_text(self):
        self.gives(8, [*COUNTED, "the run goes on at 1.0 (loop) with group 4: --from 4 tells it"], example("count"), 3)

    def test_image(self):
        """An image has neither lines nor labels: its text is as the program lists it, and its labels are those of `show`."""
        rows = [re.sub(r"line \d+  ", "", row).replace("(loop)", "(L1)").replace("few loop", "few L1") for row in COUNTED]
        self.gives(8, [*rows, "the run goes on at 1.0 (L1) with group 4: --from 4 tells it"], self.image(example("count")), 3)

    def test_default(self):
        status, rows, error = self.call(example("count"))
        self.assertEqual((status, error, len([row for row in rows if row.startswith("group ")])), (8, "", 20))
        self.assertEqual(rows[-1], "the run goes on at 2.0 with group 21: --from 21 tells it")

    def test_whole(self):
        status, rows, _ = self.call(example("count"), 22)
        self.assertEqual((status, rows[:len(COUNTED)], rows[-4:]), (0, COUNTED, LAST))

    def test_from(self):
        self.gives(0, LAST, example("count"), "--from", 22)
        for first in (23, 24, 10_000_000):
            self.gives(0, [f"there is no group {first}: the run ended at 3.2 with break 0x0, after 22 groups"],
                       example("count"), "--from", first)

    def test_from_behind_the_end(self):
        """Then nothing was waited for."""
        self.gives(0, ["there is no group 30: the run ended at 3.2 with break 0x0, after 22 groups"],
                   example("count"), "--from", 30, "--watch", "r8", "--until", "loop")

    def test_from_behind_a_fault(self):
        text = bundle("mii", "nop 0", "nop 0", "nop 0", stop="") + bundle("mii", "nop 0", "add r8=r32,r0", "nop 0")
        self.gives(9, ["there is no group 9: the run ended at 1.1 with the fault OutOfFrame, after 1 group: a general register "
                       "outside the frame is named"], self.text(text), "--from", 9)

    def test_last_group(self):
        """The last group that has a number is told, and the one behind it isn't offered."""
        status, rows, _ = self.call(self.text(ENDLESS), "--from", 9_999_999, 5)
        self.assertEqual(status, 8)
        self.assertEqual([row for row in rows if row.startswith("group ")],
                         [f"group {number}: 0.0 (loop) to 0.2, then a branch to 0.0 (loop)" for number in (9_999_999, 10**7)])
        self.assertEqual(rows[-1], "the run goes on at 0.0 (loop) with group 10000001")

    def test_nops_alone(self):
        self.gives(9, ["group 1: 0.0 to 0.2, then fault FellOff", "  0.0  nop.m 0x0", "  0.1  nop.i 0x0", "  0.2  nop.i 0x0",
                       "    nothing changes", "the run ended at 0.2 with the fault FellOff, after 1 group: the last slot of the "
                       "program falls through"], ROOT / "examples/three_nops.image")

    def test_one_slot(self):
        rows = self.call(tried("alat_rules"), 1, "--from", 8)[1]
        self.assertEqual(rows[:2], ["group 8: 7.0 (rotated), then a check to 8.0 (missed)",
                                    "  7.0  line 41  chk.a.nc r33,missed"])

    def test_label(self):
        """A label is said where a group begins its bundle, and not of a slot behind that."""
        rows = self.call(self.text("x:\ny:\n" + bundle("mmi", "adds r8=1,r0 ;;", "adds r9=1,r0", "nop 0") + END))[1]
        self.assertEqual([row for row in rows if row.startswith("group ")],
                         ["group 1: 0.0 (x), then a stop", "group 2: 0.1 to 0.2, then a stop",
                          "group 3: 1.0 to 1.2, then break 0x0"])

    def test_ways_on(self):
        """What ends a group, by its last slot: a call, a return, a check, a branch."""
        rows = [row for row in self.call(example("call"))[1] if row.startswith("group ")]
        self.assertEqual([row.split(", then ")[1] for row in rows],
                         ["a stop", "a call of 3.0 (double)", "a stop", "a stop", "a return to 2.0", "break 0x0"])
        self.assertIn("group 13: 2.0 to 2.2, then a branch to 6.0 (done)", self.call(example("speculation"))[1])
        self.assertIn("group 8: 7.0 (rotated), then a check to 8.0 (missed)", self.call(tried("alat_rules"))[1])

    def test_long_instruction(self):
        """A long instruction is slot 1, and a group over several bundles has the slots of all."""
        text = bundle("mlx", "adds r8=1,r0", "movl r9=-1", stop="") + bundle("mlx", "nop 0", "movl r10=2") + END
        rows = self.call(self.text(text))
        self.assertEqual(rows[1][:7], ["group 1: 0.0 to 1.1, then a stop", "  0.0  line 2  adds r8=1,r0",
                                       "  0.1  line 3  movl r9=-1", "  1.1  line 7  movl r10=2", "    r8 (ret0)   0x0 -> 0x1",
                                       "    r9 (ret1)   0x0 -> 0xffffffffffffffff (-1)", "    r10 (ret2)  0x0 -> 0x2"])

    def test_faults(self):
        """Each kind of fault is told with what it means, and docs/use/commands.md has the same kinds."""
        page = (ROOT / "docs/use/commands.md").read_text()
        table = re.search(r"(?s)\nThe kinds of faults\..*?\n\n(\|.*?)\n\n", page)[1]
        self.assertEqual(list(lines.FAULTS), re.findall(r"(?m)^\| `(\w+)` \|", table))
        for path in sorted((ROOT / "tests" / "run").glob("fault_*.s")):
            kind = "".join(word.title() for word in path.stem.split("_")[1:])
            status, rows, _ = self.call(path, 10_000)
            self.assertEqual(status, 9, path)
            said = rf"^the run ended at \d+\.\d with the fault {kind}, after \d+ groups?: {lines.FAULTS[kind]}$"
            self.assertRegex(rows[-1], said)

    def test_fault_of_reserved_bits(self):
        """Both ways to it have the words that say both."""
        said = "bits of ar.pfs that have to be zero aren't, or sor changes while a rename base isn't 0"
        for name in ("fault_reserved_field", "alloc_while_rotated"):
            status, rows, _ = self.call(tried(name), 10_000)
            self.assertEqual(status, 9)
            self.assertRegex(rows[-1], rf"^the run ended at \d\.\d with the fault ReservedField, after \d groups?: {said}$")


class Until(Traced):
    def test_label(self):
        status, rows, _ = self.call(example("count"), "--until", "loop")
        self.assertEqual((status, rows), (8, [*COUNTED[:5], "the run goes on at 1.0 (loop) with group 2: --from 2 tells it"]))

    def test_at_least_one_group(self):
        status, rows, _ = self.call(example("count"), "--from", 2, "--until", "loop")
        self.assertEqual((status, rows), (8, [*COUNTED[5:], "the run goes on at 1.0 (loop) with group 4: --from 4 tells it"]))

    def test_places(self):
        for place in ("3", "3.0"):
            status, rows, _ = self.call(example("count"), "--until", place)
            self.assertEqual((status, rows[-1]), (8, "the run goes on at 3.0 with group 22: --from 22 tells it"))
            self.assertEqual(len([row for row in rows if row.startswith("group ")]), 21)

    def test_image(self):
        status, rows, _ = self.call(self.image(example("count")), "--until", "L1")
        self.assertEqual((status, rows[-1]), (8, "the run goes on at 1.0 (L1) with group 2: --from 2 tells it"))

    def test_not_reached(self):
        status, rows, _ = self.call(example("count"), "--until", "2.1")
        self.assertEqual((status, rows[-2:]), (0, ["2.1 wasn't reached: no group from number 2 on began there", LAST[-1]]))
        status, rows, _ = self.call(example("count"), "--until", "3", "--from", 2, 4)
        self.assertEqual((status, rows[-2:]), (8, ["3.0 wasn't reached: no group from number 3 on began there, up to number 6",
                                                   "the run goes on at 1.0 (loop) with group 6: --from 6 tells it"]))

    def test_end_is_not_reached(self):
        """A run that ends at a place has no group that begins there."""
        status, rows, _ = self.call(example("count"), "--from", 21, "--until", "3.2")
        self.assertEqual((status, rows[-2:]), (0, ["3.2 wasn't reached: no group from number 22 on began there", LAST[-1]]))

    def test_refused(self):
        self.refuses("no bundle has the label nowhere: those that bundles have are loop", example("count"), "--until", "nowhere")
        self.refuses("no bundle has the label x: none has one", example("call").parent / "three_nops.s", "--until", "x")
        for place in ("4", "0.3", "99999999999"):
            self.refuses(place, example("count"), "--until", place)
        for place in ("\u0661", "1.\u0660"):
            self.refuses(f"no bundle has the label {place}", example("count"), "--until", place)
        text = self.text(bundle("mlx", "nop 0", "movl r8=1") + END)
        self.refuses("0.2 is no place of the program, which has bundles 0 to 1", text, "--until", "0.2")


# ---- Predicates that are 0 -------------------------------------------------------------------------------

# p6 is 1 and p7 is 0.
COMPARED = bundle("mii", "cmp.eq p6,p7=r0,r0", "nop 0", "nop 0")


class Off(Traced):
    """Of which slots it is told that their predicate is 0."""

    def noted(self, *words):
        """The notes of each group: the places of its slots, and what is said behind them."""
        found = []
        for row in self.call(*words)[1]:
            slot = re.fullmatch(r"  (\d+\.\d)  .*?(?: +// (.*))?", row)
            if row.startswith("group "):
                found.append([])
            elif slot and slot[2]:
                found[-1].append(f"{slot[1]} {slot[2]}")
        return found

    def off(self, content, *words):
        return self.noted(self.text(content), *words)

    def test_lines(self):
        """The notes stand below each other, and nothing else of a line is moved."""
        text = COMPARED + bundle("mii", "( p7 )  adds r8=1,r0", "(p6) adds r9=2,r0", "(p7) adds r10 = 3, r0") + bundle(
            "mlx", "nop 0", "(p7) movl r11=0x123456789abc") + END
        self.gives(8, [
            "group 2: 1.0 to 1.2, then a stop", "  1.0  line 7  ( p7 ) adds r8=1,r0    // p7 is 0",
            "  1.1  line 8  (p6) adds r9=2,r0", "  1.2  line 9  (p7) adds r10 = 3, r0  // p7 is 0",
            "    r9 (ret1)  0x0 -> 0x2",
            "group 3: 2.0 to 2.1, then a stop", "  2.1  line 13  (p7) movl r11=0x123456789abc  // p7 is 0",
            "    nothing changes", "the run goes on at 3.0 with group 4: --from 4 tells it"], self.text(text), "--from", 2, 2)

    def test_image(self):
        text = self.text(COMPARED + bundle("mii", "(p7) adds r8=1,r0", "(p6) adds r9=2,r0", "(p7) nop 0") + END)
        self.assertEqual(self.call(self.image(text), "--from", 2, 1)[1][1:4],
                         ["  1.0  (p7) adds r8=1,r0  // p7 is 0", "  1.1  (p6) adds r9=2,r0",
                          "  1.2  (p7) nop.i 0x0     // p7 is 0"])

    def test_stages(self):
        """Of a pipelined loop the stages that don't work yet, and those that don't any more."""
        self.assertEqual(self.noted(example("pipelined_loop")),
                         [[], [], ["3.1 p17 is 0"], [], [], [], ["3.0 p16 is 0"], []])
        begin = bundle("mii", "alloc r8=ar.pfs,0,8,0,8", "mov.i ar.lc=1", "mov.i ar.ec=3") + bundle(
            "mii", "nop 0", "mov pr.rot=0x10000", "nop 0")
        loop = "loop:\n" + bundle("mii", "(p16) adds r9=1,r9", "(p17) adds r10=1,r10", "(p18) adds r11=1,r11", stop="") + bundle(
            "mib", "(p63) adds r12=1,r12", "(p19) adds r14=1,r14", "br.ctop.sptk.few loop")
        self.assertEqual(self.off(begin + loop + END), [
            [], [], ["2.1 p17 is 0", "2.2 p18 is 0", "3.0 p63 is 0", "3.1 p19 is 0"],
            ["2.2 p18 is 0", "3.0 p63 is 0", "3.1 p19 is 0"], ["2.0 p16 is 0", "3.0 p63 is 0", "3.1 p19 is 0"],
            ["2.0 p16 is 0", "2.1 p17 is 0", "3.0 p63 is 0"], []])

    def test_group_before(self):
        """A predicate is read as the group before leaves it."""
        text = bundle("mii", "(p6) adds r8=1,r0", "nop 0", "nop 0") + COMPARED + bundle(
            "mii", "(p6) adds r8=2,r0", "(p7) adds r9=2,r0", "nop 0") + END
        self.assertEqual(self.off(text), [["0.0 p6 is 0"], [], ["2.1 p7 is 0"], []])
        self.assertEqual(self.off(text, "--from", 3), [["2.1 p7 is 0"], []])

    def test_written_behind(self):
        """What a slot behind writes is told of the next group."""
        text = (COMPARED + bundle("mii", "(p7) adds r8=1,r0", "(p6) adds r9=1,r0", "cmp.eq p7,p6=r0,r0")
                + bundle("mii", "(p7) adds r8=1,r0", "(p6) adds r9=1,r0", "nop 0") + END)
        self.assertEqual(self.off(text), [[], ["1.0 p7 is 0"], ["2.1 p6 is 0"], []])

    def test_unconditional(self):
        """What clears its targets under a predicate that is 0 does so, and the predicate is told."""
        text = COMPARED + bundle("mii", "(p7) cmp.eq.unc p6,p8=r0,r0", "nop 0", "nop 0") + END
        rows = self.call(self.text(text), "--from", 2, 1)[1]
        self.assertEqual(rows[1:3], ["  1.0  line 7  (p7) cmp.eq.unc p6,p8=r0,r0  // p7 is 0", "    p6  1 -> 0"])

    def test_branches(self):
        """Of branches nothing is said: those that aren't taken, and those that see what their group wrote. A `break` is none."""
        branches = (bundle("mib", "nop 0", "nop 0", "(p7) br.cond.sptk.few last")
                    + bundle("mib", "nop 0", "nop 0", "(p7) br.call.sptk.few b0=last")
                    + bundle("mib", "nop 0", "nop 0", "(p7) br.ret.sptk.few b0")
                    + bundle("mib", "nop 0", "cmp.eq p7,p6=r0,r0", "(p7) br.cond.sptk.few last"))
        found = self.off(COMPARED + branches + END + "last:\n" + bundle("mib", "nop 0", "(p6) break 0", "(p6) nop 0") + END)
        self.assertEqual(found, [[], [], [], [], [], ["6.1 p6 is 0", "6.2 p6 is 0"], []])

    def test_check(self):
        text = COMPARED + bundle("mib", "(p7) chk.a.nc r8,last", "nop 0", "nop 0") + "last:\n" + END
        self.assertEqual(self.off(text), [[], ["1.0 p7 is 0"], []])

    def test_watched(self):
        text = COMPARED + bundle("mii", "(p7) adds r8=1,r0", "(p6) adds r9=1,r0", "nop 0") + END
        self.assertEqual(self.off(text, "--watch", "r9"), [["1.0 p7 is 0"]])

    def test_every_form(self):
        """Of every form that takes a predicate either it is told, and then the program finds a violation where a slot before it
        in its group writes the predicate; or neither is so."""
        tried = []
        for unit, text in probes.examples():
            slot = "mibfx".index(unit) if unit in "mib" else 1
            guarded = "(p6) " + re.sub(r"^\(p\d+\) ", "", text)
            probe = probes.WRITERS["p6"] + probes.BUNDLES[unit].format(guarded) + "x:\n" + END
            status, image = raw("build", data=probe.encode())
            if status == 0:
                is_told = bool(steps.GUARDED.match(Program(lambda: PROGRAM).listing(image)[1][slot]))
                self.assertEqual(is_told, f"RAW p6 0.0 1.{slot}" in raw("check", data=image)[1].decode().splitlines(), guarded)
                tried.append(is_told)
        self.assertGreater(tried.count(True), 100)
        self.assertGreater(tried.count(False), 5)


# ---- Changes ---------------------------------------------------------------------------------------------

class Changes(Traced):
    """What is told of each kind of change."""

    def test_rotation(self):
        rows = self.call(example("pipelined_loop"), 1, "--from", 3)[1]
        self.assertEqual(rows[4:-1], [
            "    rename bases      r 0, f 0, p 0 -> r 7, f 95, p 47",
            "    renamed           r32 to r38 -> r33 to r39, r39 -> r32, p16 to p62 -> p17 to p63, p63 -> p16",
            "    r14               0x100000 -> 0x100008",
            "    r33 (r32 before)  0x0 -> 0xa (10)",
            "    p16 (p63 before)  0 -> 1",
            "    ar.lc             0x3 -> 0x2"])

    def test_call(self):
        found = [[re.sub(" {2,}", "  ", row.strip()) for row in group] for group in self.groups(example("call"))]
        self.assertEqual(found, [
            ["frame  sof 0, sol 0 -> sof 2, sol 1"],
            ["frame  cell 0, sof 2, sol 1 -> cell 1, sof 1, sol 0", "r32  in the frame -> below it", "renamed  r33 -> r32",
             "r32 (r33 before)  0x0 -> 0x15 (21)", "b0 (rp)  0x0 -> 0x10020 (bundle 2)",
             "ar.pfs  0x0 -> 0xc000000000000082 (sof 2, sol 1)"],
            ["frame  sof 1, sol 0 -> sof 2, sol 2", "r8 (ret0)  0x0 -> 0x2a (42)",
             "r33  outside the frame -> 0xc000000000000082"],
            ["nothing changes"],
            ["frame  cell 1, sol 2 -> cell 0, sol 1", "r32  below the frame -> in it again", "renamed  r32 -> r33"],
            ["nothing changes"]])

    def groups(self, *words):
        """The lines of the changes of each group."""
        found = []
        for row in self.call(*words)[1]:
            if row.startswith("group "):
                found.append([])
            elif row.startswith("    "):
                found[-1].append(row)
        return found

    def test_rotated_call(self):
        """A call of a frame that is rotated, and the return to it."""
        found = [[re.sub(" {2,}", "  ", row.strip()) for row in group] for group in
                 self.groups(tried("call_of_a_rotated_frame"))]
        self.assertEqual(found[3][:4], [
            "frame  cell 0, sof 10, sol 8, sor 1 -> cell 8, sof 2, sol 0, sor 0",
            "rename bases  r 7, f 95, p 47 -> r 0, f 0, p 0",
            "r32 to r39  in the frame -> below it", "renamed  r40 to r41 -> r32 to r33, p16 -> p63, p17 to p63 -> p16 to p62"])
        self.assertEqual(found[7], [
            "frame  cell 8, sof 16, sol 16, sor 0 -> cell 0, sof 10, sol 8, sor 1",
            "rename bases  r 0, f 0, p 0 -> r 7, f 95, p 47",
            "r32 to r39  below the frame -> in it again",
            "renamed  r32 to r33 -> r40 to r41, p16 to p62 -> p17 to p63, p63 -> p16",
            "ar.ec  0x0 -> 0x5"])

    def test_outputs(self):
        """Registers behind the locals are outputs; in a frame without locals none is called one."""
        alloc = bundle("mii", "alloc r8=ar.pfs,0,1,2,0", "nop 0", "nop 0")
        self.assertEqual(self.told(alloc + bundle("mii", "adds r32=1,r0", "adds r33=2,r0", "adds r34=3,r0") + END)[1],
                         ["r32  0x0 -> 0x1", "r33 (out0)  0x0 -> 0x2", "r34 (out1)  0x0 -> 0x3"])
        alloc = alloc.replace("0,1,2,0", "0,0,2,0")
        self.assertEqual(self.told(alloc + bundle("mii", "adds r32=1,r0", "nop 0", "nop 0") + END)[1], ["r32  0x0 -> 0x1"])

    def test_numbers(self):
        """A number from 10 to 65,535 and from -65,535 to -1 is told in decimal too."""
        for number, said in ((9, "0x9"), (10, "0xa (10)"), (0xFFFF, "0xffff (65535)"), (0x10000, "0x10000"),
                             (-1, "0xffffffffffffffff (-1)"), (-0xFFFF, "0xffffffffffff0001 (-65535)"),
                             (-0x10000, "0xffffffffffff0000"), (1 << 63, "0x8000000000000000")):
            self.assertEqual(self.told(bundle("mlx", "nop 0", f"movl r14={number}") + END)[0], [f"r14  0x0 -> {said}"])

    def test_all_general_registers(self):
        """The first and the last of the static registers, and the last of the largest frame."""
        alloc = bundle("mii", "alloc r2=ar.pfs,0,96,0,0", "nop 0", "nop 0")
        self.assertEqual(self.told(alloc + bundle("mii", "adds r1=1,r0", "adds r31=2,r0", "adds r127=3,r0") + END)[1],
                         ["r1 (gp)  0x0 -> 0x1", "r31  0x0 -> 0x2", "r127  0x0 -> 0x3"])

    def test_nat(self):
        first, second = (bundle("mii", slot, "nop 0", "nop 0") for slot in ("ld8.s r8=[r0]", "adds r8=0,r0"))
        found = self.told(first + second + END)
        self.assertEqual(found[:2], [["r8 (ret0)  0x0 -> 0x0 nat"], ["r8 (ret0)  0x0 nat -> 0x0"]])

    def test_registers_of_all_kinds(self):
        found = self.told(bundle("mmi", "mov.m ar.unat=5", "adds r12=16,r0", "mov.i ar.ec=3")
                          + bundle("mmi", "mov.m ar.unat=0", "cmp.eq p6,p7=r0,r0", "mov.i ar.lc=-1")
                          + bundle("mlx", "nop 0", "movl r9=last") + bundle("mii", "nop 0", "mov b6=r9", "mov.i ar.pfs=5")
                          + "last:\n" + END)
        self.assertEqual(found, [
            ["r12 (sp)  0x0 -> 0x10 (16)", "ar.unat  0x0 -> 0x5", "ar.ec  0x0 -> 0x3"],
            ["p6  0 -> 1", "ar.unat  0x5 -> 0x0", "ar.lc  0x0 -> 0xffffffffffffffff (-1)"],
            ["r9 (ret1)  0x0 -> 0x10040"],
            ["b6  0x0 -> 0x10040 (bundle 4, last)", "ar.pfs  0x0 -> 0x5 (sof 5, sol 0)"],
            ["nothing changes"]])

    def test_frames_of_pfs(self):
        """The parts of the frame in ar.pfs, with the largest numbers that each may have and with one bit of each alone."""
        for sof, sol, sor in ((96, 96, 12), (96, 64, 8), (127, 127, 15), (64, 0, 0), (0, 64, 0), (0, 0, 8)):
            value = sor << 14 | sol << 7 | sof
            frame = f"sof {sof}, sol {sol}" + f", sor {sor}" * (sor != 0)
            text = bundle("mlx", "nop 0", f"movl r14={value}") + bundle("mii", "nop 0", "mov.i ar.pfs=r14", "nop 0") + END
            self.assertEqual(self.told(text)[1], [f"ar.pfs  0x0 -> {value:#x} ({frame})"])

    def test_memory(self):
        found = self.told(bundle("mlx", "nop 0", "movl r14=words") + bundle("mii", "adds r15=-2,r0", "adds r16=8,r14", "nop 0")
                          + bundle("mmi", "st8 [r14]=r15", "st1 [r16]=r15", "nop 0") + END + ".data\nwords:\ndata8 1,0x100\n")
        self.assertEqual(found[2], ["[0x100000]  0x1 -> 0xfffffffffffffffe (-2)", "[0x100008]  0x100 (256) -> 0x1fe (510)"])

    def test_alat(self):
        rows = [row.strip() for group in self.groups(tried("alat_rules")) for row in group if "alat" in row]
        self.assertEqual([re.sub(" {2,}", "  ", row) for row in rows], [
            "alat r8  no entry -> [0x100000], 8 bytes", "alat r9  no entry -> [0x100008], 8 bytes",
            "alat r8  [0x100000], 8 bytes -> no entry", "alat r9  [0x100008], 8 bytes -> no entry",
            "alat r8  no entry -> [0x100000], 8 bytes", "alat r33  no entry -> [0x100000], 8 bytes",
            "alat r34  [0x100000], 8 bytes -> no entry", "alat r8  [0x100000], 8 bytes -> no entry",
            "alat r13  no entry -> [0x100000], 8 bytes"])

    def test_alat_made_anew(self):
        """An entry that is made as it was is the newest then; one that was the newest is as it was."""
        load = "ld1.a r8=[r14]"
        text = (bundle("mlx", "nop 0", "movl r14=0x100000") + bundle("mmi", load, "ld2.a r9=[r14]", "nop 0")
                + bundle("mii", load, "nop 0", "nop 0") + bundle("mii", load, "nop 0", "nop 0") + END + ".data\ndata8 0\n")
        self.assertEqual(self.told(text)[1:4], [
            ["alat r8  no entry -> [0x100000], 1 byte", "alat r9  no entry -> [0x100000], 2 bytes"],
            ["alat r8  [0x100000], 1 byte -> the same, and the newest"], ["nothing changes"]])

    def test_alat_below_the_frame(self):
        """An entry of a register of the caller is told by its cell, where the frame doesn't have that."""
        text = (bundle("mlx", "alloc r32=ar.pfs,0,2,0,0", "movl r14=0x100000")
                + bundle("mmi", "ld8.a r33=[r14]", "nop 0", "nop 0")
                + bundle("mib", "nop 0", "nop 0", "br.call.sptk b0=callee") + END
                + "callee:\n" + bundle("mmi", "invala", "nop 0", "nop 0") + END + ".data\ndata8 7\n")
        found = self.told(text)
        self.assertEqual(found[1], ["r33  0x0 -> 0x7", "alat r33  no entry -> [0x100000], 8 bytes"])
        self.assertIn("r32 to r33  in the frame -> below it", found[2])
        self.assertEqual(found[3], ["alat cell 1  [0x100000], 8 bytes -> no entry"])

    def test_spills(self):
        found = self.groups(example("deep_recursion"), 503)
        rows = [re.sub(" {2,}", "  ", row.strip()) for group in found for row in group if row.strip().startswith("rse")]
        self.assertEqual((rows[0], rows[-1]), ("rse  from cell 0, spilled 0 -> from cell 16, spilled 16",
                                               "rse  from cell 16, filled 1488 -> from cell 0, filled 1504"))
        self.assertEqual(len(rows), 2 * 94)


# ---- Names that are watched ------------------------------------------------------------------------------

class Watched(Traced):
    def test_registers(self):
        status, rows, _ = self.call(example("count"), "--watch", "r8")
        self.assertEqual((status, len(rows), rows[:4]), (0, 41, [*COUNTED[8:12]]))
        self.assertEqual(rows[-1], LAST[-1])

    def test_moved(self):
        """A name that means another cell or place, and what stood there under another name."""
        found = self.told(example("pipelined_loop").read_text(), "--watch", "r33,r34,p17", "--from", 3)
        self.assertEqual(found, [
            ["r33  0x0 -> 0xa (10)", "p17  0 -> 1, as p16 had"],
            ["r33  0xa (10) -> 0xb (11)", "r34  0x0 -> 0xa (10), as r33 had"],
            ["r33  0xb (11) -> 0x14 (20)", "r34  0xa (10) -> 0xb (11), as r33 had"],
            ["r33  0x14 (20) -> 0x1", "r34  0xb (11) -> 0x14 (20), as r33 had"],
            ["r33  0x1 -> 0x0, as r32 had", "r34  0x14 (20) -> 0x1, as r33 had", "p17  1 -> 0, as p16 had"]])

    def test_held_before(self):
        """What another name had is said where the place held the same before the group, written anew or not, and not where it
        held something else: `br.ctop` writes a 1 to p63, which is p16 behind it."""
        loop = "loop:\n" + bundle("mib", "adds r32=7,r0", "nop 0", "br.ctop.sptk.few loop") + END
        for number, predicates, register, predicate in ((6, 0, "0x0 -> 0x7", "0 -> 1"),
                                                        (7, -1 << 17, "0x0 -> 0x7, as r32 had", "0 -> 1, as p63 had")):
            begin = bundle("mii", "alloc r8=ar.pfs,0,8,0,8", "nop 0", "nop 0") + bundle(
                "mii", f"adds r32={number},r0", f"mov pr.rot={predicates}", "mov.i ar.lc=5")
            self.assertEqual(self.told(begin + loop, "--watch", "r33,p16", "--from", 3, 1),
                             [[f"r33  {register}", f"p16  {predicate}"]])

    def test_frame(self):
        found = self.told(example("call").read_text(), "--watch", "frame,r33,rse")
        self.assertEqual(found, [
            ["frame  sof 0, sol 0 -> sof 2, sol 1", "r33  outside the frame -> 0x0", "rse  up to cell 0 -> up to cell 2"],
            ["frame  cell 0, sof 2, sol 1 -> cell 1, sof 1, sol 0", "r33  0x0 -> outside the frame"],
            ["frame  sof 1, sol 0 -> sof 2, sol 2", "r33  outside the frame -> 0xc000000000000082",
             "rse  up to cell 2 -> up to cell 3"],
            ["frame  cell 1, sol 2 -> cell 0, sol 1", "r33  0xc000000000000082 -> 0x15 (21), as r32 had",
             "rse  up to cell 3 -> up to cell 2"]])

    def test_used_names(self):
        text = bundle("mii", "adds r12=16,r0", "adds r8=1,r0", "nop 0") + END
        self.assertEqual(self.told(text, "--watch", "sp,r9"), [["r12 (sp)  0x0 -> 0x10 (16)"]])
        self.assertEqual(self.told(text, "--watch", "r9,r8", "--watch", "ret0"), [["r8 (ret0)  0x0 -> 0x1"]])

    def test_data_and_alat(self):
        found = self.told(tried("alat_rules").read_text(), "--watch", "[0x100000],alat")
        self.assertEqual(found[:2], [
            ["alat r8  no entry -> [0x100000], 8 bytes", "alat r9  no entry -> [0x100008], 8 bytes"],
            ["[0x100000]  0x1122334455667788 -> 0x1122334408667788", "alat r8  [0x100000], 8 bytes -> no entry"]])

    def test_none(self):
        self.gives(0, ["no group that was looked at changed r60, r12 (sp), [0x100008]", "the run ended at 4.2 with break 0x0, "
                       "after 8 groups"], example("pipelined_loop"), "--watch", "r60,sp,[0x100008]")

    def test_limit(self):
        status, rows, _ = self.call(self.text(ENDLESS), "--watch", "r9")
        self.assertEqual((status, rows[-1]), (8, "the run goes on at 0.0 (loop) with group 10001: --from 10001 tells it"))

    def test_refused(self):
        for word in ("r0", "r128", "p0", "p64", "b8", "ar.itc", "r8,", "", "[8]", "R8", "r08", "in0", "pr", "[0x100008",
                     "r1\u0663", "p1\u0663"):
            self.refuses("none that can be watched", example("count"), "--watch", word)
        self.refuses("[0x100008] can't be watched: the program has no data", example("count"), "--watch", "[0x100008]")
        for address in ("[0x100004]", "[0xffff8]", "[0x100020]"):
            self.refuses(f"{address} is no word of the data: those stand at multiples of 8, 0x100000 to 0x100018",
                         example("pipelined_loop"), "--watch", address)


# ---- Other answers ---------------------------------------------------------------------------------------

class Refused(Traced):
    def test_violations(self):
        status, rows, error = self.call(example("swap"))
        self.assertEqual((status, rows), (1, ["violations 1", "RAW r10 1.0 1.2"]))
        self.assertIn(f"ia64 orders {example('swap')}", error)

    def test_no_program(self):
        status, rows, error = self.call(self.text("{ .mii\n"))
        self.assertEqual((status, rows), (3, ["line 2: misplaced"]))
        self.assertTrue(error.endswith(": refused, line 2: misplaced: the line may not stand there\n"), error)
        image = self.folder / "cut.image"
        image.write_bytes((ROOT / "examples/three_nops.image").read_bytes()[:39])
        self.assertEqual(self.call(image)[:2], (3, ["image: length"]))

    def test_code(self):
        self.refuses(f"`ia64 call {ROOT / 'examples/functions.o'} swap --image PATH` makes an image of a call", ROOT / "examples/functions.o")
        status, rows, error = self.call(self.text(".explicit\n"))
        self.assertEqual((status, rows), (3, ["line 1: name"]))
        self.assertIn("'.explicit' is of a source for the GNU assembler", error)

    def test_words(self):
        self.refuses("ia64: trace: FILE is missing; `ia64 trace --help` says what it takes")
        for words in (("0", "101"), ("01", "1"), ("10000001", "1"), ("5",), ("0", "1", example("count")),
                      (example("count"), "1", "2"), (example("count"), "1", "--from", "2", "3")):
            self.refuses("ia64 trace FILE 20, or ia64 trace 0 20 < FILE", *words)
        for words in ((example("count"), "0"), (example("count"), "01"), (example("count"), "10000001"), (example("count"), "x")):
            self.refuses("is no number from 1 to 10000000", *words)
        self.refuses("is no number from 1 to 10000000", example("count"), "--from", "0")
        self.refuses("invalid choice: 'sarif'", example("count"), "--format", "sarif")
        self.refuses("No such file or directory", "\u0665")

    def test_without_python(self):
        """The wrapper itself names both numbers as all pages do."""
        (self.folder / "bash").symlink_to(shutil.which("bash"))
        done = subprocess.run([ROOT / "ia64", "trace"], env={"PATH": str(self.folder)}, stdin=subprocess.DEVNULL,
                              stdout=subprocess.PIPE, stderr=subprocess.PIPE, text=True, check=False)
        self.assertEqual((done.returncode, done.stdout), (125, ""))
        self.assertIn("|groups N K|trace FIRST COUNT|build|", done.stderr)

    def test_no_trace(self):
        program = self.folder / "stranger"
        program.write_text(STRANGER.format(program=PROGRAM))
        program.chmod(0o755)
        self.program = str(program)
        self.refuses("a state was printed that isn't known here", example("count"))


class Documents(Traced):
    def test_whole(self):
        status, printed, error = self.ia64("trace", example("count"), 3, "--format", "json")
        self.assertEqual((status, error), (8, ""))
        document = json.loads(printed)
        self.assertEqual({**document, "steps": len(document["steps"])}, {
            "file": str(example("count")), "steps": 3, "first": 1, "groups": 3, "end": "limit at 1.0", "status": 8,
            "reached": None})
        self.assertEqual(document["steps"][2], {
            "number": 3, "first": "2.0", "last": "2.2", "how": "taken", "next": "1.0", "end": "limit at 1.0",
            "slots": [{"place": "2.0", "text": "nop.m 0", "source": "line 33", "off": None},
                      {"place": "2.1", "text": "add r8=r8,r9", "source": "line 34", "off": None},
                      {"place": "2.2", "text": "br.cloop.sptk.few loop", "source": "line 35", "off": None}],
            "changes": [{"name": "r8 (ret0)", "old": "0x0", "new": "0x1"}, {"name": "ar.lc", "old": "0x9", "new": "0x8"}]})

    def test_ends(self):
        for words, wanted in ((("--from", 22), (1, 0, "break 0x0 at 3.2", None)),
                              (("--from", 99), (0, 0, "break 0x0 at 3.2", None)),
                              (("--until", "loop"), (1, 8, "limit at 1.0", True)),
                              (("--until", "2.1"), (22, 0, "break 0x0 at 3.2", False))):
            status, printed, _ = self.ia64("trace", example("count"), *words, "--format", "json")
            document = json.loads(printed)
            self.assertEqual((len(document["steps"]), status, document["end"], document["reached"]), wanted)
            self.assertEqual(document["status"], status)

    def test_image(self):
        printed = self.ia64("trace", ROOT / "examples/three_nops.image", "--format", "json")[1]
        step = json.loads(printed)["steps"][0]
        self.assertEqual((step["next"], step["slots"][0]),
                         (None, {"place": "0.0", "text": "nop.m 0x0", "source": None, "off": None}))

    def test_predicates(self):
        printed = self.ia64("trace", example("pipelined_loop"), "--from", 3, 1, "--format", "json")[1]
        self.assertEqual([slot["off"] for slot in json.loads(printed)["steps"][0]["slots"]], [None, "p17", None])


class Pieces(Traced):
    """A run is asked for in pieces, and the groups follow one another over their edges."""

    def setUp(self):
        super().setUp()
        self.log, listener = self.folder / "log", self.folder / "listener"
        listener.write_text(LISTENER.format(log=self.log, program=PROGRAM))
        listener.chmod(0o755)
        self.program = str(listener)

    def asked(self):
        return [row for row in self.log.read_text().splitlines() if row.startswith("trace")]

    def test_numbers(self):
        rows = self.told(ENDLESS, 250)
        self.assertEqual(self.asked(), ["trace 0 100", "trace 100 100", "trace 200 50"])
        self.assertEqual([int(row[0].split(" -> 0x")[1].split(" ")[0], 16) for row in rows], list(range(1, 251)))

    def test_end_at_an_edge(self):
        """A run that ends with the last group of a piece isn't asked for once more."""
        text = bundle("mlx", "nop 0", "movl r9=97") + bundle("mii", "nop 0", "mov.i ar.lc=r9", "nop 0") + "loop:\n" + bundle(
            "mib", "nop 0", "nop 0", "br.cloop.sptk loop")
        self.assertEqual(len(self.told(text + END, 1000)), 101)
        self.assertEqual(self.asked(), ["trace 0 100", "trace 100 100"])
        self.log.unlink()
        self.assertEqual(len(self.told(text.replace("97", "96") + END, 1000)), 100)
        self.assertEqual(self.asked(), ["trace 0 100"])

    def test_until_at_an_edge(self):
        self.told(ENDLESS, "--until", "loop")
        self.assertEqual(self.asked(), ["trace 0 100"])

    def test_large_states(self):
        """With all data a piece has two groups: each state is 4.7 megabytes long."""
        words = ("data8 " + ",".join(["-1"] * 32) + "\n") * 4096
        self.assertEqual(self.told(ENDLESS + ".data\n" + words, 5)[4], ["r8 (ret0)  0x4 -> 0x5"])
        self.assertEqual(self.asked(), ["trace 0 2", "trace 2 2", "trace 4 1"])
        for row in self.asked():
            self.assertLess(len(raw(*row.split(" "), data=self.text(ENDLESS + ".data\n" + words).read_bytes())[1]), 16_000_000)


# ---- All of it -------------------------------------------------------------------------------------------

class Replay:
    """A state that is made of what is told of each group: registers of the frame and predicates from p16 up by their numbers,
    all other registers and words of the data by their names, and how many entries the ALAT has."""

    def __init__(self, state):
        self.size, self.registers, self.predicates = 0, {}, {number: "0" for number in range(16, 64)}
        self.values, self.below, self.entries = {**values_of(lines_of(state))}, [], 0

    def add(self, step):
        self.rename(step.changes)
        for name, old, new in step.changes:
            if name.startswith("alat"):
                self.entries += (old == "no entry") - (new == "no entry")
            elif " -> ".join([old, new]).count("frame") != 1 or old == OUTSIDE:
                self.write(name, without_notes(old), without_notes(new))

    def rename(self, told):
        """Gives registers and predicates other names, and the frame its size."""
        rows = {"r": {}, "p": {}}
        sources = {"r": self.registers, "p": self.predicates}
        for name, old, new in told:
            if (old, new) == LEFT:
                self.below.append([self.registers.pop(number) for number in numbers(name)])
            elif (old, new) == BACK:
                rows["r"].update(zip(numbers(name), self.below.pop()))
            elif name == "renamed":
                rows[old[0]].update((number, sources[old[0]].pop(was)) for was, number in zip(numbers(old), numbers(new)))
            elif name == "frame":
                self.size = int((re.findall(r"sof (\d+)", new) or [self.size])[0])
        self.predicates.update(rows["p"])
        held = {**self.registers, **rows["r"]}
        self.registers = {number: held.get(number, "0x0") for number in range(32, 32 + self.size)}

    def write(self, name, old, new):
        """Puts in the value of a register, a predicate or a word, where the one that was there is that which is told."""
        named = re.fullmatch(r"([rp])(\d+)", without_notes(name))
        if named and int(named[2]) >= {"r": 32, "p": 16}[named[1]]:
            held, key, nothing = {"r": self.registers, "p": self.predicates}[named[1]], int(named[2]), None
        elif re.match(r"[rpb]\d|ar\.|\[", name):
            held, key, nothing = self.values, without_notes(name), "0" if named and named[1] == "p" else "0x0"
        else:
            return
        assert held.get(key, nothing) == old.replace(OUTSIDE, "0x0"), (name, held.get(key), old)
        held[key] = new

    def state(self):
        values = {name: value for name, value in self.values.items() if value not in ("0", "0x0")}
        return self.registers, self.predicates, values, self.entries


OUTSIDE = "outside the frame"
LEFT, BACK = ("in the frame", "below it"), ("below the frame", "in it again")


def without_notes(said):
    return re.sub(r" \([^)]*\)", "", said)


def numbers(span):
    """The numbers of a span of registers: `r32 to r34`."""
    first, _, last = span.partition(" to ")
    return list(range(int(first[1:]), int((last or first)[1:]) + 1))


def short(printed):
    digits, _, nat = printed.partition(" ")
    return f"{int(digits, 16):#x}" + f" {nat}" * bool(nat)


def values_of(rows):
    """What a printed state has of static registers, branch and application registers, and words of the data."""
    names = [name for name in rows if re.fullmatch(r"r(\d|[12]\d|3[01])|b\d|ar\.\w+|m \w+", name)]
    return {f"[{int(name[2:], 16):#x}]" if name[0] == "m" else name: short(rows[name]) for name in names}


def wanted_of(state):
    """What a printed state is by the names of a replay."""
    rows = lines_of(state)
    size, base, places = int(rows["frame"].split(" ")[2]), int(rows["frame"].split(" ")[-1]), int(rows["pr"], 16)
    predicates = {16 + number: str(places >> 16 + (number + base) % 48 & 1) for number in range(48)}
    values = {**values_of(rows), **{f"p{number}": "1" for number in range(1, 16) if places >> number & 1}}
    return ({number: short(rows.get(f"r{number}", "0")) for number in range(32, 32 + size)}, predicates, values,
            sum(name.startswith("alat ") for name in rows))


def off_of(image, slots, state):
    """Of these slots those that aren't branches and whose predicate is 0 in a printed state, by the words of the slots."""
    rows, bundles = lines_of(state), steps.bundles_of(image)
    base, places, found = int(rows["frame"].split(" ")[-1]), int(rows["pr"], 16), []
    for index, slot in slots:
        unit, words = bundles[index].units[slot], bundles[index].words
        word = words[2] if unit == "l" else words[slot]
        number, major = word & 63, word >> 37
        is_branch = unit == "b" and (major in (1, 4, 5) or major == 0 and word >> 32 & 1)
        place = number if number < 16 else 16 + (number - 16 + base) % 48
        if not is_branch and not places >> place & 1:
            found.append(((index, slot), f"p{number}"))
    return found


class Whole(unittest.TestCase):
    """All examples, lessons and tests that are accepted: what is told of each group makes the state behind it, and which of its
    slots have a predicate that is 0 is what their words say."""

    def test_states(self):
        program, told, off = Program(lambda: PROGRAM), 0, 0
        folders = (ROOT / "examples", ROOT / "examples/lessons", ROOT / "tests/run")
        for path in [path for folder in folders for path in sorted(folder.glob("*.s"))]:
            status, image = raw("build", data=path.read_bytes())
            if status == 0 and raw("check", data=image)[0] == 0:
                with self.subTest(path.stem):
                    found = self.replayed(program, image)
                    told += len(found)
                    off += sum(len(step.off) for step in found)
        self.assertGreater(told, 1000)
        self.assertGreater(off, 40)

    def replayed(self, program, image):
        """Holds each of the first groups of a run, and its line, to what the program prints; these groups."""
        begin, *parts = re.split(r"(?m)^(\d+ \d+\.\d \d+\.\d \w+)\n", raw("trace", 0, 100, data=image)[1].decode())
        replay, told = Replay(begin), list(steps.steps(program, image, 1, 100, Code(program, image)))
        self.assertEqual(len(told), len(parts) // 2)
        for step, before, line, state in zip(told, [begin, *parts[1::2]], parts[::2], parts[1::2]):
            self.assertEqual(f"{step.number} {place(step.first)} {place(step.last)} {step.how}", line)
            self.assertEqual((step.slots[0], step.slots[-1], f"end {step.end}"), (step.first, step.last, state.split("\n")[0]))
            self.assertEqual(step.off, off_of(image, step.slots, before), step)
            replay.add(step)
            self.assertEqual(replay.state(), wanted_of(state), step)
        return told


def place(position):
    return "{}.{}".format(*position)


class Units(unittest.TestCase):
    """Parts by themselves."""

    def test_stretches(self):
        self.assertEqual(changes.stretches([(1, 2), (2, 3), (3, 5), (4, 6), (9, 1)]),
                         [[(1, 2), (2, 3)], [(3, 5), (4, 6)], [(9, 1), (9, 1)]])

    def test_made_anew(self):
        for before, after, wanted in (("abc", "abc", ""), ("abc", "bca", "a"), ("abc", "acb", "b"), ("abc", "cab", "ab"),
                                      ("", "", "")):
            self.assertEqual(changes.made_anew(list(before), list(after)), list(wanted))

    def test_pieces(self):
        """A piece of so many groups, with the state in front, has no more bytes than are wanted, or two states."""
        for words, wanted in ((0, 100), (1000, 100), (20_000, 21), (131_072, 2)):
            image = b"IA64IMG2" + (1).to_bytes(4, "little") + bytes(4) + (8 * words).to_bytes(4, "little") + bytes(4)
            self.assertEqual(steps.groups_of_a_piece(image), wanted)

    def test_violations(self):
        """A program with violations has no steps, and its verdict is told."""
        with self.assertRaises(steps.Violated) as found:
            next(steps.steps(Program(lambda: PROGRAM), raw("build", data=example("swap").read_bytes())[1]))
        self.assertEqual(str(found.exception), "violations 1\nRAW r10 1.0 1.2\n")

    def test_names(self):
        self.assertEqual(watching.names_of("r8,sp,rp,p6,[0x100008],ar.lc,alat"),
                         ["r8", "r12", "b0", "p6", "m 0000000000100008", "ar.lc", "alat"])


if __name__ == "__main__":
    unittest.main()
