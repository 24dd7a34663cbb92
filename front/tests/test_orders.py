"""The states that several orders of a group's writes leave, of all groups of a run and of one: on the examples that have a
wrong group, and on states that a stand-in prints. Which writes a slot has is held to the built program."""

import os
import re
import subprocess
import sys
import unittest
from itertools import permutations
from pathlib import Path

from front import command
from front.ordering import one_group, order_words, orders, split, states, writes
from front.program import Program
from front.tests.case import FRONT, PROGRAM, ROOT, Case, asked
from front.ordering.writes import arranged

PAGE = ROOT / "docs" / "use" / "wrong_groups.md"

REVERSE = orders.REVERSE
ALONE = "Slot by slot isn't shown: the program has no bundle"
NEEDNT = "slot by slot, which the hardware needn't do"

# What the stand-in does: it prints the file that has the name of its command, for `groups` with the number of the order
# behind it where there is one, and ends with the status that the file's first line has.
STAND_IN = """#!/bin/sh
cat > /dev/null
cd "$(dirname "$0")"
file=$1
if [ -e "$1$3" ]; then file=$1$3; fi
sed 1d "$file"
exit "$(head -n 1 "$file")"
"""


def state(*lines, end="break 0x0 at 2.2"):
    return "".join(f"{line}\n" for line in (f"end {end}", "groups 3", *lines))


class Compared(Case):
    """Calls of `ia64 orders`."""

    def setUp(self):
        super().setUp()
        self.input = self.folder / "input"
        self.input.write_bytes(b"")

    def stand_in(self, **printed):
        """The calls that follow ask a stand-in, which prints these states and ends with these statuses."""
        self.program = str(self.folder / "stand_in")
        Path(self.program).write_text(STAND_IN)
        Path(self.program).chmod(0o755)
        for name, (status, text) in printed.items():
            (self.folder / name).write_text(f"{status}\n{text}")

    def call(self, *words):
        """Its status, the lines of standard output, and standard error."""
        return self.lines("orders", *words)

    def gives(self, status, lines, *words):
        self.assertEqual(self.call(*words), (status, lines, ""))

    def refuses(self, text, *words):
        """The tool says this on standard error, prints nothing and ends with status 2."""
        status, lines, error = self.call(*words)
        self.assertEqual((status, lines), (2, []))
        self.assertIn(text, error)


def example(name):
    return ROOT / "examples" / f"{name}.s"


class Examples(Compared):
    """The examples, with the built program."""

    def test_accepted(self):
        self.gives(0, ["accepted: run and 15 orders leave one state, end break 0x0 at 3.2"], example("count"))
        self.gives(0, ["accepted: run and 2 orders leave one state, end limit at 1.0"],
                   "-n", 3, "--orders", "1,9", "--random", 0, example("count"))

    def test_a_read_after_a_write(self):
        """No order shows it, and slot by slot does."""
        self.gives(1, ["violations 1: 2 orders leave one state, end break 0x0 at 2.2, and slot by slot another one",
                       "state 1: K 0, 1", "", "    state 1  slot by slot", "r9  -        0000000000000001"],
                   "--orders", "0,1", "--random", 0, example("swap"))
        self.gives(3, ["violations 1: 1 order leaves one state, end limit at 1.0. "
                       "Slot by slot isn't shown: the run doesn't end within 1 group"],
                   "--orders", "0", "--random", 0, "-n", 1, example("swap"))

    def test_two_writes(self):
        wanted = ["violations 1: 4 orders leave 2 states, and slot by slot state 1", "state 1: slot by slot, K 0, 2",
                  f"state 2: K 1, {REVERSE}", "",
                  "    state 1           state 2", "r8  0000000000000002  0000000000000001"]
        words = ("--orders", f"0,1,2,{REVERSE}", "--random", 0)
        self.gives(1, wanted, *words, example("override"))
        with open(example("override"), "rb") as text, open(self.input, "wb") as image:
            subprocess.run([PROGRAM, "build"], stdin=text, stdout=image, check=True)
        self.gives(1, wanted, *words, self.input)

    def test_a_late_alloc(self):
        status, lines, _ = self.call("--orders", "0,1,2,3,4,5", "--random", 0, example("late_alloc"))
        self.assertEqual((status, lines[1:3]), (1, ["state 1: slot by slot, K 0, 1, 4", "state 2: K 2, 3, 5"]))
        self.assertEqual([line.split(" ")[0] for line in lines[5:]], ["frame", "rse", "r8", "r32", "r33", "ar.pfs"])

    def test_refusals(self):
        self.input.write_text("no instruction\n")
        self.refuses("input: refused, line 1: name", self.input)
        self.input.write_bytes(b"IA64IMG1")
        self.refuses("input: refused, image: short", self.input)
        self.refuses("nowhere: No such file", self.folder / "nowhere")


class Code(Compared):
    """Files that are no programs are refused by what they are, and how one is made of them is said."""

    HINT = "`ia64 call {} {} --image PATH` makes an image of a call, which run, watch, groups, trace and orders take\n"
    COMMANDS = (("orders",), ("run", 5), ("watch", 5), ("groups", 5, 0))

    def test_an_object_file(self):
        for words in (*self.COMMANDS, ("orders", "-n", 5)):
            status, printed, error = self.ia64(*words, ROOT / "examples" / "functions.o")
            self.assertEqual((status, printed), (2, b""), words)
            hint = self.HINT.format(ROOT / "examples" / "functions.o", "swap")
            self.assertTrue(error.endswith(f"functions.o: an object file or a linked one, and no program; {hint}"), error)

    def test_a_source(self):
        """A text named as a source that is refused at a directive which no text has."""
        hint = self.HINT.format(example("functions"), "FUNCTION")
        said = ("refused, line 7: name: the leading word begins no line: '.explicit'; '.explicit' is of a source for the GNU assembler; "
                f"{hint}")
        status, printed, error = self.ia64("orders", example("functions"))
        self.assertEqual((status, printed), (2, b""))
        self.assertTrue(error.endswith(f"functions.s: {said}"), error)
        for words in self.COMMANDS[1:]:
            status, printed, error = self.ia64(*words, example("functions"))
            self.assertEqual((status, printed), (3, b"line 7: name\n"))
            self.assertTrue(error.endswith(f"functions.s: {said}"), error)

    def test_a_text(self):
        """Any other refusal is the program's alone."""
        for name, text in (("x.s", "no instruction\n"), ("x", ".explicit\n"), ("x.s", ".entry 5\n")):
            Path(name).write_text(text)
            for words in self.COMMANDS:
                self.assertNotIn("call", self.ia64(*words, name)[2])


class Printing(Compared):
    """What is printed of states."""

    def test_lines(self):
        """Each line that isn't the same stands where the printed state has it, and what a state lacks is a dash."""
        one = state("r2 1", "r10 1 nat", "r127 1", "pr 1", "b0 1", "ar.unat 1", "m 0000000000100000 1",
                    "alat r8 0000000000100000 8", "alat s3 0000000000100008 4")
        two = state("r10 1", "r9 22", "pr 1", "ar.lc 1", "m 0000000000100010 1", "alat s3 0000000000100008 4",
                    end="fault OutOfFrame at 1.0")
        self.stand_in(run=(1, "violations 2\nWAW r8 0.0 0.1\nWAW r9 0.0 0.1\n"), groups=(9, two), groups0=(0, one))
        self.gives(1, [
            f"violations 2: 2 orders leave 2 states. {ALONE}",
            "state 1: K 0",
            "state 2: K 7",
            "",
            "                    state 1                state 2",
            "end                 break 0x0 at 2.2       fault OutOfFrame at 1.0",
            "r2                  1                      -",
            "r9                  -                      22",
            "r10                 1 nat                  1",
            "r127                1                      -",
            "b0                  1                      -",
            "ar.unat             1                      -",
            "ar.lc               -                      1",
            "m 0000000000100000  1                      -",
            "m 0000000000100010  -                      1",
            "alat 1              r8 0000000000100000 8  s3 0000000000100008 4",
            "alat 2              s3 0000000000100008 4  -",
        ], "--orders", "0,7", "--random", 0, self.input)

    def test_a_run_that_differs(self):
        """Of an accepted program no built program prints this."""
        self.stand_in(run=(0, state("pr 1")), groups=(0, state("pr 3")), groups4=(0, state("pr 1")))
        self.gives(1, ["accepted: run and 3 orders leave 2 states", "state 1: run, K 4", "state 2: K 0, 5", "",
                       "    state 1  state 2", "pr  1        3"], "--orders", "0,4,5", "--random", 0, self.input)

    def test_one_state(self):
        """Only of an accepted program it is also that of slot by slot."""
        self.stand_in(run=(9, state(end="fault Unaligned at 1.0")), groups=(9, state(end="fault Unaligned at 1.0")))
        self.gives(0, ["accepted: run and 15 orders leave one state, end fault Unaligned at 1.0"], self.input)
        self.stand_in(run=(1, "violations 2\nWAW r8 0.0 0.1\nWAW r9 0.0 0.1\n"))
        self.gives(3, [f"violations 2: 15 orders leave one state, end fault Unaligned at 1.0. {ALONE}"], self.input)

    def test_many_states(self):
        self.stand_in(run=(1, "violations 1\n"), **{f"groups{n}": (0, state(f"r8 {n}")) for n in range(5)})
        self.gives(1, [f"violations 1: 5 orders leave 5 states. {ALONE}", *(f"state {n + 1}: K {n}" for n in range(5)), "",
                       "    state 1  state 2  state 3  state 4", "r8  0        1        2        3", "",
                       "    state 5", "r8  4"], "--orders", "0,1,2,3,4", "--random", 0, self.input)

    def test_many_lines(self):
        many = state(*(f"m {n:016x} 1" for n in range(45)))
        self.stand_in(run=(1, "violations 1\n"), groups=(0, state()), groups1=(0, many))
        words = ("--orders", "0,1", "--random", 0, self.input)
        lines = self.call(*words)[1]
        self.assertEqual((len(lines), lines[-2:]), (46, [f"m {39:016x}  -        1", "and 5 lines more: --all prints them"]))
        lines = self.call("--all", *words)[1]
        self.assertEqual((len(lines), lines[-1]), (50, f"m {44:016x}  -        1"))

    def test_many_orders(self):
        self.stand_in(run=(1, "violations 1\n"), groups=(0, state("r8 1")), groups0=(0, state("r8 2")))
        status, lines, _ = self.call("--random", 40, self.input)
        of_two = lines[2:lines.index("")]
        self.assertEqual((status, lines[1], of_two[0][:24]), (1, "state 1: K 0", "state 2: K 1, 2, 3, 4, 5"))
        self.assertTrue(all(len(line) <= 110 for line in of_two) and all(line[:9] == " " * 9 for line in of_two[1:]), of_two)
        self.assertEqual(len(re.findall(r"\d+(?=,|$)", " ".join(of_two))), 46)


class Calls(Compared):
    """Words, and a program that gives no answer."""

    def test_words(self):
        for words in ([], ["-n", "0", "x"], ["-n", "10000001", "x"], ["--orders", "", "x"], ["--orders", "1,,2", "x"],
                      ["--orders", "18446744073709551616", "x"], ["--orders", "-1", "x"], ["--orders", "07", "x"],
                      ["-n", "007", "x"], ["--groups", "5", "x"], ["--random", "x", "x"], ["x", "y"], ["x", "0"],
                      ["x", "1", "2"]):
            self.refuses("ia64: orders: ", *words)
        self.refuses("--order names the writes of one group", "--order", "0,1", "x")
        for words in (["-n", "5"], ["--orders", "1"]):
            self.refuses("-n and --orders are of all groups of a run", *words, "x", "1")

    def test_no_answer(self):
        for status, text in ((2, "has no command run"), (4, "longer than 16,777,216 bytes"), (5, "run ends with status 5"),
                             (7, "run ends with status 7")):
            self.stand_in(run=(status, ""))
            self.refuses(text, self.input)
        self.stand_in(run=(0, state()), groups=(2, ""))
        self.refuses("has no command groups", self.input)
        Path(self.program).write_text("#!/bin/sh\nkill -9 $$\n")
        self.refuses("stand_in run` ended with signal 9", self.input)
        self.program = str(self.folder / "nowhere")
        self.refuses("nowhere can't be called: No such file or directory", self.input)

    def test_numbers_of_orders(self):
        """Which orders are run: the first seven, and random ones by their seed."""
        def numbers(*words):
            options = command.parser_of("orders").parse_args([*words, "x"])
            return orders.orders_of(options.orders or orders.ORDERS, options.random, options.seed)
        self.assertEqual(numbers("--random", "0"), [0, 1, 2, 3, 4, 5, REVERSE])
        self.assertEqual(numbers("--orders", "7,9,7", "--random", "0"), [7, 9])
        self.assertEqual(len(set(numbers())), 15)
        self.assertEqual(numbers(), numbers("--seed", "1"))
        self.assertNotEqual(numbers(), numbers("--seed", "2"))
        self.assertLess(max(numbers("--random", "1000")), 2**64)

    def test_a_reader_that_goes_away(self):
        self.stand_in(run=(0, state()), groups=(0, state("r8 1")))
        reader, writer = os.pipe()
        os.close(reader)
        with asked(self.program):
            words = [sys.executable, FRONT, "orders", self.input]
            done = subprocess.run(words, stdout=writer, stderr=subprocess.PIPE, check=False)
        os.close(writer)
        self.assertEqual((done.returncode, done.stderr), (2, b""))


class Processes(Compared):
    """How often the program is called, by a wrapper that keeps the words and the input of each call."""

    WRAPPER = """#!{}
import hashlib, subprocess, sys
data = sys.stdin.buffer.read()
with open({!r}, "a") as log:
    print(*sys.argv[1:], hashlib.sha256(data).hexdigest(), file=log)
sys.exit(subprocess.run([{!r}, *sys.argv[1:]], input=data).returncode)
"""

    def called(self, *words):
        """The calls of one call of the front, as they were made."""
        self.program = str(self.folder / "wrapper")
        log = self.folder / "called"
        Path(self.program).write_text(self.WRAPPER.format(sys.executable, str(log), PROGRAM))
        Path(self.program).chmod(0o755)
        log.write_text("")
        self.assertIn(self.call(*words)[0], (0, 1, 3))
        return log.read_text().splitlines()

    def test_no_call_twice(self):
        """One for each order, and with a group one more where earlier groups are run too; and eight besides at most."""
        for words, count in (((example("swap"), 2), 6 + 8), ((example("counted_loop"), 2), 6 + 6), ((example("loop_edge"), 6), 7),
                             ((example("override"), 1), 2 + 5), ((example("read_after_write"), 1), 1 + 5),
                             ((example("swap"),), 15 + 2), ((example("count"),), 15 + 1)):
            with self.subTest(words):
                called = self.called(*words)
                self.assertEqual((len(called), sorted(called)), (count, sorted(set(called))))


class OneGroup(Compared):
    """The orders of one group's writes, with the built program."""

    # A group that writes r8 twice, and a last one.
    TWICE = "{ .mii\n addl r8=1,r0\n addl r8=2,r0\n nop 0 ;;\n}\n"
    LAST = "{ .mib\n nop 0\n nop 0\n break.b 0 ;;\n}\n"

    def test_a_swap(self):
        self.gives(1, [
            "violations 1: group 2 of the run, 1.0 to 1.2, makes 3 writes, and all 6 orders of them leave one state",
            "  1.0  add r10=r8,r0  write 0 r10",
            "  1.1  add r8=r9,r0   write 1 r8",
            "  1.2  add r9=r10,r0  write 2 r9",
            "state 1: all 6 orders; K 0, 1, 2, 3, 4, 5",
            f"{NEEDNT}: a state that no order leaves",
            "",
            "     before            state 1           slot by slot",
            "r8   0000000000000001  0000000000000002  0000000000000002",
            "r9   0000000000000002  -                 0000000000000001",
            "r10  -                 0000000000000001  0000000000000001"], example("swap"), 2)

    def test_two_writes(self):
        status, lines, _ = self.call(example("override"), 2)
        self.assertEqual((status, lines[3:6]), (1, ["state 1: 1.1, 1.2; K 0", "state 2: 1.2, 1.1; K 1", f"{NEEDNT}: state 1"]))

    def test_an_image(self):
        """It is shown as text first, and taken apart as that is."""
        with open(example("swap"), "rb") as text:
            self.input.write_bytes(subprocess.run([PROGRAM, "build"], stdin=text, stdout=subprocess.PIPE, check=True).stdout)
        self.assertEqual(self.call(self.input, 2), self.call(example("swap"), 2))

    def test_a_late_alloc(self):
        status, lines, _ = self.call(example("late_alloc"), 3)
        self.assertEqual((status, lines[1:6]), (1, [
            "  4.0  adds r9=1,r9              write 0 r9",
            "  4.1  alloc r32=ar.pfs,0,1,0,0  writes 1 frame, 2 r32",
            "state 1: 4.1:frame before 4.1:r32; K 0, 1, 4",
            "state 2: 4.1:r32 before 4.1:frame; K 2, 3, 5",
            f"{NEEDNT}: state 1"]))

    def test_named_orders(self):
        """An order is named by writes, by slots, which stand for all of their writes, or by names, and said back in all ways."""
        said = "state 2: the order 4.1:r32, 4.0, 4.1:frame (writes 2,0,1) is K 2"
        for order in ("2,0,1", "4.1:r32,4.0,4.1:frame", "2,4.0,1"):
            status, lines, _ = self.call(example("late_alloc"), 3, "--order", order)
            self.assertEqual((status, lines[4]), (1, said), order)
        lines = self.call(example("late_alloc"), 3, "--order", "4.1,4.0")[1]
        self.assertEqual(lines[4], "state 1: the order 4.1:frame, 4.1:r32, 4.0 (writes 1,2,0) is K 4")
        for order, text in (("2,0", "the order names 4.1:frame not at all"), ("0,1,2,4.0", "the order names 4.0 twice"),
                            ("2,0,3", "3 is no write of the group: 4.0, 4.1:frame, 4.1:r32"), ("", " is no write of the group")):
            self.refuses(text, example("late_alloc"), 3, "--order", order)

    def test_accepted(self):
        """`run` is slot by slot of an accepted program."""
        self.gives(0, [
            "accepted: group 2 of the run, 1.0 to 1.2, makes 3 writes, and all 6 orders of them leave one state",
            "  1.0  add r8=r8,r9          write 0 r8",
            "  1.1  adds r9=-1,r9         write 1 r9",
            "  1.2  br.cloop.sptk.few L1  write 2 ar.lc",
            "state 1: all 6 orders; K 0, 1, 2, 3, 4, 5",
            "slot by slot (run): state 1",
            "",
            "       before            state 1",
            "r8     -                 000000000000000a",
            "r9     000000000000000a  0000000000000009",
            "ar.lc  0000000000000009  0000000000000008"], example("counted_loop"), 2)

    def test_a_loop(self):
        """Where an earlier group reaches slots of this one, it is run with each number too, and an order by which it leaves
        another state isn't shown."""
        status, lines, _ = self.call(example("loop_edge"), 4)
        self.assertEqual((status, lines[3:5]), (1, ["state 1: 1.1, 1.2; K 0", "state 2: 1.2, 1.1; K 1"]))
        self.assertEqual(lines[5], "slot by slot isn't shown: the groups before this one can't be kept apart from it, "
                                   "as in a loop")
        status, lines, _ = self.call(example("loop_edge"), 6)
        self.assertEqual((status, lines[0][-48:], lines[3:5]), (3, ", and 1 of the 2 orders of them leaves one state", [
            "state 1: 1.1, 1.2 (K 0)",
            "not shown: 1 order by which groups before this one leave another state; K 1"]))

    def test_earlier_groups_that_depend_on_the_order(self):
        """They don't reach slots of this one, and an order by which they leave another state isn't shown all the same."""
        self.input.write_text(f"{self.TWICE}{{ .mii\n addl r9=1,r0\n addl r10=2,r0\n nop 0 ;;\n}}\n{self.LAST}")
        lines = self.call(self.input, 2)[1]
        self.assertTrue(lines[0].endswith(" makes 2 writes, and 1 of the 2 orders of them leaves one state"), lines[0])
        self.assertEqual(lines[3:6], ["state 1: 1.0, 1.1 (K 0)",
                                      "not shown: 1 order by which groups before this one leave another state; K 1",
                                      f"{NEEDNT}: state 1"])

    def test_breaks(self):
        """A `break` in each of some slots, a long one too, and in no other."""
        text = "{ .mlx\n addl r8=1,r0\n movl r9=-1\n}\n{ .mii\n addl r8=2,r0\n addl r9=2,r0 ;;\n addl r8=3,r0 ;;\n}\n"
        of_group = one_group.Asked(Program(lambda: PROGRAM), text.encode(), 1)
        start = text.replace("addl r8=1,r0", "break.m 0")
        group = start.replace("movl r9=-1", "break.x 0").replace("addl r8=2,r0", "break.m 0").replace("addl r9=2,r0", "break.i 0")
        for positions, wanted in (([(0, 0)], start), (of_group.reached(), group)):
            built = subprocess.run([PROGRAM, "build"], input=wanted.encode(), stdout=subprocess.PIPE, check=True).stdout
            self.assertEqual(of_group.with_breaks(positions), built)

    def test_the_end_of_a_run(self):
        self.gives(3, ["violations 1: group 1 of the run, 0.0 to 0.2, makes 1 write, which has one order",
                       "  0.1  add r8=r9,r10  write 0 r8", "  0.2  add r11=r8,r9  ends the run, fault FellOff",
                       "state 1: 0.1; K 0", f"{NEEDNT}: state 1"], example("read_after_write"), 1)
        self.refuses("the run has no group 2: groups 1, end fault FellOff at 0.2", example("read_after_write"), 2)

    def test_many_writes(self):
        """Of more than seven writes some orders are run, and the first line says of how many."""
        self.input.write_text("{ .mii\n addl r8=0,r0\n addl r8=1,r0\n addl r8=2,r0\n}\n" * 3
                              + "{ .mib\n nop 0\n nop 0\n break.b 0 ;;\n}\n")
        status, lines, _ = self.call(self.input, 1, "--random", 0)
        self.assertEqual((status, lines[0]), (1, "violations 36: group 1 of the run, 0.0 to 3.2, makes 9 writes, and 18 of the "
                                                 "362880 orders of them leave 3 states"))
        self.assertIn("state 2: the reverse of program order (K 362879);", "\n".join(lines))

    def test_slot_by_slot_beside_some_orders(self):
        """Of orders that weren't run nothing is said."""
        status, lines, _ = self.call(example("swap"), 2, "--order", "2,1,0")
        self.assertEqual((status, lines[6]), (1, f"{NEEDNT}: a state that none of these orders leaves"))

    def test_a_group_within_a_bundle(self):
        self.input.write_text("{ .mii\n addl r8=1,r0\n addl r9=2,r0 ;;\n add r10=r8,r9\n}\n"
                              "{ .mib\n add r11=r10,r0\n nop 0\n break.b 0 ;;\n}\n")
        self.gives(1, ["violations 1: group 2 of the run, 0.2 to 1.2, makes 2 writes, and both orders of them leave one state",
                       "  0.2  add r10=r8,r9   write 0 r10", "  1.0  add r11=r10,r0  write 1 r11",
                       "  1.2  break.b 0x0     ends the run, break 0x0", "state 1: both orders; K 0, 1",
                       f"{NEEDNT}: a state that no order leaves", "", "     before  state 1           slot by slot",
                       "r10  -       0000000000000003  0000000000000003", "r11  -       -                 0000000000000003"],
                   self.input, 2)

    def test_a_call(self):
        """Addresses of bundles in branch registers are told as they are without stops; a call with slots of its bundle behind
        it isn't taken apart."""
        text = "{ .mib\n addl r8=1,r0\n addl r8=2,r0\n br.call.sptk.few b0=f ;;\n}\n"
        text += "{ .mib\n nop 0\n nop 0\n break.b 0 ;;\n}\n" + "f:\n{ .mib\n nop 0\n nop 0\n break.b 1 ;;\n}\n"
        self.input.write_text(text)
        lines = self.call(self.input, 1)[1]
        self.assertIn(f"{NEEDNT}: state 1", lines)
        self.assertIn("b0      -       0000000000010010  0000000000010010", lines)
        text = text.replace("br.call.sptk.few b0=f ;;\n", "nop.b 0\n}\n{ .mbb\n nop 0\n br.call.sptk.few b0=f\n nop 0 ;;\n", 1)
        self.input.write_text(text)
        lines = self.call(self.input, 1)[1]
        self.assertIn("slot by slot isn't shown: the call at 1.1 has slots of its bundle behind it", lines)

    def test_an_address(self):
        """A label in a text follows its bundle, and the address is told as it was."""
        self.input.write_text("{ .mlx\n addl r8=1,r0\n movl r9=z\n}\n{ .mib\n addl r8=2,r0\n nop 0\n nop 0 ;;\n}\n"
                              "z:\n{ .mib\n nop 0\n nop 0\n break.b 0 ;;\n}\n")
        lines = self.call(self.input, 1)[1]
        self.assertIn(f"{NEEDNT}: state 1", lines)
        self.assertIn("r9  -       0000000000010020  0000000000010020", lines)

    def test_a_number(self):
        """One that is no address in program order stays as it is, where slot by slot a bundle has that address."""
        self.input.write_text(self.TWICE.replace("nop 0", "addl r9=0x10030,r0") + self.LAST)
        self.assertIn(f"{NEEDNT}: state 1", self.call(self.input, 1)[1])
        self.gives(3, ["violations 1: 1 order leaves one state, end break 0x0 at 1.2, and so does slot by slot"],
                   "--orders", "0", "--random", 0, self.input)

    def test_earlier_groups_at_other_addresses(self):
        """An address that they leave is told as it was. Where they make another number of it, slot by slot isn't shown."""
        head = "{ .mlx\n nop 0\n movl r9=z ;;\n}\n{ .mib\n EARLIER\n nop 0\n nop 0 ;;\n}\n"
        for earlier, said in (("adds r10=0,r9", f"{NEEDNT}: state 1"),
                              ("adds r10=1,r9", "slot by slot isn't shown: with bundles at other addresses the groups before it "
                                                "leave another state")):
            self.input.write_text(f"{head.replace('EARLIER', earlier)}{self.TWICE}z:\n{self.LAST}")
            self.assertIn(said, self.call(self.input, 3)[1])

    def test_refusals(self):
        self.input.write_text("no instruction\n")
        self.refuses("input: refused, line 1: name", self.input, 1)
        self.input.write_bytes(b"IA64IMG1")
        self.refuses("input: refused, image: short", self.input, 1)


class Writes(Compared):
    """The writes of a slot, as they are told by its text and the state before it, and as the built program counts them."""

    SET_UP = """{ .mlx
  alloc r40=ar.pfs,0,16,0,8
  movl r14=0x100000
}
{ .mlx
  nop.m 0
  movl r15=0x100000005
}
{ .mii
  adds r8=5,r0
  cmp.eq p6,p7=r0,r0
  mov.i ar.lc=LC
}
{ .mmi
  ld8.s r20=[r0]
  nop.m 0
  mov.i ar.ec=EC ;;
}
{ .mmi
  ld8.a r21=[r14]
  nop.m 0
  nop.i 0 ;;
}
"""
    ROTATING = "{ .mib\n  ld8.a r33=[r14]\n  nop.i 0\n  br.ctop.sptk.few on ;;\n}\non:\n"
    GROUP = "{ .UNITS\n  adds r31=1,r0\n  FIRST\n  SECOND ;;\n}\n"
    END = "{ .mib\n  nop 0\n  nop 0\n  break.b 0 ;;\n}\nz:\n{ .mib\n  nop 0\n  nop 0\n  break.b 0 ;;\n}\n.data\ndata8 1,2\n"
    SECOND = "adds r31=2,r0"
    SLOTS = {
        "mii": ("cmp.eq p8,p9=r8,r9", "cmp.eq p8,p0=r8,r9", "(p7) cmp.lt p8,p9=r8,r9", "(p7) cmp.lt.unc p8,p9=r8,r9",
                "cmp.eq.or p8,p9=r8,r8", "cmp.ne.or p8,p9=r8,r8", "cmp.eq.and p8,p9=5,r8", "cmp.eq.and p8,p9=6,r8",
                "cmp.eq.or p8,p9=r20,r20", "cmp.eq.and p8,p9=r20,r20", "cmp4.lt.or.andcm p8,p9=r0,r8",
                "cmp4.ge.or.andcm p8,p9=r0,r8", "cmp4.eq.or p8,p9=r15,r8", "cmp.ne.or p8,p9=r15,r8",
                "(p7) tbit.z.unc p8,p9=r8,3", "mov b6=r8", "mov.i ar.lc=r8", "mov r9=pr", "mov pr=r8,0x1fe",
                "mov pr=r8,0x1fffe", "mov pr.rot=0x30000", "(p7) shl r9=r8,r8", "nop.i 3"),
        "mmi": ("ld8 r9=[r14]", "ld8 r9=[r14],8", "ld8.c.clr r21=[r14]", "ld8.c.nc r21=[r14],8", "ld4.c.clr r21=[r14]",
                "ld8.a r33=[r14],r8", "st8 [r14]=r8", "st8.spill [r14]=r8,8", "(p7) st8 [r14]=r8,8", "xchg8 r9=[r14],r8",
                "fetchadd8.acq r9=[r14],-4", "mf", "chk.s.m r8,z", "alloc r41=ar.pfs,0,16,0,8"),
    }
    BRANCHES = ("br.cond.sptk.few z", "(p7) br.call.sptk.few b0=z", "br.call.sptk.few b0=z", "br.ret.sptk.few b0", "clrrrb")
    LOOPS = ("br.cloop.sptk.few z", "br.ctop.sptk.few z", "br.cexit.sptk.few z", "(p6) br.wtop.sptk.few z",
             "(p7) br.wexit.sptk.few z")

    def ask(self, text, *words):
        done = subprocess.run([PROGRAM, *map(str, words)], input=text, stdout=subprocess.PIPE, check=False)
        return done.stdout

    @classmethod
    def text_of(cls, units, first, second, counters=(0, 0), set_up=SET_UP):
        """The program with a group that has these two slots behind one that writes r31."""
        text = set_up.replace("LC", str(counters[0])).replace("EC", str(counters[1]))
        return text + cls.GROUP.replace("UNITS", units).replace("FIRST", first).replace("SECOND", second) + cls.END

    def told(self, units, first, second, counters=(0, 0), set_up=SET_UP):
        """The program with a group that writes r31 twice, and the writes of that group as they are told."""
        text = self.text_of(units, first, second, counters, set_up).encode()
        before, after = (states.State(self.ask(text, "groups", number, 0).decode()) for number in (2, 3))
        rows = writes.read_listing(self.ask(self.ask(text, "build"), "list").decode())
        return text, writes.writes_of(writes.group_between(rows, before, after), before)

    def last_is_first(self, text, number):
        """Whether the order with this number makes the second write of r31 before the first one."""
        return states.State(self.ask(text, "groups", 3, number).decode()).register(31)[0] == 1

    def is_counted(self, text, told):
        """In the order with the number of the second write of r31 that comes first, and in none with a number beside it."""
        number = [write.target for write in told].index("r31", 1)
        self.assertEqual([self.last_is_first(text, each) for each in (number - 1, number, number + 1)], [False, True, False])

    def test_slots(self):
        for units, slots in self.SLOTS.items():
            for slot in slots:
                with self.subTest(slot):
                    self.is_counted(*self.told(units, slot, self.SECOND))

    def test_a_rotated_frame(self):
        """A check load finds the entry of a register by the name that this has behind a rotation."""
        set_up = self.SET_UP[:self.SET_UP.rindex("{")] + self.ROTATING
        for target, made in (("r33", ["r31", "r33", "r31"]), ("r34", ["r31", "r31"])):
            text, told = self.told("mmi", f"ld8.c.clr {target}=[r14]", self.SECOND, (1, 0), set_up)
            self.assertEqual([write.target for write in told], made)
            self.is_counted(text, told)

    def test_branches(self):
        """Of m writes, of which these two come first, the orders with the numbers 2 to m make the first one first."""
        rows = [(slot, (0, 0)) for slot in self.BRANCHES]
        rows += [(slot, counters) for slot in self.LOOPS for counters in ((0, 0), (0, 1), (0, 2), (3, 0))]
        for slot, counters in rows:
            with self.subTest(slot=slot, counters=counters):
                text, told = self.told("mib", self.SECOND, slot, counters)
                self.assertEqual([each for each in range(2, len(told) + 2) if self.last_is_first(text, each)], [len(told) + 1])

    def test_not_told(self):
        """What the states round a group don't tell isn't guessed."""
        head = "{ .mlx\n nop 0\n movl r14=0x100000\n}\n{ .mib\n cmp.eq p8,p9=r0,r0\n nop 0\n nop 0 ;;\n}\n"
        last = "{ .mib\n nop 0\n nop 0\n break.b 0 ;;\n}\n"
        for group, said in (("{ .mmi\n st8 [r14]=r0\n ld8.c.clr r8=[r14]\n nop 0 ;;\n}\n", "whether 2.1 writes r8 isn't told"),
                            ("{ .mib\n cmp.eq p6,p7=r0,r0\n nop 0\n (p6) br.wtop.sptk.few z ;;\n}\n" + last,
                             "what 2.2 writes isn't told"),
                            ("{ .mib\n cmp.eq p6,p7=r0,r0\n nop 0\n (p6) br.call.sptk.few b0=z ;;\n}\n",
                             "whether the branch at 2.2 is taken isn't told")):
            self.input.write_text(f"{head}{group}z:\n{last}.data\ndata8 1\n")
            self.refuses(said, self.input, 2)


class Words(unittest.TestCase):
    """Sets of orders in words."""

    MADE = [writes.Write(None, target, f"0.{number}") for number, target in enumerate(("r8", "r8", "r8", "r9"))]

    def said(self, keep, count=3):
        return order_words.described([order for order in permutations(range(count)) if keep(order)], self.MADE[:count])

    def test_words(self):
        self.assertEqual(self.said(lambda order: True), "all 6 orders")
        self.assertEqual(self.said(lambda order: order[-1] == 1), "0.1 last")
        self.assertEqual(self.said(lambda order: order[0] == 2), "0.2 first")
        self.assertEqual(self.said(lambda order: order.index(2) < order.index(0)), "0.2 before 0.0")
        self.assertEqual(self.said(lambda order: order == (2, 0, 1)), "0.2, 0.0, 0.1")
        self.assertEqual(self.said(lambda order: order[-1] != 1), "0.0 or 0.2 last of r8")
        self.assertEqual(self.said(lambda order: [each for each in order if each < 3][-1] != 1, 4), "0.0 or 0.2 last of r8")
        self.assertEqual(self.said(lambda order: order in ((0, 1, 2), (2, 1, 0))), "0.0 0.1 0.2; 0.2 0.1 0.0")
        self.assertEqual(self.said(lambda order: set(order[:2]) == {0, 1}, 4), "0.0 before 0.2 and 0.3, 0.1 before 0.2 and 0.3")

    def test_shortest_words(self):
        """Of several ways to say it the shortest is taken."""
        made = [writes.Write(None, target, f"0.{number}") for number, target in enumerate(("r8", "r8", "r9", "r9"))]
        kept = [order for order in permutations(range(4)) if order.index(0) < order.index(1) and order.index(3) < order.index(2)]
        self.assertEqual(order_words.described(kept, made), "0.0 before 0.1, 0.3 before 0.2")
        made = [writes.Write(None, "r8" if number < 3 else "r9", f"0.{number}") for number in range(5)]
        kept = [order for order in permutations(range(5)) if [each for each in order if each < 3][-1] == 2]
        self.assertEqual(order_words.described(kept, made), "0.2 last of r8")

    def test_long_orders(self):
        made = [writes.Write(None, "r8", f"0.{number}") for number in range(9)]
        for order, said in ((range(9), "program order"), (range(8, -1, -1), "the reverse of program order"),
                            ((0, 1, 2, 4, 5, 6, 7, 8, 3), "0.3 last"), ((3, 0, 1, 2, 4, 5, 6, 7, 8), "0.3 first")):
            self.assertEqual(order_words.described([tuple(order)], made), said)

    def test_numbers(self):
        """Each order has its number, and a number its order."""
        for count in range(6):
            for number, order in enumerate(sorted(permutations(range(count)), key=writes.number_of)):
                self.assertEqual((writes.number_of(order), arranged(number, count)), (number, order))


class Splits(unittest.TestCase):
    """Texts that are taken apart."""

    TEXT = (b"x:\n{ .mii // a bundle\n  (p6) nop 0\n  nop 7 ;;\n  add r8=r9,r10\n}\n"
            b"{ .mlx\n nop 0\n movl r8=x\n ;;\n}\n.data\n data8 5\n")

    def test_every_slot(self):
        parted = split.split(self.TEXT)
        lines = parted.text.decode().splitlines()
        self.assertEqual(lines[:6], ["x:", "{ .mii", "  (p6) nop.m 0", "  nop.i 0", "  nop.i 0 ;;", "}"])
        self.assertEqual(lines[-6:], ["{ .mlx", "  nop.m 0", "  movl r8=x ;;", "}", ".data", " data8 5"])
        self.assertEqual([row[0] for row in parted.positions], [(0, 0), (0, 1), (0, 2), (1, 0), (1, 1)])
        self.assertEqual([parted.address(0x10000 + 16 * number) for number in (0, 1, 3, 4, 5)],
                         [0x10000, 0x10010, 0x10010, 0x10040, 0x10050])

    def test_some_slots(self):
        """What isn't wanted stays together up to a stop."""
        parted = split.split(self.TEXT, {(0, 2)})
        self.assertEqual(parted.text.decode().splitlines()[1:6], ["{ .mii", "  (p6) nop.m 0", "  nop.i 7", "  nop.i 0 ;;", "}"])
        self.assertEqual(parted.positions[:2], [((0, 0), (0, 1), (0, 0)), ((0, 2),) * 3])


class Page(unittest.TestCase):
    """What the page on wrong groups says of numbers."""

    def test_three_writes(self):
        rows = re.findall(r"^\| (\d) \| (\d) \| (\d) \| (\d) \| (\d) \| (\d), .* \| (\d) \|$", PAGE.read_text(), re.M)
        rows = [tuple(map(int, row)) for row in rows]
        self.assertEqual([(k, k % 3, arranged(k, 3)[0], k // 3, k // 3 % 2, *arranged(k, 3)[1:]) for k in range(6)], rows)

    def test_numbers_worth_knowing(self):
        self.assertIn(f"20! - 1, which is {REVERSE},", PAGE.read_text())
        for count in range(21):
            self.assertEqual(arranged(REVERSE, count), tuple(range(count))[::-1])
            self.assertEqual(arranged(0, count), tuple(range(count)))
            for number in range(1, count):
                self.assertEqual(arranged(number, count), (number, *(n for n in range(count) if n != number)))
        self.assertEqual(sorted(arranged(number, 4) for number in range(24)), sorted(permutations(range(4))))


if __name__ == "__main__":
    unittest.main()
