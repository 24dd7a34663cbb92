"""What is said of a text that is refused, of files of which nothing is judged, and of calls behind which nothing is known."""

import unittest
import unittest.mock

from front import flow, texts
from front.program import Program
from front.remedies import remedy
from front.tests import case
from front.tests.case import PROGRAM, needs_gnu
from front.tests.writers import CODE_FLAGS, DATA_FLAGS, RETURN, Elf

BEHIND_A_CALL = """{ .mib
  cmp.eq p6,p7=r8,r9
  nop.i 0
  br.call.sptk.few b0=f ;;
}
{ .mii
  nop.m 0
  (p6) mov r10=1
  (p7) mov r10=2 ;;
}
{ .mib
  nop.m 0
  nop.i 0
  break.b 0 ;;
}
f:
{ .mib
  nop.m 0
  nop.i 0
  br.ret.sptk.few b0 ;;
}
"""


def in_a_bundle(line, units="mii"):
    """A text whose second line this is."""
    return f"{{ .{units}\n{line}\nnop 0\nnop 0\n}}\n".encode()


class Remedies(unittest.TestCase):
    """What would be right, as the program says when it is asked."""

    def said(self, line, reason):
        program = Program(lambda: PROGRAM)
        data = in_a_bundle(line)
        self.assertEqual(program.raw(["build"], data), (3, f"line 2: {reason}\n".encode()), line)
        return remedy(program, data, 2, reason)

    def test_ranges(self):
        for line, wanted in (("adds r8=8192,r9", "8192 may stand -8192 to 8191"),
                             ("adds r8=-0x2001,r9", "-0x2001 may stand -8192 to 8191"),
                             ("shladd r8=r9,5,r10", "5 may stand 1 to 4"), ("nop.m 0x200000", "0x200000 may stand 0 to 2097151"),
                             ("fetchadd8.acq r8=[r9],5", "5 may stand -16, -8, -4, -1, 1, 4, 8 or 16")):
            self.assertEqual(self.said(line, "range"), f"; in place of {wanted}", line)

    def test_no_range_is_guessed(self):
        """Where two numbers of a line are out of range, none alone makes it right."""
        self.assertEqual(self.said("extr r8=r9,64,65", "range"), "")

    def test_a_program_without_an_answer(self):
        """What it doesn't say is told of no line."""
        program = Program(lambda: "")
        with unittest.mock.patch.object(program, "raw", lambda words, data: (7, b"")):
            for line, reason in (("adds r8=8192,r9", "range"), ("br.ret.sptk.few b0", "slot kind"), ("nop 0", "template")):
                self.assertEqual(remedy(program, in_a_bundle(line), 2, reason), "", line)

    def test_units(self):
        for line, wanted in (("br.ret.sptk.few b0", "B"), ("br.cond.sptk.few nowhere", "B"), ("shl r8=r9,r10", "I"),
                             ("movl r8=5", "X")):
            self.assertEqual(self.said(line, "slot kind"), f"; it fits a slot of unit {wanted}", line)
        data = in_a_bundle("add r8=r9,r10", "bbb")
        self.assertEqual(remedy(Program(lambda: PROGRAM), data, 2, "slot kind"), "; it fits a slot of unit M or I")

    def test_templates(self):
        program = Program(lambda: PROGRAM)
        for units, count, stops in (("mii", 3, "1 or 2"), ("mmi", 3, "0 or 2"), ("mib", 3, "2"), ("mlx", 2, "1")):
            wanted = f"{count} slots, and a stop may stand behind slot {stops}"
            data = f"{{ .{units}\nnop 0\n}}\n".encode()
            self.assertEqual(program.raw(["build"], data), (3, b"line 3: template\n"))
            self.assertEqual(remedy(program, data, 3, "template"), f"; .{units} has {wanted}")


class Refused(case.Case):
    def put(self, name, data):
        (self.folder / name).write_bytes(data)
        return name

    def test_a_line_is_quoted(self):
        self.put("x", in_a_bundle("br.ret.sptk.few b0"))
        said = "slot kind: the instruction doesn't fit its slot: 'br.ret.sptk.few b0'; it fits a slot of unit B"
        self.assertEqual(self.lines("check", "x"), (
            2, [f"x:2: error: refused, {said}", "0 accepted, 0 violated, 0 not judged"], ""))
        self.assertEqual(self.ia64("build", "x"), (3, b"line 2: slot kind\n", f"ia64: x: refused, line 2: {said}\n"))

    def test_a_long_line(self):
        self.put("x", b"foo " + b"r8" * 50 + b"\n")
        self.assertIn(f": 'foo {'r8' * 28}..'", self.lines("check", "x")[1][0])

    def test_a_source_has_a_hint(self):
        self.put("x y.s", b".explicit\n")
        for word in ("build", "stops"):
            self.assertTrue(self.ia64(word, "x y.s")[2].endswith(
                "; `ia64 check 'x y.s'` judges it as a source for the GNU assembler, and `ia64 show 'x y.s'` prints the texts of "
                "its functions\n"), word)
        self.put("x", b".explicit\n")
        self.assertNotIn("GNU", self.ia64("build", "x")[2])

    @needs_gnu
    def test_the_errors_of_the_assembler(self):
        """Both say what is wrong where both refuse it."""
        self.put("x.s", in_a_bundle("adds r8=8192,r9"))
        status, lines, error = self.lines("check", "x.s")
        self.assertEqual((status, len(lines), error), (2, 3, ""))
        self.assertTrue(lines[0].startswith("x.s:2: error: refused, range: "), lines)
        self.assertTrue(lines[1].startswith("x.s:2: error: the GNU assembler: Operand 2 of `adds' "), lines)


class Judged(case.Case):
    def test_nothing_is_looked_at_twice(self):
        """The slots of a text are found once where they are told of, and else not; straight code isn't walked."""
        straight, missed = "{ .mii\nnop 0\nnop 0\nnop 0 ;;\n}\n", "{ .mib\nnop 0\nnop 0\nbr.cond b6 ;;\n}\n"
        broken = "{ .mii\nmov r8=1\nmov r8=2\nnop 0 ;;\n}\n"
        told = missed + straight.replace("nop 0\n", "mf\n", 1)
        for text, slots, walks in ((straight, 0, 0), (broken, 1, 0), (missed, 0, 1), (told, 1, 1), (missed + broken, 1, 1)):
            (self.folder / "x").write_text(text)
            with unittest.mock.patch("front.programs.slots_of_text", wraps=texts.slots_of_text) as found, \
                    unittest.mock.patch("front.flow.walks", wraps=flow.walks) as walked:
                self.ia64("check", "x")
            self.assertEqual((found.call_count, walked.call_count), (slots, walks), text)

    def test_no_function(self):
        """A file of code without functions is warned of, and `--strict` counts it as not judged."""
        elf = Elf()
        elf.section(".data", bytes(16), DATA_FLAGS)
        (self.folder / "x.o").write_bytes(elf.data())
        lines = ["x.o: warning: not judged: no function is in it", "0 accepted, 0 violated, 0 not judged"]
        self.assertEqual(self.lines("check", "x.o"), (0, lines, ""))
        self.assertEqual(self.lines("check", "--strict", "x.o"), (3, lines, ""))
        elf.section(".text", RETURN, CODE_FLAGS)
        (self.folder / "x.o").write_bytes(elf.data())
        self.assertNotIn(lines[0], self.lines("check", "x.o")[1])

    def test_calls(self):
        """A pair that predicates would excuse but for a call, behind which nothing is known of them."""
        (self.folder / "x.s").write_text(BEHIND_A_CALL)
        self.assertTrue(self.lines("check", "-v", "x.s")[1][0].endswith("; not excused for the sake of the call at line 4"))
        self.assertNotIn("the call", self.lines("check", "x.s")[1][0])
        (self.folder / "x.image").write_bytes(self.ia64("build", "x.s")[1])
        self.assertTrue(self.lines("check", "-v", "x.image")[1][0].endswith("; not excused for the sake of the call at 0.2"))
        (self.folder / "y.s").write_text(BEHIND_A_CALL.replace("(p6) mov", "mov"))
        self.assertNotIn("the call", self.lines("check", "-v", "y.s")[1][0])

    def test_calls_of_functions(self):
        (self.folder / "x.s").write_text(f".explicit\n.proc g\ng:\n{BEHIND_A_CALL}.endp g\n")
        with unittest.mock.patch("front.gnu.installed", lambda tool: None):
            lines = self.lines("check", "-v", "x.s")[1]
        self.assertEqual(sum(line.endswith("; not excused for the sake of the call at +0x0 slot 2") for line in lines), 1, lines)
