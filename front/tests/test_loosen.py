"""Loose texts."""

import unittest
from pathlib import Path

from front.loosen import loosened, with_numbers
from front.tests.case import Case


def lines(*given):
    return "".join(f"{line}\n" for line in given)


class Left(unittest.TestCase):
    def leaves(self, left, *given, keeps_stops=False):
        self.assertEqual(loosened(lines(*given).encode(), keeps_stops).decode(), lines(*left))


class Bundles(Left):
    """What is taken out, and what stays."""

    def test_a_bundle(self):
        self.leaves(["  add r8=r9,r10", "  add r11=r8,r9"],
                    "{ .mii", "  nop.m 0x0", "  add r8=r9,r10", "  add r11=r8,r9 ;;", "}")

    def test_spellings(self):
        self.leaves(["add r8=r9 , r10", "(p6)add r8=r9,r10"], "{.mii", "nop", "add r8=r9 , r10;;", "(p6)add r8=r9,r10", "}")
        self.leaves(["mf"], "{ .mmi", "mf", ";;", "nop.m# -0", "( p0 ) nop 0x000 ;;", "}")

    def test_stops_on_their_own(self):
        self.leaves(["add r8=r9,r10", "add r11=r9,r10"], "{ .mii", "nop 0", "add r8=r9,r10", ";;", "  ;;", "add r11=r9,r10", "}", ";;")

    def test_nops_that_are_no_filling(self):
        self.leaves(["(p6) nop.m 0", "nop.i 1", "nop.i 0x10"], "{ .mii", "(p6) nop.m 0", "nop.i 1", "nop.i 0x10", "}")

    def test_units_of_slots(self):
        self.leaves(["nop.m 1", "break.f", "hint.b 2"], "{ .mfb", "nop 1", "break", "hint 2", "}")
        self.leaves(["chk.s.m r8,x", "(p6) chk.s.i r9,x", "chk.s.i r9,x"], "{ .mii", "chk.s r8,x", "(p6) chk.s r9,x", "chk.s.i r9,x", "}")
        self.leaves(["break.x 0x200000"], "{ .mlx", "nop 0", "break 0x200000 ;;", "}")
        self.leaves(["break.m", "break.i"], "{ .mib", "break", "break", "nop", "}")

    def test_loose_lines(self):
        """A text without bundles, as `stops` takes it, loses its stops and its filling alone."""
        self.leaves(["x:", "break 1", "chk.s r8,x"], "x:", "nop", "break 1 ;;", "chk.s r8,x", ";;")

    def test_what_is_no_line(self):
        self.leaves(["} }", "{ .xyz", "what", "nop 0x"], "} }", "{ .xyz", "what", "nop 0x")


class Labels(Left):
    """Where a nop stays."""

    def test_a_label_names_what_is_left(self):
        self.leaves(["x:", "y:", ".entry y", "mf"], "x:", "y:", ".entry y", "{ .mii", "nop 0", "nop 0", "nop 0", "}", "{ .mmi", "nop 0", "mf", "nop 0", "}")

    def test_a_label_of_nops(self):
        self.leaves(["mf", "x:", "nop.b 0", "y:", "mf", "z:", "nop 0"],
                    "mf", "x:", "{ .bbb", "nop.b 0", "nop.b 0 ;;", "nop.b 0", "}", "y:", "nop 0", "mf", "nop 0", "z:", "nop 0", "nop 0")

    def test_nops_alone(self):
        self.leaves(["nop.m 0"], "{ .mii", "nop.m 0", "nop.i 0", "nop.i 0 ;;", "}")

    def test_a_relation_keeps_its_entry(self):
        relation = '.pred.rel "mutex",p6,p7'
        self.leaves([relation, "nop 0", "x:", relation, "mf"], relation, "nop 0", "nop 0", "x:", relation, "mf")

    def test_what_a_call_comes_back_to(self):
        self.leaves(["(p6) br.call.sptk b0=x", "nop 0", "x:", "mf", "br.call b0=b6", "nop 1"],
                    "(p6) br.call.sptk b0=x", "nop 0", "nop 0", "x:", "mf", "br.call b0=b6", "nop 0", "nop 1")
        self.leaves(["br.call b0=b6", "nop 0"], "br.call b0=b6", "nop 0", "nop 0")

    def test_names_that_look_otherwise(self):
        self.leaves(["nop:", "add :", ".text:", "data8:", "mf"], "nop:", "add :", ".text:", "data8:", "mf")


class Others(Left):
    """Directives, data and comments."""

    def test_data(self):
        given = ["mf", ".data", "x:", "data8 1,2 // nop 0", ".skip 8", ".entry y", ".text", "y:", "mf"]
        self.leaves(given, *given)
        self.leaves([".data#", "x:", "data1 0", ".text#", "nop 0"], ".data#", "x:", "data1 0", ".text#", "nop 0", "nop 0")

    def test_comments(self):
        self.leaves(["// a", "// b", "mf  // c // d", "// e", "", "// f"],
                    "// a", "{ .mmi // b", "mf;; // c // d", "nop 0 // e", "nop 0", "", "} // f")
        self.leaves(["mf", '"// not one"  // g'], "mf", '"// not one" // g')

    def test_a_text_of_no_bytes(self):
        self.assertEqual(loosened(b""), b"")
        self.assertEqual(with_numbers(b"{ .mii\nnop.m 0 // x\n}\nx:\nadd r8=r9,r10\n"),
                         (b"nop.m 0  // x\nx:\nadd r8=r9,r10\n", [2, 4, 5]))

    def test_no_line_feed_at_the_end(self):
        self.assertEqual(loosened(b"mf ;;"), b"mf\n")


class KeptStops(Left):
    def test_kept(self):
        self.leaves(["add r8=r9,r10 ;;", "  ;;", "mf", ";;  // a"],
                    "{ .mii", "nop 0 ;;", "add r8=r9,r10;;", "  nop 0 ;;", "}", "{ .mmi", "mf", "nop 0", ";; // a", "}", keeps_stops=True)

    def test_before_the_first(self):
        self.leaves(["mf"], "nop 0", ";;", "nop 0 ;;", "mf", keeps_stops=True)
        self.leaves(["nop 0 ;;", ";;"], "nop 0 ;;", ";;", keeps_stops=True)


class Calls(Case):
    """`ia64 loosen` and `ia64 stops` of a file."""

    def test_files(self):
        Path("x.s").write_bytes(b"mf ;; // d\xe9j\xe0\r\n")
        self.assertEqual(self.ia64("loosen", "x.s"), (0, b"mf  // d\xe9j\xe0\n", ""))
        self.assertEqual(self.ia64("loosen", "--keep-stops", "x.s"), (0, b"mf ;;  // d\xe9j\xe0\n", ""))
        Path("x.s").write_bytes(b"{ .mmi\nnop 0 ;;\nmf\nnop 0\n}\n")
        self.assertEqual(self.ia64("stops", "x.s"), (0, b"{ .mii\n  mf\n  nop.i 0x0\n  nop.i 0x0\n}\n", ""))

    def test_code_on_no_walk(self):
        """What no walk reaches keeps its stops, and a note says so; an entry is reached."""
        bundles = b"{ .mmi\nadd r8=r9,r10 ;;\nadd r11=r8,r9\nnop 0\n}\n{ .mib\nnop 0\nnop 0\nbr.ret b0 ;;\n}\n"
        Path("x.s").write_bytes(b"{ .mib\nnop 0\nnop 0\nbr.ret b0 ;;\n}\ng:\n" + bundles)
        status, packed, said = self.ia64("stops", "x.s")
        self.assertEqual(said, "ia64: x.s: note: some bundles are on no walk: 2 stops there, the first in line 8, are kept. "
                               "A line `.entry NAME` makes what a label names an entry\n")
        self.assertEqual(self.ia64("loosen", "x.s")[1].count(b";;"), 2)
        self.assertEqual((status, packed.count(b" written\n")), (0, 2))
        self.assertEqual(self.ia64("stops", "--keep-stops", "x.s")[1].count(b" written\n"), 3)
        Path("x.s").write_bytes(b".entry g\n" + Path("x.s").read_bytes())
        status, packed, said = self.ia64("stops", "x.s")
        self.assertEqual((status, said, packed.count(b" written\n"), packed.count(b" RAW r8 ")), (0, "", 0, 1))

    def test_a_fall_from_no_walk(self):
        """The first stop behind code that no walk reaches, and that falls into code that one does, is kept too."""
        Path("x.s").write_bytes(b"{ .mbb\nnop 0\n(p6) br.cond w\nbr.cond b6 ;;\n}\nt:\n{ .mii\nmov r8=1\nnop 0\nnop 0\n}\n"
                                b"w:\n{ .mii\nmov r10=2\nnop 0\nnop 0 ;;\n}\n{ .mib\nmov r9=r8\nnop 0\nbr.ret b0 ;;\n}\n")
        status, packed, said = self.ia64("stops", "x.s")
        self.assertEqual((status, packed.count(b" written\n"), said.count("1 stop there, the first in line 16, is kept")), (0, 1, 1))

    def test_bundles_that_are_no_program(self):
        Path("x.s").write_bytes(b"{ .mii\nadd r8=r9,r10\nadd r11=r8,r9 ;;\nbr.ret b0 ;;\n}\n")
        status, _, said = self.ia64("stops", "x.s")
        self.assertEqual((status, said), (0, "ia64: x.s: note: its bundles make no program, so it isn't known which of them walks "
                                             "reach: the stops of the others are taken out too. --keep-stops keeps all stops; "
                                             "`ia64 check x.s` judges it as a source for the GNU assembler, and `ia64 show x.s` prints "
                                             "the texts of its functions\n"))

    def test_what_goes_wrong(self):
        self.assertEqual(self.ia64("loosen", "nowhere"), (2, b"", "ia64: nowhere: No such file or directory\n"))
        self.assertEqual(self.ia64("loosen", "--no-such-word")[:2], (2, b""))


if __name__ == "__main__":
    unittest.main()
