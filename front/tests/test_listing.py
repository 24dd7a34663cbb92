"""Functions that `show` and `list` print: the text is read back, and a verdict on it is that on the functions."""

import json
import subprocess
import unittest
import unittest.mock

from front.listing import LABEL, Labels
from front.tests.case import PROGRAM, ROOT, Case, needs_gnu

FUNCTIONS = ROOT / "examples" / "functions.s"

# Branches within a function and out of it, a call, a check, a table whose rows are entries, a fall out of the end, and pairs that
# clash: one on a way through a loop alone, which what is known of predicates excuses on the way in.
SOURCE = """
	.text
	.global first#
	.proc first#
first:
	{ .mii
	alloc r34=ar.pfs,2,3,2,0
	cmp.eq p6,p7=r32,r33
	mov r35=b0 ;;
	}
again:
	{ .mii
	chk.s.m r32,mend
	(p6) mov r8=1
	(p7) mov r8=2 ;;
	}
	{ .mib
	nop.m 0
	cmp.eq.or p7,p0=r0,r0
	(p8) br.cond.sptk.few again ;;
	}
	{ .mib
	nop.m 0
	nop.i 0
	br.call.sptk.many b0=elsewhere# ;;
	}
	{ .mib
	mov r9=r8
	mov b6=r9
	(p9) br.cond.sptk.few second# ;;
	}
	{ .mib
	nop.m 0
	mov r10=r9
	br.cond.sptk.many b6 ;;
	}
mend:
	{ .mib
	adds r9=1,r9
	adds r11=1,r9
	br.cond.sptk.few again ;;
	}
	.endp first#
	.global second#
	.proc second#
second:
	{ .mmi
	adds r8=1,r8
	adds r9=1,r8
	nop.i 0
	}
	.endp second#
	.global r8#
	.proc r8#
r8:
	{ .mib
	nop.m 0
	(p6) adds r8=1,r8
	br.cond.sptk.few r8# ;;
	}
	.endp r8#
	.section .data.rel.ro,"aw"
	data8 mend
"""




class Listed(Case):
    """A source is read without the GNU assembler, so that all of this runs without it."""

    def setUp(self):
        super().setUp()
        without = unittest.mock.patch("front.gnu.installed", lambda tool: None)
        without.start()
        self.addCleanup(without.stop)
        (self.folder / "x.s").write_text(SOURCE)

    def shown(self, *words, command="show"):
        """The bytes that `show` prints."""
        status, printed, said = self.ia64(command, *words)
        self.assertEqual((status, said), (0, ""))
        return printed

    def asked(self, word, text):
        """The status of the program on a text, and what it prints."""
        done = subprocess.run([PROGRAM, word], input=text, stdout=subprocess.PIPE, check=False)
        return done.returncode, done.stdout

    def clashes(self, text):
        """The violations of a text, as the program prints them."""
        status, printed = self.asked("check", text)
        self.assertIn(status, (0, 1), printed)
        return sorted(printed.decode().splitlines()[1:])

    def functions(self, *words):
        """What `check` says of the functions of the source, by their names."""
        _, printed, _ = self.ia64("check", "--format", "json", *words, "x.s")
        return {function["name"]: function for function in json.loads(printed)["files"][0]["functions"]}

    @staticmethod
    def told(function, first=0):
        """Its violations as the program prints them of a text in which it begins at this bundle."""
        def place(slot):
            return f"{(slot['offset'] - function['offset']) // 16 + first}.{slot['slot']}"
        return sorted(f"{each['rule']} {each['resource']} {place(each['first'])} {place(each['second'])}" for each in function["violations"])

    def test_one_function(self):
        """The verdict on its text is that on the function, under what is said of entries too."""
        for words in ((), ("--syscalls",)):
            for name, function in self.functions(*words).items():
                self.assertEqual(self.clashes(self.shown(*words, "x.s", name)), self.told(function), name)
        self.assertEqual([len(self.told(function)) for function in self.functions().values()], [3, 1, 0])

    def test_all_functions(self):
        """They are one text. An end stands behind the one that a walk falls out of."""
        functions = self.functions()
        found = [line for name, first in (("first", 0), ("second", 7), ("r8", 9)) for line in self.told(functions[name], first)]
        for command in ("show", "list"):
            self.assertEqual(self.clashes(self.shown("x.s", command=command)), sorted(found))

    def test_what_is_printed(self):
        lines = self.shown("x.s", "first").decode().splitlines()
        self.assertEqual(lines[0], "first:".ljust(40) + "// .text+0x0, 0x70 bytes")
        self.assertEqual(lines[5:9], ["}", "L1:", "{ .mii  // +0x10", "  chk.s.m r32,L6"])
        self.assertIn("  (p8) br.cond.sptk.few L1 ;;", lines)
        self.assertIn(".entry L6".ljust(40) + "// relocation", lines)
        self.assertEqual(lines[-8:], ["// What stands elsewhere isn't looked at.", "elsewhere:", "second:", "{ .mii", "  break.m 0x0",
                                      "  nop.i 0x0", "  nop.i 0x0 ;;", "}"])
        self.assertEqual([line for line in lines if line.endswith(":")], ["L1:", "L6:", "elsewhere:", "second:"])
        lines = self.shown("x.s").decode().splitlines()
        self.assertEqual([line.split(":")[0] for line in lines if ":" in line.partition(" ")[0]],
                         ["first", "L1", "L6", "second", "_r8", "elsewhere"])
        self.assertIn("_r8:".ljust(40) + "// r8, .text+0x80, 0x10 bytes", lines)

    def test_what_is_printed_is_built(self):
        """The same bundles come of it, but for what branches lead to; and the program prints the same labels of their image."""
        status, image = self.asked("build", self.shown("x.s"))
        self.assertEqual(status, 0)
        status, printed = self.asked("show", image)
        self.assertEqual(status, 0)
        self.assertEqual([line for line in printed.decode().splitlines() if line in ("L1:", "L6:")], ["L1:", "L6:"])

    def test_what_is_not_built(self):
        """The first line that is printed says why."""
        for old, new, said in (
                ("adds r11=1,r9", "nop.i 0\n\t}\n\t{ .mfi\n\tlfetch [r9]\n\tnop.f 0\n\tnop.i 0\n\t}\n\t{ .mib\n\tnop.m 0\n\tnop.i 0",
                 "'lfetch [r9]' (+0x70 slot 0) is outside the profile"),
                ("\tadds r8=1,r8\n", "\tadds r8=1,r8\n" + "\tnop.m 0\n\tnop.i 0\n\t}\n\t{ .mmi\n\tnop.m 0\n" * 64,
                 "more than 192 slots without a stop, up to +0x470 slot 0")):
            (self.folder / "x.s").write_text(SOURCE.replace(old, new, 1))
            for words in (("first",), ("second",)):
                lines = self.shown("x.s", *words).decode().splitlines()
                is_refused = self.asked("build", "\n".join(lines).encode())[0] == 3
                self.assertEqual(is_refused, lines[0] == f"// `ia64 build` doesn't take this: {said}", lines[0])
                self.assertFalse(any("word 0x" in line for line in lines))


class OfObjects(Case):
    """Object files."""

    @needs_gnu
    def test_bytes(self):
        """`list` shows the bytes that stand in the file, of branches too that the linker has still to settle."""
        (self.folder / "x.s").write_text(SOURCE)
        subprocess.run(["ia64-linux-gnu-as", "-xexplicit", "-xnone", "-o", "x.o", "x.s"], check=True)
        subprocess.run(["ia64-linux-gnu-objcopy", "-O", "binary", "-j", ".text", "x.o", "code"], check=True)
        _, lines, _ = self.lines("list", "x.o")
        listed = [line.split("// ")[1].split() for line in lines if line.startswith("{") and "//" in line]
        code = (self.folder / "code").read_bytes()
        self.assertEqual(listed, [[f"{at:+#x}", code[at:at + 16].hex()] for at in range(0, len(code), 16)])

    @needs_gnu
    def test_more_than_an_image_holds(self):
        """The texts of a function that is too long for an image, in parts; and that a text has no room for it."""
        body = "\t.rept 33000\n\t{ .mib\n\tnop.m 0\n\tadd r8=r8,r9\n\t(p6) br.cond.sptk.few far ;;\n\t}\n\t.endr\n"
        (self.folder / "x.s").write_text("\t.text\nfar:\n" + body)
        subprocess.run(["ia64-linux-gnu-as", "-xexplicit", "-xnone", "-o", "x.o", "x.s"], check=True)
        status, lines, said = self.lines("show", "x.o")
        self.assertEqual((status, said, lines.count("  (p6) br.cond.sptk.few .text_0x0 ;;")), (0, "", 33000))
        self.assertEqual(lines[0].partition(" declared ")[0], "// `ia64 build` doesn't take this: it has 33,001 bundles and 0")


class Names(unittest.TestCase):

    def test_labels(self):
        """A label is the name where it can be one, and never one that was given."""
        labels = Labels()
        names = ["sum", "r8", "rp", "b0", "p6", "sum", ".text+0x10", "f@VERSION", "9lives", "x" * 63, "x" * 64, "x" * 99, "", "_r8", "add"]
        given = [labels.give(name) for name in names]
        self.assertEqual(given[:9], ["sum", "_r8", "_rp", "_b0", "_p6", "sum_1", ".text_0x10", "f_VERSION", "_9lives"])
        self.assertEqual((given[9], given[-1]), ("x" * 63, "add"))
        self.assertEqual((len(set(given)), all(map(LABEL.match, given))), (len(names), True))


if __name__ == "__main__":
    unittest.main()
