"""`ia64 call`: what words stand for, and calls of functions of object files, linked by GNU's linker."""

import json
import os
import re
import struct
import subprocess
import tempfile
import unittest
import unittest.mock
from pathlib import Path

from front.bundle import NOPS, Bundle
from front.calling import hints, image
from front.calling.arguments import MOST_ARGUMENTS, argument_of, arguments_of
from front.faults import Fault
from front.program import Program
from front.tests import writers
from front.tests.case import PROGRAM, ROOT, Case, needs_gnu

FUNCTIONS = str(ROOT / "examples" / "functions.o")


class Arguments(unittest.TestCase):
    """What the words of a call stand for."""

    def test_numbers(self):
        for word, number in (("0", 0), ("42", 42), ("-1", 2**64 - 1), ("0x2A", 42), ("-0x10", 2**64 - 16), ("010", 10),
                             (str(2**64 - 1), 2**64 - 1), (str(-2**63), 2**63), ("'a'", 97), (r"'\n'", 10)):
            self.assertEqual(argument_of(word)[1:], (number, None, None, 0, False), word)

    def test_bytes(self):
        for word, content in (('"a b"', b"a b\0"), (r'"\x41\n\0\\\""', b'A\n\0\\"\0'), ('""', b"\0"), ("str:a\\n", b"a\\n\0"),
                              ("@3", bytes(3)), ("@0x10", bytes(16)), ("hex:00ff_2A", b"\0\xff*"), ("data1:1,-1", b"\1\xff"),
                              ("data2:258", b"\2\1"), ("data4:-2", b"\xfe\xff\xff\xff"), ("data8:0x102", b"\2\1" + bytes(6)),
                              ('"é"', "é\0".encode())):
            self.assertEqual(argument_of(word).content, content, word)
        self.assertEqual(argument_of("&name").symbol, "name")

    def test_refusals(self):
        for said, words in {
                "neither a number": ("hello", "", "1.5", "0x", "+1", "data4:", "data4:1,,2", "\0", "other:1"),
                "no number of 8 bytes": (str(2**64), "-9223372036854775809"),
                "no number of 1 bytes": ("data1:256",),
                'the closing " is missing': ('"a', '"'),
                "is no escape": (r'"\q"', '"a\\"'),
                "is one byte": ("'ab'",),
                "a buffer has 1 to 1,048,576 bytes": ("@0", "@1048577", "@x", "@-1"),
                "pairs of hexadecimal digits": ("hex:0", "hex:", "hex:xy"),
                "No such file": ("file:nowhere",),
                "behind &": ("&",)}.items():
            for word in words:
                self.refuses(word, said)
        with self.assertRaises(Fault):
            arguments_of(["1"] * (MOST_ARGUMENTS + 1))

    def refuses(self, word, said):
        with self.assertRaises(Fault, msg=word) as found:
            arguments_of(["0", word])
        self.assertTrue(str(found.exception).startswith("argument 2, "), word)
        self.assertIn(said, str(found.exception))


def asked(word, data):
    """What the program prints."""
    return subprocess.run([PROGRAM, word], input=data, stdout=subprocess.PIPE, check=True).stdout


class Parts(unittest.TestCase):
    """The caller and the breaks."""

    def test_the_caller(self):
        text = image.caller([1, 2**64 - 1], 0x11FFF0, 0x140000)
        built = asked("build", text.encode())
        listed = asked("list", built).decode()
        for line in ("alloc r32=ar.pfs,0,1,8,0", "movl r12=0x11fff0", "movl r1=0x180000", "movl r33=0x1",
                     "movl r34=0xffffffffffffffff", "movl r8=0x140000", "br.call.sptk.many b0=L7 ;;"):
            self.assertIn(f"  {line}\n", listed)
        self.assertLess(len(built), 24 + 16 * 17)

    def test_most_arguments_fit(self):
        built = asked("build", image.caller(range(8), 0, 0).encode())
        self.assertLessEqual((len(built) - 24) // 16, 16)

    def test_breaks(self):
        """A break stands under the guard of what stood there, or under none."""
        def text(bundle):
            data = b"IA64IMG1" + struct.pack("<4I", 1, 0, 0, 0) + bundle.packed()
            return asked("list", data).decode().splitlines()[1:]

        made = image.Cut([], [], b"", 0, (0, 0), [])
        for bundle, slot, always, wanted in (
                (Bundle(0x0D, (NOPS["m"], 8 << 37 | 5, NOPS["i"])), 1, False, "(p5) break.f 0x1"),
                (Bundle(0x0D, (NOPS["m"], 8 << 37 | 5, NOPS["i"])), 1, True, "break.f 0x2"),
                (Bundle(0x11, (NOPS["m"], NOPS["i"], 7 << 37 | 9)), 2, False, "(p9) break.b 0x3"),
                (Bundle(0x05, (NOPS["m"], 7, 0xC << 37 | 3)), 1, False, "(p3) break.x 0x4"),
                (Bundle(0x06, (1, 2, 3)), 2, False, "break.m 0x5")):
            made.bundles.append(bundle)
            made.put_break(len(made.bundles) - 1, slot, image.Stopped(image.Stop.OUTSIDE), always)
            lines = text(made.bundles[-1])
            self.assertEqual(lines[0 if not bundle.units else slot].replace(" ;;", ""), f"  {wanted}")

    def test_what_stays(self):
        """What does something where its guard is 0 gives way to a break under none, and so does what no table knows."""
        compare = 4 << 37 | 7 << 27 | 3 << 20 | 2 << 13 | 6 << 6 | 5
        made = image.Cut([], [], b"", 0, (0, 0), [])
        for word, guard in ((compare, 5), (compare | 1 << 12, 0)):
            made.bundles.append(Bundle(0x0D, (NOPS["m"], word, NOPS["i"])))
            image.put_breaks(made, len(made.bundles) - 1, False)
            self.assertEqual(made.bundles[-1].words[1] & 63, guard)
            self.assertEqual(made.bundles[-1].words[1] >> 27, 0)
        wrong = [Bundle(0x01, (NOPS["m"], NOPS["i"], 6 << 37 | 5)), Bundle(0x01, (2 << 37 | 5, 0, 0))]
        made = image.Cut(wrong, [], b"", 0, (0, 0), [])
        status, printed = image.run(Program(lambda: PROGRAM), made, ["run", "9"])
        self.assertEqual((status, printed.splitlines()[0]), (0, "end break 0x1 at 0.2"))
        self.assertEqual(sorted(made.stops), [(0, 2), (1, 0)])

    def test_hints(self):
        """A line fetch becomes what updates its base, or a nop; one that may fault stays."""
        def mended(word):
            bundle = hints.without_hint(Bundle(0x01, (word, NOPS["i"], NOPS["i"])), 0)
            return bundle and bundle.words[0]

        base = 6 << 37 | 0x2C << 30 | 9 << 20 | 5
        self.assertEqual(mended(base), NOPS["m"] | 5)
        self.assertIsNone(mended(base | 2 << 30))
        self.assertEqual(mended(base | 1 << 36 | 7 << 13), 8 << 37 | 9 << 20 | 7 << 13 | 9 << 6 | 5)
        fetch, sum_of = 7 << 37 | 0x2C << 30 | 9 << 20, 8 << 37 | 2 << 34 | 9 << 20 | 9 << 6
        self.assertEqual(mended(fetch | 64 << 13), sum_of | 64 << 13)
        self.assertEqual(mended(fetch | 1 << 27), sum_of | 1 << 27)
        self.assertEqual(mended(fetch | 1 << 36 | 1 << 27 | 127 << 13), sum_of | 1 << 36 | 0x3F << 27 | 127 << 13)
        self.assertIsNone(mended(NOPS["m"]))


# Functions in the way of GCC's, with what they are in C. A line `function NAME` is that of a global one.
SHORT = """\
        .explicit
        .text

        function add                    // long add(long a, long b)
        { .mib
        add r8=r32,r33
        nop.i 0
        br.ret.sptk.many b0 ;;
        }
        .endp add#

        function upper                  // char *upper(char *text): in place
        { .mii
        mov r8=r32
        nop.i 0
        nop.i 0 ;;
        }
.next:  { .mmi
        ld1 r14=[r32] ;;
        adds r15=-97,r14
        cmp.eq p6,p7=0,r14 ;;
        }
        { .mib
        cmp.gtu p8,p9=26,r15
        nop.i 0
        (p6) br.ret.dpnt.many b0 ;;
        }
        { .mmi
        (p8) adds r14=-32,r14 ;;
        st1 [r32]=r14,1
        nop.i 0
        }
        { .mib
        nop.m 0
        nop.i 0
        br.cond.sptk .next ;;
        }
        .endp upper#

        function log_it                 // int log_it(long a): printf("%ld items\\n", a) and 1
        { .mii
        alloc r34=ar.pfs,2,3,2,0
        mov r35=b0
        addl r14=@ltoffx(.format#),gp ;;
        }
        { .mii
        ld8.mov r37=[r14],.format#
        mov r36=gp
        mov r38=r32
        }
        { .mib
        nop.m 0
        nop.i 0
        br.call.sptk.many b0=printf# ;;
        }
        { .mii
        mov gp=r36
        mov b0=r35
        mov.i ar.pfs=r34 ;;
        }
        { .mib
        mov r8=1
        nop.i 0
        br.ret.sptk.many b0 ;;
        }
        .endp log_it#

        function pick                   // a switch by a table: 100, -5 or 0xffffffff, and else counter = n
        { .mmi
        addl r14=@ltoffx(.table#),gp
        nop.m 0
        zxt4 r32=r32 ;;
        }
        { .mmi
        ld8.mov r14=[r14],.table#
        cmp.ltu p6,p7=2,r32
        nop.i 0 ;;
        }
        { .mib
        shladd r14=r32,3,r14
        nop.i 0
        (p6) br.cond.dpnt .other ;;
        }
        { .mmi
        ld8 r15=[r14] ;;
        add r14=r14,r15
        nop.i 0 ;;
        }
        { .mib
        nop.m 0
        mov b6=r14
        br.cond.sptk.few b6 ;;
        }
.case0: { .mib
        mov r8=100
        nop.i 0
        br.ret.sptk.many b0 ;;
        }
.case1: { .mib
        mov r8=-5
        nop.i 0
        br.ret.sptk.many b0 ;;
        }
.case2: { .mlx
        nop.m 0
        movl r8=0xffffffff ;;
        }
        { .mib
        nop.m 0
        nop.i 0
        br.ret.sptk.many b0 ;;
        }
.other: { .mii
        addl r8=@gprel(counter#),gp
        nop.i 0
        nop.i 0 ;;
        }
        { .mib
        st4 [r8]=r32
        nop.i 0
        br.ret.sptk.many b0 ;;
        }
        .endp pick#

        .type apply#,@function
        .proc apply#
apply:                                  // static long apply(long (*f)(long, long), long a): 1 + f(a, 0)
        { .mii
        alloc r34=ar.pfs,2,3,2,0
        mov r35=b0
        mov r36=gp ;;
        }
        { .mmi
        ld8 r14=[r32],8
        mov r37=r33
        nop.i 0 ;;
        }
        { .mii
        ld8 gp=[r32]
        mov b6=r14
        nop.i 0 ;;
        }
        { .mib
        mov r38=r0
        nop.i 0
        br.call.sptk.many b0=b6 ;;
        }
        { .mii
        mov gp=r36
        mov b0=r35
        mov.i ar.pfs=r34 ;;
        }
        { .mib
        add r8=1,r8
        nop.i 0
        br.ret.sptk.many b0 ;;
        }
        .endp apply#

        function mul                    // long mul(long a, long b): floating point does it, where a isn't 0
        { .mii
        cmp.ne p6,p7=0,r32
        mov r8=r0
        nop.i 0 ;;
        }
        { .mmi
        (p6) setf.sig f6=r32
        (p6) setf.sig f7=r33
        nop.i 0 ;;
        }
        { .mfi
        nop.m 0
        (p6) xma.l f6=f6,f7,f0
        nop.i 0 ;;
        }
        { .mib
        (p6) getf.sig r8=f6
        nop.i 0
        br.ret.sptk.many b0 ;;
        }
        .endp mul#

        function tenth                  // the ninth of ten arguments, and the tenth
        { .mmi
        adds r14=16,sp
        adds r15=24,sp
        nop.i 0 ;;
        }
        { .mmi
        ld8 r8=[r14]
        ld8 r9=[r15]
        nop.i 0 ;;
        }
        { .mib
        add r8=r8,r9
        nop.i 0
        br.ret.sptk.many b0 ;;
        }
        .endp tenth#

        function pair                   // struct { long a, b; } pair(long a, long b)
        { .mib
        mov r8=r32
        mov r9=r33
        br.ret.sptk.many b0 ;;
        }
        .endp pair#

        function big                    // a structure of more than 32 bytes: its address is in r8
        { .mib
        st8 [r8]=r32
        nop.i 0
        br.ret.sptk.many b0 ;;
        }
        .endp big#

        function spin
        { .mib
        nop.m 0
        nop.i 0
        br.cond.sptk spin ;;
        }
        .endp spin#

        function deep                   // endless recursion, with a frame of 256 bytes
        { .mii
        alloc r34=ar.pfs,2,3,1,0
        mov r35=b0
        adds sp=-256,sp ;;
        }
        { .mib
        st8 [sp]=r0
        nop.i 0
        br.call.sptk.many b0=deep ;;
        }
        .endp deep#

        function zero
        { .mib
        break.m 1
        nop.i 0
        br.ret.sptk.many b0 ;;
        }
        .endp zero#

        function outer                  // what extern int there has
        { .mmi
        addl r14=@ltoffx(there#),gp ;;
        ld8.mov r14=[r14],there#
        nop.i 0 ;;
        }
        { .mib
        ld4 r8=[r14]
        nop.i 0
        br.ret.sptk.many b0 ;;
        }
        .endp outer#

        function away
        { .mib
        nop.m 0
        nop.i 0
        br.cond.sptk elsewhere# ;;
        }
        .endp away#

        function fill                   // void fill(long *p, long a): p[0] = p[2] = a
        { .mmi
        st8 [r32]=r33,16 ;;
        st8 [r32]=r33
        nop.i 0
        }
        { .mib
        nop.m 0
        nop.i 0
        br.ret.sptk.many b0 ;;
        }
        .endp fill#

        function fill_both              // void fill_both(long *p, long a, long b): p[0] = a, p[1] = b
        { .mmi
        st8 [r32]=r33,8 ;;
        st8 [r32]=r34
        nop.i 0
        }
        { .mib
        nop.m 0
        nop.i 0
        br.ret.sptk.many b0 ;;
        }
        .endp fill_both#

        function wrong                  // a read after a write in one group
        { .mii
        adds r8=1,r32
        adds r8=1,r8
        nop.i 0
        }
        { .mib
        nop.m 0
        nop.i 0
        br.ret.sptk.many b0 ;;
        }
        .endp wrong#

        function jump                   // to the address of an argument
        { .mii
        nop.m 0
        mov b6=r32
        nop.i 0 ;;
        }
        { .mib
        nop.m 0
        nop.i 0
        br.cond.sptk.few b6 ;;
        }
        .endp jump#

        .sdata
        .type counter#,@object
        .size counter#,4
counter:
        data4 7
        .data
        .align 16
        .global table#
        .type table#,@object
        .size table#,64
table:  .skip 64
        .section .rodata
        .align 8
.table: data8 @pcrel(.case0), @pcrel(.case1), @pcrel(.case2)
        .section .rodata.str1.8,"aMS",@progbits,1
.format: stringz "%ld items\\n"
"""
SOURCE = re.sub(r"^ *function (\w+)", r" .global \1#\n .type \1#,@function\n .proc \1#\n\1:", SHORT, flags=re.M)
RETURN = "{ .mib\nmov r8=%s\nnop.i 0\nbr.ret.sptk.many b0 ;;\n}\n"
PRINTF = f".text\n.global printf#\n.proc printf#\nprintf:\n{RETURN % 'r33'}.endp printf#\n"


def assembled(source, folder, name):
    """The bytes of the object file that is made of a source."""
    Path(folder, f"{name}.s").write_text(source)
    subprocess.run(["ia64-linux-gnu-as", "-g", "--debug-prefix-map", f"{os.path.realpath(folder)}=.", "-xexplicit", "-xnone",
                    "-o", f"{name}.o", f"{name}.s"], cwd=folder, check=True, stderr=subprocess.DEVNULL)
    return Path(folder, f"{name}.o").read_bytes()


@needs_gnu
class Calls(Case):
    """Calls of functions that the GNU assembler has assembled."""

    @classmethod
    def setUpClass(cls):
        with tempfile.TemporaryDirectory() as folder:
            cls.object = assembled(SOURCE, folder, "x")

    def setUp(self):
        super().setUp()
        Path("x.o").write_bytes(self.object)

    def made(self, source, name):
        Path(name).write_bytes(assembled(source, ".", "made"))

    def call(self, *words):
        return self.lines("call", "x.o", *words)

    def answers(self, lines, *words, status=0):
        got, printed, error = self.call(*words)
        self.assertEqual((got, [line for line in printed if not line.startswith("groups ")], error), (status, lines, ""), words)

    def returns(self, line, *words):
        self.answers([line, "no data changed"], *words)

    def refuses(self, said, *words, status=2):
        got, printed, error = self.lines("call", *words)
        self.assertEqual((got, printed), (status, []))
        self.assertIn(said, error)
        self.assertNotIn("Traceback", error)

    # ---- Answers

    def test_numbers(self):
        self.returns("ret0 = 7", "add", 3, 4)
        self.returns("ret0 = 42 (0x2a)", "add", "0x28", 2)
        self.returns("ret0 = -1 (unsigned 18446744073709551615, 0xffffffffffffffff)", "add", 3, -4)
        self.returns("ret0 = -32 (unsigned 18446744073709551584, 0xffffffffffffffe0)", "add", "-0x10", "-0x10")
        self.returns("ret0 = 4294967295 (0xffffffff), low 32 bits -1", "pick", 2)
        self.returns(f"ret0 = {0x1234567890FF} (0x1234567890ff), low 32 bits {0x567890FF} (0x567890ff)",
                     "add", "0x123456789000", 255)
        self.returns("ret0 = 0", "add")
        Path("x.s").write_text(SOURCE)
        self.assertEqual(self.lines("call", "x.s", "add", 3, 4)[:2], (0, ["ret0 = 7", "no data changed", "groups 4"]))
        self.assertEqual(self.call("add", 3, 4)[1][-1], "groups 4")

    def test_text(self):
        status, printed, _ = self.call("upper", '"hello, world"')
        self.assertEqual(status, 0)
        self.assertRegex(printed[0], r'ret0 = \d+ \(0x1[0-9a-f]{5}\), address of argument 1 "HELLO, WORLD"$')
        self.assertEqual(printed[1], 'argument 1: "HELLO, WORLD", was "hello, world"')
        self.assertEqual(self.call("upper", "str:a\\b")[1][1], 'argument 1: "A\\\\B", was "a\\\\b"')

    def test_a_switch(self):
        self.returns("ret0 = 100 (0x64)", "pick", 0)
        self.returns("ret0 = -5 (unsigned 18446744073709551611, 0xfffffffffffffffb)", "pick", 1)
        status, printed, _ = self.call("pick", 3)
        self.assertEqual((status, printed[1]), (0, "counter: 7 -> 3"))
        self.assertRegex(printed[0], r"ret0 = \d+ \(0x[0-9a-f]+\), address of counter$")

    def test_pointers(self):
        self.returns("ret0 = 15 (0xf)", "apply", "&add", 14)
        self.answers(["ret0 = 0", "table+0x0: 00 -> 0b", "table+0x10: 00 -> 0b"], "fill", "&table", 11)
        status, printed, _ = self.call("fill", "&table", "&counter")
        self.assertEqual(status, 0)
        for line, offset in zip(printed[1:], (0, 16)):
            self.assertRegex(line, rf"table\+{offset:#x}: 0 -> \d+ \(0x[0-9a-f]+\), address of counter$")
        printed = self.call("fill_both", "@16", 5, "&counter")[1]
        self.assertEqual(printed[1], "argument 1+0x0: 00 -> 05")
        self.assertRegex(printed[2], r"argument 1\+0x8: 0 -> \d+ \(0x[0-9a-f]+\), address of counter$")

    def test_descriptors(self):
        """The address of a function that is passed is the one that the code has for it, in its instructions and in its data."""
        load = ("addl r14=@%s,gp ;;\nld8 r14=[r14] ;;\ncmp.eq p6,p7=r14,r32 ;;\n(p6) addl r8=1,r0\n(p7) mov r8=r0 ;;\n"
                "br.ret.sptk.many b0 ;;\n")
        self.made(".explicit\n.text\n" + "".join(
            f".global {name}#\n.type {name}#,@function\n.proc {name}#\n{name}:\n{code}.endp {name}#\n" for name, code in (
                ("one", RETURN % 1), ("two", RETURN % 2), ("is_one", load % "ltoff(@fptr(one#))"),
                ("in_table", load % "gprel(table#)")))
            + ".sdata\n.align 8\ntable: data8 @fptr(two#)\n", "fp.o")
        for function, taken, answer in (("is_one", "&one", 1), ("is_one", "&two", 0), ("in_table", "&two", 1),
                                        ("in_table", "&one", 0), ("is_one", "&is_one", 0)):
            status, printed, _ = self.lines("call", "fp.o", function, taken)
            self.assertEqual((status, printed[:-1]), (0, [f"ret0 = {answer}", "no data changed"]), (function, taken))

    def test_arguments_on_the_stack(self):
        self.returns("ret0 = 123 (0x7b)", "tenth", *range(8), 100, 23)
        # Under the arguments the stack has sixteen bytes at least.
        self.returns("ret0 = 17 (0x11)", "tenth", *range(12), "--stack", 64)
        self.refuses("a stack of 64 bytes has no room for the arguments", "x.o", "tenth", *range(13), "--stack", 64)

    def test_buffers(self):
        self.answers(["ret0 = 0", "argument 1: data8:5,0,5, was data8:0,0,0"], "fill", "data8:0,0,0", 5)
        self.answers(["ret0 = 0", "argument 1+0x0: 00 -> 05", "argument 1+0x10, past its end: 00 -> 05"], "fill", "@16", 5)
        self.answers(["ret0 = 0", "argument 1+0x0: 000000 -> 414243", "argument 1+0x10: 000000 -> 414243"],
                     "fill", "@24", 0x434241)
        Path("bytes").write_bytes(b"\1\2\3")
        self.assertIn("argument 1+0x0: 010203 -> 050000", self.call("fill", "file:bytes", 5)[1])

    def test_text_and_more(self):
        """The line of a text stands where it tells all that is different, and else one of bytes."""
        self.made(".explicit\n.text\n.global f#\n.proc f#\nf:\nadds r14=4,r32 ;;\nst4 [r32]=r33\nst4 [r14]=r34 ;;\n"
                  "br.ret.sptk.many b0 ;;\n.endp f#\n", "two.o")
        for before, words, line in (
                ("6161000063646566", (0x6362, 0), "+0x0: 6161000063646566 -> 6263000000000000"),
                ("6161000000000000", (0x6362, 0), ': "bc", was "aa"'),
                ("6161000063646566", (0x6362, 0x66656463), ': "bc", was "aa"'),
                ("6161000000000000", (0x6362, 0x66656463), "+0x0: 6161000000000000 -> 6263000063646566"),
                ("6161007a00000000", (0x65646362, 0), '+0x0: 6161007a -> 62636465 "bcde"'),
                ("6161616161000000", (0x6362, 0), ': "bc", was "aaaaa"'),
                ("6161616161006161", (0x6362, 0x61610000), ': "bc", was "aaaaa"'),
                ("6161616161000000", (0x64006362, 0), "+0x0: 6161616161 -> 6263006400")):
            printed = self.lines("call", "two.o", "f", f"hex:{before}", *words)[1]
            self.assertEqual(printed[1], f"argument 1{line}", before)

    def test_data_that_are_only_read(self):
        """A change of them, at which a machine has a fault, is marked."""
        store = "addl r14=@gprel(%s#),gp ;;\nst%d [r14]=r32 ;;\n"
        names = (("letters", 1, ".rodata"), ("number", 8, ".rodata"), ("small", 8, '.srodata,"as"'), ("free", 8, ".sdata"))
        self.made(".explicit\n.text\n.global f#\n.proc f#\nf:\n" + "".join(store % row[:2] for row in names)
                  + "mov r8=r0\nbr.ret.sptk.many b0 ;;\n.endp f#\n" + "".join(
                      f".section {home}\n.align 8\n.type {name}#,@object\n.size {name}#,{7 + size % 8}\n{name}: data8 104\n"
                      for name, size, home in names), "kept.o")
        marked = ", in data that are only read"
        self.assertEqual(self.lines("call", "kept.o", "f", 74)[1][:-1], [
            "ret0 = 0", f"letters: 104 (0x68) -> 74 (0x4a){marked}", f"number+0x0: 68 -> 4a{marked}",
            f"small+0x0: 68 -> 4a{marked}", "free+0x0: 68 -> 4a"])
        rows = json.loads(self.ia64("call", "kept.o", "f", 74, "--format", "json")[1])["changes"]
        self.assertEqual([row["read_only"] for row in rows], [True, True, True, False])

    def test_in_front(self):
        """What is changed in front of an argument, or of a structure, is said of that, behind another argument and the stack."""
        self.made(".explicit\n.text\n.global f#\n.proc f#\nf:\nadds r14=-8,r32\nadds r15=-16,r33\nadds r8=-64,r8 ;;\n"
                  "st8 [r14]=r34\nst8 [r15]=r32\nst1 [r8]=r34 ;;\nbr.ret.sptk.many b0 ;;\n.endp f#\n", "front.o")
        status, printed, _ = self.lines("call", "front.o", "f", "hex:01", "@3", 5, "--struct", 33)
        self.assertEqual((status, len(printed)), (0, 5))
        self.assertRegex(printed[0], r"ret0 = \d+ \(0x[0-9a-f]+\), address of before structure-0x40$")
        self.assertEqual(printed[1], "before argument 1-0x8: 00 -> 05")
        self.assertRegex(printed[2], r"before argument 2-0x10: 0 -> \d+ \(0x[0-9a-f]+\), address of argument 1$")
        self.assertEqual(printed[3], "before structure-0x40: 00 -> 05")
        rows = json.loads(self.ia64("call", "front.o", "f", "hex:01", "@3", 5, "--struct", 33, "--format", "json")[1])["changes"]
        self.assertEqual([(row["name"], row["argument"], row["offset"], row["past"]) for row in rows], [
            ("before argument 1", None, -8, False), ("before argument 2", None, -16, False),
            ("before structure", None, -64, False)])

    def test_neighbours(self):
        """What is changed of variables side by side, and between them, is said of each; there is no other data than these."""
        store = "{ .mmi\naddl r14=@gprel(%s#),gp ;;\nst%d [r14]=r32\nnop.i 0 ;;\n}\n"
        names = (("one", 1), ("two", 2), ("odd", 3), ("four", 4))
        self.made(".explicit\n.text\n.global f#\n.proc f#\nf:\n" + "".join(store % row for row in names if row[1] != 3)
                  + store % ("odd", 1) + RETURN % "r0" + ".endp f#\n.sdata\n" + "".join(
                      f".global {name}#\n.type {name}#,@object\n.size {name}#,{size}\n{name}: .skip {size}\n.skip 1\n"
                      for name, size in names).replace("two:", ".align 2\ntwo:").replace("four:", ".align 4\nfour:"), "small.o")
        self.assertEqual(self.lines("call", "small.o", "f", 258), (0, [
            "ret0 = 0", "one: 0 -> 2", "two: 0 -> 258 (0x102)", "odd+0x0: 00 -> 02", "four: 0 -> 258 (0x102)", "groups 12"], ""))

    def test_structures(self):
        self.answers(["ret0 = 3", "ret1 = 4", "no data changed"], "pair", 3, 4, "--struct", 16)
        status, printed, _ = self.call("big", 9, "--struct", 40)
        self.assertEqual((status, printed[1]), (0, "structure+0x0: 00 -> 09"))
        self.assertIn("address of structure", printed[0])

    # ---- Ends

    def test_outside_the_profile(self):
        self.returns("ret0 = 0", "mul", 0, 7)
        line = self.line("(p6) setf.sig f6")
        self.answers([f"./x.s:{line}: stopped at mul+0x10: '(p6) setf.sig f6=r32' is outside the profile"], "mul", 6, 7, status=3)

        # Nothing is said then of what was changed before.
        self.made(".explicit\n.text\n.global f#\n.proc f#\nf:\nst8 [r32]=r33 ;;\nsetf.sig f6=r33 ;;\n.endp f#\n", "stored.o")
        status, printed, _ = self.lines("call", "stored.o", "f", "@8", 5)
        self.assertEqual((status, len(printed), printed[1]), (3, 2, "groups 4"))
        self.assertEqual(json.loads(self.ia64("call", "stored.o", "f", "@8", 5, "--format", "json")[1])["changes"], [])

    def line(self, text):
        return next(number for number, line in enumerate(SOURCE.splitlines(), 1) if text in line)

    def test_what_is_missing(self):
        status, printed, _ = self.call("log_it", 42)
        self.assertEqual(status, 3)
        line = self.line("b0=printf#")
        self.assertEqual(printed[0], f"./x.s:{line}: stopped at log_it+0x20: a call of 'printf', which isn't there")
        self.assertRegex(printed[1], r'out0 = \d+ \(0x[0-9a-f]+\), address of \S+ "%ld items\\n"$')
        self.assertEqual(printed[2:4], ["out1 = 42 (0x2a)", "until then no data changed"])
        self.answers(["stopped at elsewhere: a branch to 'elsewhere', which isn't there", "until then no data changed"],
                     "away", status=3)
        self.assertIn("the place of 'there', which isn't there", self.call("outer")[1][0])

    def test_missing_weak_functions(self):
        """A call of one ends the run; its address is 0, so that a test for it passes by the call."""
        call = "{ .mib\nnop.m 0\nnop.i 0\n%s br.call.sptk.many b0=weak# ;;\n}\n"
        test = "addl r14=@ltoff(@fptr(weak#)),gp ;;\nld8 r14=[r14] ;;\ncmp.ne p6,p7=r0,r14 ;;\n(p7) br.ret.sptk.many b0\n"
        self.made(".explicit\n.text\n.weak weak#\n.weak other#\n" + "".join(
            f".global {name}#\n.proc {name}#\n{name}:\n{code}.endp {name}#\n" for name, code in (
                ("plain", "alloc r34=ar.pfs,1,2,1,0\nmov r35=32 ;;\n" + call % "" + RETURN % 2),
                ("under", "cmp.eq p6,p7=1,r32 ;;\n" + call % "(p6)" + RETURN % 3), ("tested", test + call % "" + RETURN % 4),
                ("both", "cmp.eq p6,p7=1,r32 ;;\n(p6) br.call.sptk.many b0=other#\n;;\n" + call % "" + RETURN % 5))), "weak.o")
        self.assertEqual(self.lines("call", "weak.o", "plain", 5)[:2], (3, [
            "./made.s:13: stopped at plain+0x10: a call of 'weak', which isn't there", "out0 = 32 (0x20)",
            "until then no data changed", "groups 5"]))
        self.assertEqual(self.lines("call", "weak.o", "under", 5)[1][0], "ret0 = 3")
        self.assertEqual(self.lines("call", "weak.o", "tested", 5)[0], 0)
        self.made(".text\n.weak weak#\n.proc weak#\nweak:\nmov r8=7 ;;\nbr.ret.sptk.many b0 ;;\n.endp weak#\n"
                  ".global f#\n.proc f#\nf:\nalloc r34=ar.pfs,0,3,0,0\nmov r33=b0 ;;\nbr.call.sptk.many b0=weak# ;;\n"
                  "mov b0=r33\nmov.i ar.pfs=r34 ;;\nbr.ret.sptk.many b0 ;;\n.endp f#\n", "defined.o")
        self.assertEqual(self.lines("call", "defined.o", "f")[1][0], "ret0 = 7")
        for argument, name in ((0, "weak"), (1, "other")):
            self.assertIn(f"a call of '{name}', which isn't there", self.lines("call", "weak.o", "both", argument)[1][0])
        self.made(f".text\n.global weak#\n.proc weak#\nweak:\n{RETURN % 6}.endp weak#\n", "there.o")
        self.assertNotIn("isn't there", self.lines("call", "weak.o", "plain", "--with", "there.o")[1][0])

    def test_more_files(self):
        self.made(f"{PRINTF}.global there#\n.data\nthere: data4 77\n.global elsewhere#\n.text\n.proc elsewhere#\nelsewhere:\n"
                  f"{RETURN % 5}.endp elsewhere#\n", "more.o")
        self.returns("ret0 = 1", "log_it", 42, "--with", "more.o")
        self.returns("ret0 = 77 (0x4d)", "outer", "--with", "more.o")
        subprocess.run(["ia64-linux-gnu-ar", "rcs", "more.a", "more.o"], check=True)
        self.returns("ret0 = 5", "away", "--with", "more.a")
        self.returns("ret0 = 8", "add", 3, 5, "--with", "more.o", "--with", "more.a")

    def test_one_name_twice(self):
        """The function is the one of FILE, where another file has one of its name that is local, or where its own is."""
        for name, number, head in (("local.o", 1, ""), ("global.o", 2, ".global f#\n")):
            self.made(f".text\n{head}.type f#,@function\n.proc f#\nf:\n{RETURN % number}.endp f#\n", name)
        for first, second, number in (("local.o", "global.o", 1), ("global.o", "local.o", 2)):
            self.assertEqual(self.lines("call", first, "f", "--with", second)[1][0], f"ret0 = {number}")

    def test_archives(self):
        self.made(PRINTF, "p.o")
        subprocess.run(["ia64-linux-gnu-ar", "rcs", "x.a", "p.o", "x.o"], check=True)
        self.assertEqual(self.lines("call", "x.a", "log_it", 42)[1][0], "ret0 = 1")
        self.assertEqual(self.lines("call", "x.a", "apply", "&add", 14)[1][0], "ret0 = 15 (0xf)")
        self.refuses("no function adds; it has add", "x.a", "adds")

    def test_limits_and_faults(self):
        line = self.line("br.cond.sptk spin")
        self.answers([f"./x.s:{line - 2}: stopped at spin+0x0: 100 groups ran without an end; -n N lets more run, up to "
                      "10,000,000", "until then no data changed"], "spin", "-n", 100, status=8)
        self.assertIn("and r12 is 0xffff0, below the stack, which may be too small (--stack)", self.call("deep")[1][0])
        self.assertEqual(self.call("deep")[0], 9)
        self.answers([f"./x.s:{self.line('break.m 1')}: stopped at zero+0x0: 'break.m 0x1' of the code itself, an integer "
                      "division by zero by convention", "until then no data changed"], "zero", status=9)
        self.assertIn("fault BadAddress: 'ld1 r14=[r32]', and r32 is 0x0, a null pointer", self.call("upper")[1][0])
        self.assertIn("fault Unaligned: 'ld8 r14=[r32],8', and r32 is 0x100003, the stack+0x3",
                      self.call("apply", "0x100003")[1][0])
        self.assertIn("fault BadLanding: 'br.cond.sptk.few b6', and b6 is 0x10200, in the code",
                      self.call("jump", "0x10200")[1][0])

    def test_small_addresses(self):
        """An address that was made of the thread pointer is told from a null pointer."""
        load, thread = "ld4 r8=[r14] ;;\n", "mov r2=r13 ;;\n"
        end = "br.ret.sptk.many b0 ;;\n"
        cases = {
            "local": (thread + "addl r14=@tprel(var#),r2 ;;\n" + load + end,
                      "r14 is 0x10, thread-local data, which aren't there"),
            "more": (thread + "addl r14=@tprel(var#),r2 ;;\nshladd r15=r32,2,r14 ;;\nst4 [r15]=r14 ;;\n" + end,
                     "r15 is 0x20, thread-local data, which aren't there"),
            "right": ("ld4 r8=[r13]\n" + end, "r13 is 0x0, thread-local data, which aren't there"),
            "far": (thread + "addl r14=-8,r2 ;;\ncmp.eq p14,p0=r0,r8\nst4 [sp]=r0,14 ;;\n" + load + end,
                    "r14 is 0xfffffffffffffff8, thread-local data, which aren't there"),
            "loaded": (thread + "addl r14=@gprel(null#),gp ;;\nadd r14=r14,r2 ;;\nld8 r14=[r14] ;;\n" + load + end,
                       "r14 is 0x0, a null pointer"),
            "long": ("adds r14=8,r13 ;;\nmovl r14=0x18 ;;\n" + load + end, "r14 is 0x18, perhaps a null pointer with an offset"),
            "cut": ("adds r14=8,r13 ;;\ndep r14=-1,r0,3,1 ;;\n" + load + end,
                    "r14 is 0x8, perhaps a null pointer with an offset"),
            "called": ("alloc r34=ar.pfs,1,2,0,0\nadds r14=8,r13 ;;\nbr.call.sptk.many b0=leaf# ;;\n" + load + end,
                       "r14 is 0x0, a null pointer"),
            "added": ("adds r14=16,r32 ;;\n" + load + end, "r14 is 0x14, perhaps a null pointer with an offset"),
            "other": ("cmp.eq p6,p7=4,r32 ;;\n(p6) br.cond.dptk .on\n;;\nadds r14=8,r13 ;;\nbr.cond.sptk .out ;;\n.on:\n" + load
                      + ".out:\n" + end, "r14 is 0x0, a null pointer")}
        self.made(".explicit\n.text\n" + "".join(f".global {name}#\n.proc {name}#\n{name}:\n{code}.endp {name}#\n"
                                                for name, (code, _) in cases.items())
                  + f'.proc leaf#\nleaf:\nmov r14=r0 ;;\n{end}.endp leaf#\n.section .tdata,"awT"\n.align 4\nvar: data4 5\n'
                  + ".sdata\n.align 8\nnull: data8 0\n", "small.o")
        for name, (_, said) in cases.items():
            status, printed, _ = self.lines("call", "small.o", name, 4)
            self.assertEqual((status, printed[0].split(" and ")[-1]), (9, said), name)

    def test_violations(self):
        line = self.line("adds r8=1,r8")
        place = f"./x.s:{line}: error: wrong+0x0"
        first, second = "adds r8=1,r32' (wrong+0x0 slot 0)", "adds r8=1,r8' (wrong+0x0 slot 1)"
        self.assertEqual(self.call("wrong", 1), (1, [
            f"{place}: RAW r8: written by '{first} and read by '{second}",
            f"{place}: WAW r8: written by '{first} and by '{second}",
            "not run: 2 violations of the rules of groups in what the call may reach. --groups K runs it, each group all at once "
            "and its writes in the order with the number K, 0 for program order"], ""))
        self.returns("ret0 = 1", "wrong", 1, "--groups", 0)
        self.returns("ret0 = 2", "wrong", 1, "--groups", 1)
        # What isn't reached has no part in the verdict.
        self.returns("ret0 = 7", "add", 3, 4)

    def test_hints(self):
        status, printed, _ = self.lines("call", FUNCTIONS, "sum", "data8:5,7", "--skip-hints")
        self.assertEqual((status, printed), (0, ["ret0 = 12 (0xc)", "no data changed", "groups 6"]))
        status, printed, _ = self.lines("call", FUNCTIONS, "sum", "data8:5,7")
        self.assertEqual(status, 3)
        self.assertIn("sum+0x0: 'lfetch.nta [r33]' is outside the profile; --skip-hints leaves such hints out", printed[0])

    # ---- Forms

    def test_json(self):
        status, printed, error = self.ia64("call", "x.o", "pick", 3, "--format", "json")
        document = json.loads(printed)
        self.assertEqual((status, error, document["end"], document["status"]), (0, "", "returned", 0))
        self.assertEqual(document["changes"], [{"name": "counter", "argument": None, "offset": 0, "past": False,
                                                "read_only": False, "before": "07", "after": "03"}])
        self.assertEqual(document["results"][0]["address"], "counter")
        document = json.loads(self.ia64("call", "x.o", "wrong", "--format", "json")[1])
        self.assertEqual((document["end"], document["violation_count"]), ("violated", 2))
        self.assertEqual(document["violations"][0]["resource"], "r8")
        document = json.loads(self.ia64("call", "x.o", "wrong", 1, "--groups", 1, "--format", "json")[1])
        self.assertEqual((document["end"], document["violation_count"], document["violations"]), ("returned", None, None))

    def test_the_image(self):
        self.call("add", 3, 4, "--image", "made.image")
        self.assertIn("r8 0000000000000007", self.lines("run", 100, "made.image")[1])
        self.assertEqual(self.lines("check", "made.image")[0], 0)
        helped = " ".join(" ".join(self.lines("call", "--help")[1]).split())
        self.assertIn("put the image that is run into a file, for run, watch, groups, trace and orders", helped)
        for words in (("run", 100), ("watch", 100), ("groups", 100, 0), ("trace",), ("orders",)):
            self.assertEqual(self.lines(*words, "made.image")[0], 0, words)
        self.assertIn("can't be written", self.call("add", "--image", "/nowhere/x")[2])

    def test_refusals(self):
        self.refuses("x.o: no function ad; it has add", "x.o", "ad")
        self.refuses("argument 1, hello: neither a number", "x.o", "upper", "hello")
        self.refuses("unrecognized arguments: -\u0663", "x.o", "upper", "-\u0663")
        self.refuses("--stack 72: no multiple of 16", "x.o", "add", "--stack", 72)
        self.refuses("has no room for the arguments", "x.o", "add", *range(60), "--stack", 64)
        self.refuses("of stack (--stack), and an image has room for", "x.o", "add", "@1000000")
        self.refuses("&nothing: nothing that was linked has this name", "x.o", "apply", "&nothing")
        self.refuses("nowhere: No such file", "nowhere", "f")
        self.refuses("--with nowhere: No such file", "x.o", "add", "--with", "nowhere")
        self.refuses("an image, which has no names", ROOT / "examples" / "three_nops.image", "f")
        self.refuses("neither an object file", ROOT / "README.md", "f")
        Path("bad.s").write_text("add r8=,r9\n")
        self.refuses("the GNU assembler refuses it", "bad.s", "f")
        Path("y.o").write_bytes(self.object)
        self.refuses("GNU ld refuses it: ", "x.o", "add", "--with", "y.o")
        defined = [word for name in ("printf", "there", "elsewhere") for word in ("--defsym", f"{name}=0")]
        subprocess.run(["ia64-linux-gnu-ld", "-e", "0", *defined, "-o", "x", "x.o"], check=True, stderr=subprocess.DEVNULL)
        self.refuses("a linked file, whose addresses can't be moved", "x", "add")
        for bits, order, said in ((32, "<", "32 bits"), (64, ">", "big-endian")):
            file = writers.Elf(bits=bits, order=order)
            file.symbol("f", file.section(".text", writers.RETURN), size=16)
            Path("other.o").write_bytes(file.data())
            self.refuses(said, "other.o", "f")

    def test_which_functions(self):
        """Where no function is given, it is said which there are; an argument isn't missing."""
        names = ("add, apply, away, big, deep, fill, fill_both, jump, log_it, mul, outer, pair, pick, spin, tenth, upper, wrong, "
                 "zero")
        self.refuses(f"ia64: x.o: no FUNCTION is given; it has {names}\n", "x.o")
        subprocess.run(["ia64-linux-gnu-ar", "rcs", "x.a", "x.o"], check=True)
        self.refuses(f"ia64: x.a: no FUNCTION is given; it has {names}\n", "x.a", "-n", 3)
        Path("many.s").write_text("\n".join(f"f{number:03}: nop.m 0" for number in range(101)))
        self.refuses("f099, ..\n", "many.s")
        Path("none.s").write_text(".data\ndata8 0\n")
        self.refuses("no FUNCTION is given; it has none", "none.s")
        self.refuses("ia64: call: FILE is missing; `ia64 call --help` says what it takes\n")
        self.refuses(f"ia64: x.o: no FUNCTION is given; it has {names}\n", "--trace", "x.o")
        self.refuses("ia64: call: FILE is missing; `ia64 call --help` says what it takes\n", "--trace", 5)
        self.assertRegex(self.ia64("call", "--help")[1].decode(), r"FILE FUNCTION \[ARG\.\.\]\n(.*\n)*  \[ARG\.\.\]  ")

    def test_a_long_run(self):
        nops = "{ .mii\nnop.m 0\nnop.i 0\nnop.i 0\n}\n" * 70
        self.made(f".explicit\n.text\n.proc f#\nf:\n{nops}{RETURN % 5}.endp f#\n", "long.o")
        self.refuses("the program refuses f+0x400: more than 192 slots without a stop", "long.o", "f", status=3)

    def test_words_in_any_order(self):
        self.assertEqual(self.lines("call", "--groups", 0, "x.o", "add", "-n", 50, -3, "--all", "-0x1")[1][0],
                         "ret0 = -4 (unsigned 18446744073709551612, 0xfffffffffffffffc)")


    # ---- Group by group

    def test_trace(self):
        """The groups of the run, by functions and with lines of the source, and then the answer as without them."""
        answer = self.lines("call", FUNCTIONS, "sum", "data8:30,12", "--skip-hints")
        status, printed, error = self.lines("call", FUNCTIONS, "sum", "data8:30,12", "--skip-hints", "--trace")
        self.assertEqual((status, printed[-3:], error), answer)
        self.assertEqual(printed[:-3], [
            "group 1: the caller to the caller+0x0 slot 2, then a stop",
            "  the caller+0x0 slot 0  alloc r32=ar.pfs,0,1,8,0",
            "    frame  sof 0, sol 0 -> sof 9, sol 1",
            "group 2: the caller+0x10 to the caller+0x40 slot 2, then a call of sum",
            "  the caller+0x10 slot 1  movl r12=0x11fff0",
            "  the caller+0x20 slot 1  movl r1=0x180000",
            "  the caller+0x30 slot 1  movl r33=0x120040",
            "  the caller+0x40 slot 2  br.call.sptk.many b0=sum",
            "    frame             cell 0, sof 9, sol 1 -> cell 1, sof 8, sol 0",
            "    r32               in the frame -> below it",
            "    renamed           r33 to r40 -> r32 to r39",
            "    r1 (gp)           0x0 -> 0x180000",
            "    r12 (sp)          0x0 -> 0x11fff0 (the stack+0x1fff0)",
            "    r32 (r33 before)  0x0 -> 0x120040 (argument 1)",
            "    b0 (rp)           0x0 -> 0x10050 (the caller+0x50)",
            "    ar.pfs            0x0 -> 0xc000000000000089 (sof 9, sol 1)",
            "group 3: sum to sum+0x0 slot 2, then a stop",
            "  sum+0x0 slot 1  ./examples/functions.s:57  ld8 r8=[r32],8",
            "    r8 (ret0)  0x0 -> 0x1e (30)",
            "    r32        0x120040 (argument 1) -> 0x120048 (argument 1+0x8)",
            "group 4: sum+0x10 to sum+0x10 slot 2, then a stop",
            "  sum+0x10 slot 0  ./examples/functions.s:61  ld8 r9=[r32]",
            "    r9 (ret1)  0x0 -> 0xc (12)",
            "group 5: sum+0x20 to sum+0x20 slot 2, then a return to the caller+0x50",
            "  sum+0x20 slot 0  ./examples/functions.s:66  add r8=r8,r9",
            "  sum+0x20 slot 2  ./examples/functions.s:68  br.ret.sptk.many b0",
            "    frame      cell 1, sof 8, sol 0 -> cell 0, sof 9, sol 1",
            "    r32        below the frame -> in it again",
            "    renamed    r32 to r39 -> r33 to r40",
            "    r8 (ret0)  0x1e (30) -> 0x2a (42)",
            "group 6: the caller+0x50, then the end of the run",
            "  the caller+0x50 slot 0  break.m 0x0",
            "    nothing changes"])

    def test_limits_of_a_trace(self):
        for words, groups in ((("--trace", 3), 3), (("--trace=3",), 3), (("--trace", "-n", 5), 5), (("-n", 5, "--trace", 9), 5),
                              (("--trace",), 20)):
            status, printed, _ = self.call("spin", "-n", 100, *words)
            self.assertEqual((status, len([row for row in printed if row.startswith("group ")])), (8, groups), words)
            self.assertIn(f"{groups} groups told, and the run goes on at spin: --trace N tells more", printed)

    def test_data_in_a_trace(self):
        """A word of what an argument points to, and what stands in the place of what isn't there."""
        status, printed, _ = self.call("upper", '"a"', "--trace", 100)
        self.assertEqual(status, 0)
        self.assertTrue(any(re.fullmatch(r" +\[0x12\w+\] \(argument 1\) +0x61 \(97\) -> 0x41 \(65\)", row) for row in printed))
        status, printed, _ = self.call("log_it", 5, "--trace", 100)
        self.assertEqual(status, 3)
        called = printed.index("group 4: log_it+0x10 to log_it+0x20 slot 2, then a call of printf")
        self.assertIn("    renamed           r37 to r38 -> r32 to r33", printed[called:])
        self.assertIn("group 5: printf, then the end of the run", printed[called:])

    def test_predicates_in_a_trace(self):
        """Slots whose predicate is 0 are told, also where a break was put in; branches aren't."""
        printed = self.call("mul", 0, 7, "--trace", 100)[1]
        lines = [self.line(f"(p6) {word}") for word in ("setf.sig f6", "setf.sig f7", "xma", "getf")]
        self.assertEqual([row for row in printed if "//" in row], [
            f"  mul+0x10 slot 0  ./x.s:{lines[0]}  (p6) setf.sig f6=r32  // p6 is 0",
            f"  mul+0x10 slot 1  ./x.s:{lines[1]}  (p6) setf.sig f7=r33  // p6 is 0",
            f"  mul+0x20 slot 1  ./x.s:{lines[2]}  (p6) xmpy.l f6=f6,f7  // p6 is 0",
            f"  mul+0x30 slot 0  ./x.s:{lines[3]}  (p6) getf.sig r8=f6  // p6 is 0"])
        printed = self.call("upper", '"aB"', "--trace", 100)[1]
        self.assertEqual([row.split("  ")[-1] for row in printed if "(p8)" in row], ["(p8) adds r14=-32,r14", "// p8 is 0"])
        self.assertEqual([row for row in printed if "(p6)" in row and "//" in row], [])
        steps = json.loads(self.ia64("call", "x.o", "mul", 0, 7, "--trace", 100, "--format", "json")[1])["steps"]
        self.assertEqual([slot["place"] for step in steps for slot in step["slots"] if slot["off"] == "p6"],
                         ["mul+0x10 slot 0", "mul+0x10 slot 1", "mul+0x20 slot 1", "mul+0x30 slot 0"])

    def test_end_of_a_trace(self):
        """What ends a run is told as it stood there; of a fault the kind is told too."""
        status, printed, _ = self.lines("call", FUNCTIONS, "sum", "data8:5,7", "--trace")
        self.assertEqual((status, printed[-5:-2]), (3, ["group 3: sum, then the end of the run",
                                                        "  sum+0x0 slot 0  ./examples/functions.s:56  lfetch.nta [r33]",
                                                        "    nothing changes"]))
        self.assertIn("group 4: upper+0x10, then fault BadAddress", self.call("upper", "--trace")[1])

    def test_no_trace(self):
        self.assertEqual(self.call("wrong", 1, "--trace"), self.call("wrong", 1))
        self.assertNotIn("steps", json.loads(self.ia64("call", "x.o", "wrong", "--trace", "--format", "json")[1]))
        self.refuses("--trace tells a run slot by slot, and with --groups there is none", "x.o", "add", "--trace", "--groups", 0)
        self.refuses("argument 1, x: neither a number nor another form of an argument", "x.o", "add", "--trace", "x")
        self.refuses("0 is no number from 1 to 10000000", "x.o", "add", "--trace", 0)

    def test_a_trace_in_json(self):
        plain, document = (json.loads(self.ia64("call", "x.o", "pick", 3, "--format", "json", *words)[1])
                           for words in ((), ("--trace", 2)))
        found = document.pop("steps")
        self.assertEqual((plain, len(found)), (document, 2))
        self.assertEqual((found[1]["number"], found[1]["how"], found[1]["next"]), (2, "taken", "pick+0x0 slot 0"))
        self.assertIn({"name": "r1 (gp)", "old": "0x0", "new": "0x180000"}, found[1]["changes"])


class WithoutTools(Case):
    """Where GNU's linker is missing."""

    def test_a_refusal(self):
        with unittest.mock.patch("front.gnu.installed", lambda tool: None):
            status, printed, error = self.lines("call", FUNCTIONS, "sum")
        self.assertEqual((status, printed), (2, []))
        self.assertIn("GNU ld for ia64 isn't installed", error)
