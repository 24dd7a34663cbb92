"""Sources for the GNU assembler, read without it: what is read, where it stands in the source, and that it is what the
assembler makes of it."""

import os
import random
import re
import subprocess
import tempfile
import unittest
import unittest.mock
from pathlib import Path

from front import sources
from front.elf import Elf
from front.functions import functions_of
from front.stand_ins import stood_in
from front.isolation import isolate
from front.tests.case import PROGRAM, ROOT, Case, needs_gnu

# Sources as GCC prints them with -O2.
LEAF = """\
	.file	"leaf.c"
	.pred.safe_across_calls p1-p5,p16-p63
	.text
.Ltext0:
	.align 16
	.align 64
	.global add3#
	.type	add3#, @function
	.proc add3#
add3:
[.LFB0:]
	.file 1 "leaf.c"
	.loc 1 1 36 view -0
	.prologue
	.body
	.loc 1 2 3 view .LVU1
	.mmi
	add r14 = r32, r33
	nop 0
	nop 0
	;;
	.mib
	add r8 = r14, r34
	nop 0
	.loc 1 3 1 is_stmt 0 view .LVU2
[.LVL1:]
	br.ret.sptk.many b0
	;;
[.LFE0:]
	.endp add3#
	.align 16
	.align 64
	.global ints#
	.type	ints#, @function
	.proc ints#
ints:
[.LFB1:]
	.prologue
	.body
	.mlx
	cmp4.ge p6, p7 = r32, r33
	movl r15 = 0x123456789abcdef0
	;;
	.mii
	nop 0
	(p6) sxt4 r8 = r32
	(p7) sxt4 r8 = r33
	;;
	.mii
	addl r14 = 4294967295 - 0x100000000, r0
	extr.u r16 = r15, 4, 12
	dep r17 = r32, r33, 0, 8
	;;
	.mii
	and r19 = -16, r15
	shladd r20 = r16, 2, r8
	zxt1 r21 = r17
	;;
	.mib
	xor r8 = r19, r8
	nop 0
	br.ret.sptk.many b0
	;;
[.LFE1:]
	.endp ints#
.Letext0:
	.section	.debug_info,"",@progbits
	data4.ua	0x4d
	data8.ua	.Ltext0#
	data8.ua	.LVL1#
	.ident	"GCC: (Debian 12.2.0-14) 12.2.0"
	.section	.note.GNU-stack,"",@progbits
"""
LOOP = """\
	.file	"loop.c"
	.pred.safe_across_calls p1-p5,p16-p63
	.text
	.align 16
	.align 64
	.global sum#
	.type	sum#, @function
	.proc sum#
sum:
	.prologue
	.mmi
	mov r14 = r32
	cmp4.lt p6, p7 = 0, r33
	.save ar.lc, r2
	mov r2 = ar.lc
	.body
	;;
	.mib
	adds r33 = -1, r33
	mov r8 = r0
	(p7) br.cond.dpnt .L4
	;;
	.mii
	nop 0
	addp4 r33 = r33, r0
	;;
	mov ar.lc = r33
	;;
	.align 32
.L3:
	.mmi
	ld4 r15 = [r14], 4
	nop 0
	nop 0
	;;
	.mib
	add r8 = r15, r8
	nop 0
	br.cloop.sptk.few .L3
	;;
.L4:
	.mib
	nop 0
	mov ar.lc = r2
	br.ret.sptk.many b0
	;;
	.endp sum#
	.align 16
	.global clear#
	.type	clear#, @function
	.proc clear#
clear:
	.prologue
	.body
	.mii
	mov r14 = r32
	mov ar.lc = 3
	nop 0
	;;
.L7:
	.mmb
	st8 [r14] = r0, 8
	nop 0
	br.cloop.sptk.many .L7
	;;
	.mib
	nop 0
	mov pr = r9, -1
	br.ret.sptk.many rp
	;;
	.endp clear#
	.ident	"GCC: (Debian 12.2.0-14) 12.2.0"
"""
CALLS = """\
	.file	"calls.c"
	.pred.safe_across_calls p1-p5,p16-p63
	.section	.rodata.str1.8,"aMS",@progbits,1
	.align 8
.LC0:
	stringz	"%d; // of \\"%s\\" /* } */\\n"
	.text
	.align 16
	.align 64
	.type	twice, @function
	.proc twice#
twice:
	.prologue
	.body
	.mib
	add r8 = r32, r32
	nop 0
	br.ret.sptk.many b0
	;;
	.endp twice#
	.align 16
	.align 64
	.global show#
	.type	show#, @function
	.proc show#
show:
	.prologue 14, 34
	.mmi
	.save ar.pfs, r35
	alloc r35 = ar.pfs, 2, 4, 3, 0
	.fframe 16
	adds r12 = -16, r12
	mov r36 = r1
	.mmi
	mov r38 = r32
	addl r37 = @ltoffx(.LC0#), r1
	.save rp, r34
	mov r34 = b0
	.body
	;;
	.mib
	ld8.mov r37 = [r37], .LC0#
	nop 0
	br.call.sptk.many b0 = twice#
	;;
	.mii
	mov r1 = r36
	nop 0
	sxt4 r39 = r8
	;;
	.mii
	addl r14 = @gprel(count#), r1
	nop 0
	;;
	nop 0
	.mmi
	ld8 r15 = [r14]
	addl r16 = @ltoff(@fptr(twice#)), r1
	nop 0
	;;
	.mmb
	adds r15 = 1, r15
	mov r40 = r33
	br.call.sptk.many b0 = printf#
	;;
	.mii
	mov r1 = r36
	mov ar.pfs = r35
	mov b0 = r34
	.mmi
	ld8 r17 = [r33], 8
	st8 [r14] = r15
	nop 0
	;;
	.mmi
	ld8 r1 = [r33]
	nop 0
	mov b6 = r17
	;;
	.mib
	.restore sp
	adds r12 = 16, r12
	nop 0
	br.call.sptk.many b0 = b6
	;;
	.mib
	mov r1 = r36
	nop 0
	br.sptk.many show#
	;;
	.endp show#
	.global count#
	.section	.sbss,"aws",@nobits
	.align 8
	.type	count#, @object
	.size	count#, 8
count:
	.skip	8
	.ident	"GCC: (Debian 12.2.0-14) 12.2.0"
"""
TABLE = """\
	.file	"table.c"
	.pred.safe_across_calls p1-p5,p16-p63
	.text
	.align 16
	.align 64
	.global pick#
	.type	pick#, @function
	.proc pick#
pick:
	.prologue
	.body
	.mmi
	cmp4.ltu p6, p7 = 3, r32
	addl r14 = @ltoffx(.L4#), r1
	zxt4 r32 = r32
	;;
	.mib
	ld8.mov r14 = [r14], .L4#
	nop 0
	(p6) br.cond.spnt .L2
	;;
	.mmi
	shladd r14 = r32, 3, r14
	;;
	ld8 r15 = [r14]
	nop 0
	;;
	.mii
	add r15 = r15, r14
	nop 0
	;;
	mov b6 = r15
	.mbb
	nop 0
	br b6
	nop 0
	;;
	.section	.rodata
	.align 8
	.align 8
.L4:
	data8	.L7-.L4
	data8	.L6-.L4
	data8	.L5-.L4
	data8	.L3-.L4
	.text
.L6:
	.mib
	addl r8 = 12, r0
	nop 0
	br.ret.sptk.many b0
	;;
.L5:
	.mib
	addl r8 = 345, r0
	nop 0
	br.ret.sptk.many b0
	;;
.L3:
	.mib
	addl r8 = 17, r0
	nop 0
	br.ret.sptk.many b0
	;;
.L7:
	.mib
	addl r8 = 5, r0
	nop 0
	br.ret.sptk.many b0
	;;
.L2:
	.mib
	mov r8 = -1
	nop 0
	br.ret.sptk.many b0
	;;
	.endp pick#
"""
PREDICATED = """\
	.file	"predicated.c"
	.pred.safe_across_calls p1-p5,p16-p63
	.section	.text.startup,"ax",@progbits
	.align 16
	.align 64
	.global clamp#
	.type	clamp#, @function
	.proc clamp#
clamp:
	.prologue
	.body
	.mmi
	cmp.lt p6, p7 = r32, r33
	cmp.gt p8, p9 = r32, r34
	tbit.nz p10, p11 = r32, 5
	;;
	.mmi
	nop 0
	(p7) cmp.eq.unc p12, p0 = r32, r33
	nop 0
	.mib
	nop 0
	nop 0
	(p9) br.cond.dptk .L2
	;;
	.mii
	(p10) adds r34 = 1, r34
	(p11) adds r34 = -1, r34
	nop 0
	;;
	.pred.rel.mutex p6, p7
.L2:
	.pred.rel.mutex p6, p7
	.mmi
	(p6) mov r8 = r33
	(p7) mov r8 = r32
	cmp.ne.and p6, p0 = r0, r34
	;;
	.mfb
	nop 0
	.pred.rel.mutex p12, p7
	nop 0
	(p6) br.cond.dpnt .L2
	.mib
	(p12) st8.rel [r32] = r8
	nop 0
	br.ret.sptk.many b0
	;;
	.endp clamp#
	.section	.text.unlikely,"ax",@progbits
	.align 16
	.type	clamp.cold, @function
	.proc clamp.cold#
clamp.cold:
	.prologue
	.body
	.mib
	nop 0
	nop 0
	br.call.sptk.many b0 = abort#
	;;
	break.f 0
	;;
	.endp clamp.cold#
"""
DATA = """\
	.file	"data.c"
	.pred.safe_across_calls p1-p5,p16-p63
	.global names
	.section	.rodata.str1.8,"aMS",@progbits,1
	.align 8
.LC0:
	stringz	"alpha"
	.align 8
.LC1:
	stringz	"it's; { .mii // beta"
	.section	.data.rel.local,"aw",@progbits
	.align 8
	.type	names#, @object
	.size	names#, 24
names:
	data8	.LC0
	data8	.LC1#
	data8	@fptr(other#)
	.global flags#
	.section	.sdata,"aws",@progbits
	.align 4
	.type	flags#, @object
	.size	flags#, 4
flags:
	data4	7
	.common	shared#,32,8
	.text
	.align 16
	.type	other, @function
	.proc other#
other:
	.prologue
	.body
	.mmi
	addl r14 = @gprel(flags#), r1
	addl r15 = @ltoffx(names#), r1
	adds r16 = @tprel(mine#), r13
	;;
	.mmi
	ld4.acq r14 = [r14]
	ld8.mov r15 = [r15], names#
	nop 0
	;;
	.mmi
	mf
	fetchadd4.acq r17 = [r15], 1
	nop 0
	;;
	.mlx
	ld8.a r18 = [r15]
	movl r19 = @gprel(names#+8)
	;;
	.mmi
	st8 [r19] = r18, -8
	chk.a.clr r18, .L9
	nop 0
	;;
.L9:
	.mmi
	ld8.c.clr r18 = [r15]
	xchg8 r20 = [r15], r0
	nop 0
	;;
	.mib
	nop 0
	mov r8 = ip
	br.ret.sptk.many b0
	;;
	.endp other#
"""
# A source that was written by hand.
BY_HAND = """\
// Copies: rp and the loop counter come back as they were.
#define NOTHING
	.explicit
	.text
COUNT = 3
	.global copy#
	.proc copy#, inner#
copy:	.prologue
{ .mii; alloc loc0 = ar.pfs, 2, 3, 3, 8; .save ar.lc, r3; mov r3 = ar.lc
	mov	loc1 = rp } { .mmi
	adds	r8 = COUNT + 2 * (4 - 010), in1;;
	nop.m 0
	mov	loc2 = pr	/* all
 of them */ }
	.body
inner:	{ .mib;	mov out0 = in0 ; mov.i ar.lc = COUNT ; nop.b 0 ;; }
1:	{ .mmi
(p6)	ld8.s	r14 = [in0], 8
	add	r9 = 1, gp
	nop.i	0 } ;;
	{	.mib
	chk.s	r14, 2f ; nop.i 'a'
	br.cloop.sptk.few 1b }
2:
	{ .mmi
	st8	[out0] = r14, 8
	ADD	ret0 = r14, sp, 1
	cmp.eq	p7 = r14, r9 }
{	.mii
	cmp.leu	p8, p9 = 5, r14
	mov	b6 = r14, 1b
	mov.sptk.imp b7 = r14, 16 ;; }
	{ .mmi
	cmp.lt.and.orcm p10, p11 = r14, r0
	mov	r16 = 0xfffffffffffffffe
	mov	pr.rot = 1 << 16 ;; }
	{ .mlx ; nop.m @pause ; movl r15 = copy }
	{ .mlx ; hint 0 ; nop.x 0x3fffff ;; }
	{ .mib
	nop.m 0 ;;
	}
	.mib
	mov	rp = loc1
	br.ret.sptk.many	rp ;;
	.endp
"""
# Floating point, as GCC has it.
FLOATING = """\
	.pred.safe_across_calls p1-p5,p16-p63
	.text
	.align 16
	.align 64
	.global scale#
	.type	scale#, @function
	.proc scale#
scale:
	.prologue
	.mmi
	cmp4.ge p6, p7 = 0, r33
	lfetch.nt1 [r32]
	.save ar.lc, r2
	mov r2 = ar.lc
	.body
	;;
	.mii
	adds r33 = -1, r33
	nop 0
	;;
	mov ar.lc = r33
	.mmf
	nop 0
	nop 0
	mov f6 = f8
	.mib
	nop 0
	nop 0
	(p6) br.cond.dpnt .L1
	;;
.L3:
	.mmf
	ldfd f7 = [r32]
	nop 0
	nop 0
	;;
	.mfi
	nop 0
	fma.d f7 = f7, f6, f0
	nop 0
	;;
	.mmb
	stfd [r32] = f7, 8
	nop 0
	br.cloop.sptk.few .L3
	;;
.L1:
	.mib
	nop 0
	mov ar.lc = r2
	br.ret.sptk.many b0
	;;
	.endp scale#
	.align 16
	.global divide#
	.type	divide#, @function
	.proc divide#
divide:
	.prologue
	.body
	.mfi
	setf.sig f6 = r32
	nop 0
	nop 0
	.mfi
	setf.sig f7 = r33
	nop 0
	nop 0
	;;
	.mfi
	nop 0
	fcvt.xf f6 = f6
	nop 0
	.mfi
	nop 0
	fcvt.xf f7 = f7
	nop 0
	;;
	.mfi
	nop 0
	frcpa.s1 f8, p6 = f6, f7
	nop 0
	;;
	.mfi
	nop 0
	(p6) fnma.s1 f9 = f7, f8, f1
	nop 0
	.mfi
	nop 0
	(p6) fmpy.s1 f10 = f6, f8
	nop 0
	;;
	.mfi
	nop 0
	(p6) fma.s1 f8 = f9, f10, f10
	nop 0
	;;
	.mfi
	nop 0
	fcvt.fx.trunc.s1 f8 = f8
	nop 0
	;;
	.mfi
	getf.sig r8 = f8
	fcmp.lt.s1 p8, p9 = f8, f0
	nop 0
	;;
	.mfb
	nop 0
	nop 0
	(p8) br.cond.dpnt .L9
	;;
	.mmi
	mov ar.ccv = r8
	chk.s f8, .L9
	nop 0
	;;
	.mmi
	cmpxchg8.acq r9 = [r34], r33, ar.ccv
	ldfps f12, f13 = [r35], 8
	tf.z p10,p11 = 40
	;;
	.mlx
	nop 0
	brl.call.sptk.many b0 = abort#
	;;
.L9:
	.mfb
	nop 0
	xma.l f8 = f8, f9, f0
	br.ret.sptk.many b0
	;;
	.endp divide#
"""
GCC = {"leaf": LEAF, "loop": LOOP, "calls": CALLS, "table": TABLE, "predicated": PREDICATED, "data": DATA}
HEAD = ".mii\nnop 0\nnop 0\n"


def read(text):
    return sources.read(text.encode("latin-1"))


def said(text):
    """The lines of the text of a source."""
    return read(text).text.decode().splitlines()


def asked(word, data):
    done = subprocess.run([PROGRAM, word], input=data, stdout=subprocess.PIPE, check=False)
    return done.returncode, done.stdout


def code_of(text):
    """The code of a source as it is read here."""
    program = read(text)
    status, image = asked("build", program.text)
    assert status == 0, (image, program.text.decode())
    return sources.SourceCode(program, image)


def functions_in(code):
    """The functions of a file, their ties cut."""
    functions = functions_of(code)
    isolate(code, functions)
    return functions


def assembled(text):
    """The object file that the GNU assembler makes of a source."""
    with tempfile.TemporaryDirectory() as folder:
        source, made = os.path.join(folder, "x.s"), os.path.join(folder, "x.o")
        Path(source).write_bytes(text.encode("latin-1"))
        subprocess.run(["ia64-linux-gnu-as", "-xexplicit", "-xnone", "-W", "-o", made, source], check=True)
        return Elf(Path(made).read_bytes())


@needs_gnu
class AsTheAssemblerHasIt(unittest.TestCase):
    """The functions of a source are those of the object file, with all that is looked at: instructions outside the profile by
    what stands in for them."""

    def same(self, text, name, has_entries=True):
        mine, wanted = (functions_in(code) for code in (code_of(text), assembled(text)))
        self.assertEqual(len(mine), len(wanted), name)
        for got, other in zip(mine, wanted):
            for what in ("name", "names", "start", "size", "faults", "outside"):
                self.assertEqual(getattr(got, what), getattr(other, what), f"{name}: {what} of {other.name}")
            self.assertEqual(got.section.name, other.section.name, name)
            for number, (bundle, right) in enumerate(zip(got.bundles, other.bundles)):
                self.assertEqual(stood_in(bundle).bundle, stood_in(right).bundle, f"{name}: bundle {number} of {other.name}")
            if has_entries:
                self.assertEqual(got.entries, other.entries, f"{name}: entries of {other.name}")

    def test_sources_of_gcc(self):
        """An object file doesn't tell all targets of a table of differences."""
        for name, text in GCC.items():
            self.same(text, name, name != "table")

    def test_a_source_by_hand(self):
        self.same(BY_HAND, "by hand")

    def test_names_of_functions(self):
        """By `.proc` and `.type`, with an end and without, under several names, at one place and one inside the other."""
        bundle = ".mii;nop 1;nop 0;nop 0\n"
        for text in (f".proc f#,g\nf:{bundle}g:{bundle}.endp f#,g\n{bundle}", f".type f,@function\nf:{bundle}.align 64\n{bundle}",
                     f".type f,@function\n.global f,g,h\n.weak w\nf:g:{bundle}w:{bundle}.set h,f\nk=f\n.type g,@function",
                     f"{bundle}.proc f\n{bundle}f:{bundle}.endp f\n.section .text.x,\"ax\"\n.proc z\nz:{bundle}.endp z",
                     f".proc f\nf:{bundle}.endp f\n.proc g\ng:{bundle}.mib;br.few f\n.mib;br.call.sptk b0=h\n.endp g"):
            self.same(text, text)

    def test_names_in_expressions(self):
        """An entry is at a name's place and what is added to it, in data that are loaded and in operands."""
        bundle = ".mii;nop 1;nop 0;nop 0\n"
        code = (f".text\n.proc f#\nf:\n{bundle}1: {bundle}x: {bundle}.mii;nop 0\n[.Lt:] nop 0;nop 0\n1: {bundle}{{}}\n.endp f#\n"
                ".data\n")
        for data in ("data8 1b", "data8 f+16", "data8 f+0x20,8+f,f+5", "data8 f-16", "data8 x - 0x10", "data8.ua x", "data4 f+32",
                     ".xdata8 .data,f+48", "data16 @iplt(x)", "data8 @fptr(x)", "data8 @segrel(f+32),@pcrel(f)",
                     "data8 @gprel(f)+16", "y = f + 16\n.data\ndata8 y", "y = f + 16\nz = y + 16\n.data\ndata8 z-16,z",
                     "data8 f+c\nc = 16", "data8 .Lt", "data8 2f,1b\n2: data8 0", ".quad x", ".8byte f+(2*8)", "n: data8 x-n",
                     "y = f+16\n.global y", "m: data8 0\nlen = .-m\ndata8 len"):
            self.same(code.format("") + f"{data}\n", data)
        for operand in ("f+16", "1b-16", "1b", "@gprel(f+32)", "x-0x10", "y\ny = f+32", "@gprel(f)+16"):
            self.same(code.format(f".mlx;nop 0;movl r9={operand}"), operand)
        for operand in ("@ltoff(f+32)", "@ltoff(@fptr(f))", "@pcrel(x)"):
            self.same(code.format(f".mmi;nop 0;addl r9={operand},gp"), operand)
        self.same(f".section .rodata\ndata8 1f\n{code.format('')}", "1f")

    def test_loaded_sections(self):
        """By the flags of a section, and where it has none by its name."""
        code = ".text\n.proc f\nf: .mii;nop 0\nx: .mii;nop 0\n.endp f\n.section {}\ndata8.ua x\n"
        for section in (*(f".{name}" for name in """
                ctors ctors.5 dtors foo data datax data.rel.ro data1 data1.x rodata rodata1 rodatax sdata sdata2 tdata tdata1
                init_array init_array.5 fini_array preinit_array jcr got opd lit8 srdata ldata eh_frame gcc_except_table
                comment note note.x persistent gnu.linkonce.d.x gnu.linkonce.r.x gnu.linkonce.p.x gnu.linkonce.s.x debug_info
                IA_64.unwind_info
                """.split()), '.foo,"a"', '.ctors,"aw"', '.comment.x,"a"', '.rodata.x,""', '.debug_x,"a"', '.foo,"w"',
                        '.foo,"?a"', '.foo,"awG",@progbits,g,comdat', '.foo,"aMS",@progbits,1', '.x.gcc_except_table,"a"',
                        '.foo,"a"\n.text\n.section .foo'):
            self.same(code.format(section), section)

    def test_ends_of_groups(self):
        """Where a directive ends a group and a bundle, and where it ends a bundle alone."""
        forms = (".proc f#\nf:\n{{ .mii;nop 0;nop 0;add r8=r9,r10 }}\n{}\n"
                 "{{ .mib;add r9=r8,r0;nop 0;br.ret.sptk b0;; }}\n.endp f#",
                 ".proc f#\nf: .mii;nop 0;add r8=r9,r10\n{}\nadd r9=r8,r0\n.mib;nop 0;nop 0;br.ret.sptk b0;;\n.endp f#")
        for directive in ('.stabs "x",1,2,3,4', ".stabn 68,0,3,0", ".stabd 68,0,3", ".handlerdata\ndata8 0\n.text", '.ident "x"',
                          ".handlerdata\n.text\n;;", ".handlerdata\n.text\n.ident \"x\"", ".xdata8 .data,5", ".text", ".align 16",
                          ".section .text", ".pushsection .data\n.popsection", ".data\n.previous", ".size f,32", ".size q,.-f",
                          ".symver f,f@V1", ".prologue", ".body", ".save rp,r34", ".personality p#", ".comm x,8,8",
                          ".lcomm x,8,8", ".endp f#", ".handlerdata\ndata8 0\n.endp f#",
                          ".regstk 1,2,3,0", "x = 5", "x:", "[x:]", ".global f", ".weak f", ".entry f", ".mem.offset 8,0",
                          ".reg.val r9,5", ".serialize.data", ".gnu_attribute 4,1", ".type f,@function", ".extern q",
                          ".version \"x\""):
            for form in forms:
                text = form.format(directive)
                self.same(text if ".endp" not in directive else text.rpartition("\n")[0] + "\n", directive)

    def test_labels_before_alignments(self):
        """They stand before what fills the room."""
        bundle = ".mii;nop 1;nop 0;nop 0\n"
        for label in ("x:", "x:\n.data\n.text", "[x:]"):
            for align in (".align 64", ".p2align 6", ".p2align 6,,16"):
                self.same(f".proc f\nf: {bundle}{label}\n{align}\n{bundle}.mib;br.few x\n.endp f\n.data\ndata8 x", label + align)

    def test_sizes_and_versions(self):
        bundle = ".mii;nop 1;nop 0;nop 0\n"
        names = "y = f + 16\nz = f\n"
        for text in (f".proc f\nf: {bundle}{bundle}{names}.endp f", f"{names}.proc f\nf: {bundle}{bundle}.endp f",
                     f".proc f\n{names}f: {bundle}{bundle}.endp f", f".type f,@function\nf: {bundle}{bundle}{names}.size f,16",
                     f".proc f\nf: {bundle}{bundle}.endp f\n{names}", f"f: {bundle}{bundle}{names}.type f,@function\n.size f,16",
                     f".proc f\nf: {bundle}{bundle}.size f,16\n.endp f",
                     f".proc f\nf: {bundle}{bundle}.endp f\n.size f,16\n{bundle}",
                     f".size f,.Le-f\n.type f,@function\nf: {bundle}{bundle}.Le: {bundle}",
                     f".type f,@function\nf: {bundle}.ident \"x\"\n.size f,.-f\n{bundle}",
                     f".proc f\nf: {bundle}{bundle}.endp f\ny = f+16\n.type y,@function\n.size y,16",
                     f".global f\n.proc f\nf: {bundle}.endp f\n.symver f,f@@V1", f".proc f\nf: {bundle}.endp f\n.symver f,f@V1",
                     f".proc f\nf: {bundle}.data\nd: data8 0\n.size d,.-d\n.text\n{bundle}.endp f"):
            self.same(text + "\n", text)

    def test_examples(self):
        self.same((ROOT / "examples" / "functions.s").read_text(), "functions.s")

    def test_tries(self):
        """An object file has no `.entry`."""
        paths = sorted((ROOT / "tests" / "gnu").glob("*.s"))
        self.assertGreater(len(paths), 30)
        for path in paths:
            self.same(path.read_text(), path.name, False)

    def test_random_ones(self):
        """Instructions, stops, labels and alignments at random in selectors: where the source is read, it is so too."""
        pool = ["nop 0", "nop.m 1", "nop.i 2", "nop.b 3", "nop.f 4", "add r8=r9,r10", "mf", "mov b6=r8", "(p6) br.few b6",
                "mov ar.lc=3", "movl r8=5", "break.f 0", "alloc r32=ar.pfs,0,1,0,0", "clrrrb", "br.cloop.sptk.few x", ";;", ";;",
                ";;", ".align 32", ".align 64", ".p2align 5", ".ident \"x\"", "chk.s r8,x", "cmp.leu p6,p7=5,r9",
                "mov r8=ar.unat", "popcnt r8=r9", "y:", "[.Lz:]", "fma.d f8=f9,f10,f11", "ldfd f8=[r9],8", "cover",
                "lfetch [r8]", "mov ar.ccv=r8", "chk.s f8,x", "brl.few x", "padd1 r8=r9,r10"]
        chance, count = random.Random(11), 0
        for _ in range(25):
            rows, names = ["x:"], 0
            for _ in range(12):
                rows.append("." + chance.choice(("mii", "mlx", "mmi", "mfi", "mmf", "mib", "mbb", "bbb", "mmb", "mfb")))
                for _ in range(chance.randrange(5)):
                    names += 1
                    rows.append(chance.choice(pool).replace("y:", f"y{names}:").replace(".Lz", f".Lz{names}"))
            good = []
            for row in rows + [".mii", "nop 0"]:
                try:
                    read("\n".join(good + [row, "nop 0"] if row.startswith(".m") or row.startswith(".b") else good + [row]))
                    good.append(row)
                except sources.Unread:
                    pass
            self.same("\n".join(good) + "\n", "\n".join(good))
            count += len(good)
        self.assertGreater(count, 250)


class Reading(unittest.TestCase):
    """What is read, form by form."""

    def slots(self, text, count=3):
        """The lines of the first slots, with a label and a bundle behind them."""
        return [line.strip() for line in said(text + "\nlast: .mii\nnop 0") if line.startswith("  ")][:count]

    def unread(self, text, line, why):
        with self.assertRaises(sources.Unread) as caught:
            read(text)
        self.assertEqual((caught.exception.line, caught.exception.why), (line, why))

    def test_bundles(self):
        """With braces and without, on many lines and on one."""
        wanted = ["{ .mii", "  nop.m 0", "  add r8 = r9, r10 ;;", "  nop.i 0 ;;", "}"]
        for text in (".mii\nnop.m 0\nadd r8=r9,r10\n;;\nnop.i 0\n;;\n", "{ .mii\nnop.m 0\nadd r8=r9,r10 ;;\nnop.i 0\n;; }\n",
                     "{ .mii; nop.m 0; add r8 = r9 , r10;; nop.i 0;;}", "{\n.mii nop.m 0\n add r8=r9,r10;;;nop.i 0\n}\n;;",
                     "{ .mii nop.m 0 /* a\n{ */ ; add r8=r9,r10 ;; // ;;\n# }\nnop.i 0 } ;;"):
            self.assertEqual(said(text)[:5], wanted)
        self.assertEqual(said(".mii\n.mib\nbr.few b6\n.mlx;movl r8=5")[:11], [
            "{ .mib", "  nop 0", "  nop 0", "  br.few b6", "}", "{ .mlx", "  nop 0", "  movl r8 = 5 ;;", "}", "end:", "{ .mii"])

    def test_slots(self):
        """An instruction goes into the next slot of its unit, and a stop in the middle of a bundle where a template has one."""
        self.assertEqual(self.slots(".mib\nadd r8=r9,r10\nbr.few b6\n;;"), ["add r8 = r9, r10", "nop 0", "br.few b6 ;;"])
        self.assertEqual(self.slots(".mii\nadd r8=r9,r10\n;;\nadd r9=r9,r10\n.mib\n"), [
            "add r8 = r9, r10", "nop 0 ;;", "add r9 = r9, r10"])
        self.assertEqual(self.slots(".mmi\nmf\n;;\nmf\n;;\n"), ["mf ;;", "mf", "nop 0 ;;"])
        self.assertEqual(self.slots(".mbb\nclrrrb\n.mib"), ["nop 0", "nop 0", "clrrrb ;;"])
        self.assertEqual(self.slots(".bbb\nbr.ctop.sptk.few x\nx:"), ["nop 0", "nop 0", "br.ctop.sptk.few end"])
        self.assertEqual(self.slots(".mfb\nmf\n(p6) br.few b6\n"), ["mf", "nop 0", "(p6) br.few b6"])
        self.assertEqual(self.slots(f"{HEAD}nop 1\n.mmi\nalloc r32=ar.pfs,0,1,0,0"), ["nop 0", "nop 0", "nop 1 ;;"])

    def test_alone(self):
        """What stands alone between others gets a bundle."""
        self.assertEqual(self.slots("break.f 0\n;;\n.mii\nnop 0"), ["nop 0", "break.f 0", "nop 0 ;;"])
        self.assertEqual(self.slots("movl r8=5\nx:.mii;nop 0", 2), ["nop 0", "movl r8 = 5"])
        self.assertEqual(self.slots("br.few b6\n;;\nx: .mii;nop 0"), ["nop 0", "nop 0", "br.few b6 ;;"])
        # What comes next counts too where the assembler chooses a template.
        self.assertEqual(self.slots("br.few b6\n;;\n.mii;nop 0"), ["nop 0", "br.few b6", "nop 0 ;;"])

    def test_ends_of_groups(self):
        """The assembler ends a group where it turns to something else, and not at what says nothing of code."""
        for directive in (".align 16", ".p2align 4", ".endp", ".proc f#", ".text", ".data\n.text",
                          ".pushsection .data\n.popsection",
                          ".section .rodata\n.previous", ".ident \"x\""):
            self.assertEqual(self.slots(f"{HEAD}nop 1\n{directive}\n.mii\nnop 0\n"), ["nop 0", "nop 0", "nop 1 ;;"],
                             directive)
        for directive in (".global f#", ".type f, @function", ".loc 1 2 3 view .LVU1", ".save ar.pfs, r34", "x:", "[.Lx:]",
                          ".body",
                          ".prologue 12, 33", ".size f#, .-f#", ".restore sp", ".personality __gxx_personality_v0#",
                          ".file \"x\"",
                          ".pred.safe_across_calls p1-p5,p16-p63", ".regstk 1,2,3,0", "x = 5", ".set x, y", ".vframe r2",
                          ".save.f 0x1", ".spill 8", ".label_state 1", ".copy_state 1", ".weak f", ".hidden f",
                          ".comm x,8,8"):
            self.assertEqual(self.slots(f"{HEAD}nop 1\n{directive}\n.mii\nnop 0\n"), ["nop 0", "nop 0", "nop 1"], directive)

    def test_registers(self):
        self.assertEqual(self.slots(".regstk 2,3,2,0\n.mmi\nadd in1=loc0,loc2\nadd out0=sp,gp\nmov b6=ret0")[:3],
                         ["add r33 = r34, r36", "add r37 = sp, gp", "mov b6 = ret0"])
        self.assertEqual(self.slots(".mmi\nalloc loc1=ar.pfs,1,2,1,0\nadd out0=in0,loc0"), [
            "alloc r34 = ar.pfs, 1, 2, 1, 0", "add r35 = r32, r33", "nop 0"])
        self.assertEqual(self.slots(".mii\nalloc r32=0,1,0,0\nmov ar65=r8\nmov r9=ar66"), [
            "alloc r32 = ar.pfs, 0, 1, 0, 0", "mov ar.lc = r8", "mov r9 = ar.ec"])
        self.unread(".regstk 2,3,2,0\n.mii\nadd r8=in2,r9", 3, "the register 'in2' is outside the profile, or isn't there")
        self.unread(".mii\nadd r8=in0,r9", 2, "the register 'in0' is outside the profile, or isn't there")
        self.unread(".mmi\nnop 0\nmov r8=psr", 3, "the register 'psr' is outside the profile, or isn't there")

    def test_numbers(self):
        for given, wanted in (("16", "16"), ("-1", "-1"), ("0x10", "0x10"), ("010", "8"), ("0b101", "5"), ("'a'", "97"),
                              ("'\\n'", "10"),
                              ("2*(3+4)", "14"), ("~0", "-1"), ("4294967295 - 0x100000000", "-1"), ("-(5)", "-5"), ("7/2", "3"),
                              ("-7%3", "-1"), ("1<<3|1", "9"), ("- 5", "-5"), ("0xffffffffffffffff", "-1"), ("@gprel(x#)", "0"),
                              ("@ltoff(@fptr(x#))", "0"), ("x#+8", "0"), ("@ltoffx(.LC0#-8)", "0"), ("c", "-3"), ("c+4", "1")):
            self.assertEqual(self.slots(f"c = -3\n.mii\nadds r8={given},r9")[0], f"adds r8 = {wanted}, r9", given)
        self.assertEqual(self.slots(".mlx\nmovl r8=0xffffffffffffffff", 2)[1], "movl r8 = 0xffffffffffffffff")
        self.assertEqual(self.slots(".mlx\nnop @pause\nnop.x 0x300005", 2), ["nop 0", f"nop.x {1 << 61 | 1 << 20 | 5:#x}"])
        self.assertEqual(self.slots(".mii\nadd r8=@ltoffx(x),gp\nadd r9=5,r0\nadd r10=5,r4"), [
            "addl r8 = 0, gp", "addl r9 = 5, r0", "add r10 = 5, r4"])

    def test_forms(self):
        """The assembler's forms that the program lacks."""
        for given, wanted in (("mov ar.lc=3", "mov.i ar.lc = 3"), ("cmp.eq p6=r8,r9", "cmp.eq p6, p0 = r8, r9"),
                              ("tbit.nz p6=r8,3", "tbit.nz p6, p0 = r8, 3"), ("cmp.leu p6,p7=5,r9",
                                                                              "cmp.ltu p6, p7 = 4, r9"),
                              ("cmp.gtu.unc p6,p7=5,r9", "cmp.ltu.unc p7, p6 = 4, r9"), ("cmp.lt.or p6,p7=r9,r0", "cmp.gt.or p6, p7 = r0, r9"),
                              ("cmp.eq.and.orcm p6,p7=r8,r9", "cmp.ne.or.andcm p7, p6 = r8, r9"),
                              ("cmp4.ne.andcm p6,p7=r8,r9", "cmp4.eq.and p6, p7 = r8, r9"),
                              ("cmp.lt.orcm p6,p7=r0,r9", "cmp.ge.or p6, p7 = r0, r9"), ("cmp.lt.andcm p6,p7=r9,r0", "cmp.le.and p6, p7 = r0, r9"),
                              ("ADD r8=r9,r10", "add r8 = r9, r10"), ("mov.sptk b6=r8,32", "mov.sptk b6 = r8, 2")):
            self.assertEqual(self.slots(f".mii\n;;nop 0\n{given}")[1], wanted)
        self.assertEqual(self.slots(".mmi\nld8.mov r1=[r2],x#\n(p6) ld8.c.clr.nta r2 = [r3], -8"), [
            "ld8 r1 = [r2]", "(p6) ld8.c.clr.nta r2 = [r3], -8", "nop 0"])
        self.assertEqual(self.slots(".mib\nchk.s r8,x\nbr.call.sptk.many rp=f#\nx:.mii\nnop 0"), [
            "chk.s r8, end", "nop 0", "br.call.sptk.many rp = end"])

    def targets(self, text):
        """Where the branches of a source lead: to which bundle of which section, or to what name."""
        return [(relocation.to[0], relocation.to[1] // 16) if relocation.to else relocation.name
                for relocation in code_of(text).relocations() if relocation.is_branch]

    def test_labels(self):
        """Labels of bundles, local ones too, and names that the source lacks."""
        self.assertEqual(self.targets("1: x: .mib;br.few 1f\n1: .mib; br.few 1b;\n.mib;br.few x#\n.mib;br.few f#;.mib;br.few f\n"
                                      "[.Ly:] .mib; br.few .Ly"), [(0, 1), (0, 1), (0, 0), "f", "f", (0, 5)])
        long = "n" * 64
        self.assertEqual(self.targets(f"{long}:.mib;br.few {long}\nr5: .mib; br.few r5#; .mib; br.few d\u00e9j\u00e0\n"
                                      ".section .t,\"ax\"\n.mib;br.few end\nend:"), [(0, 0), (0, 1), "d\u00e9j\u00e0", (1, 1)])
        self.assertEqual(self.targets("x: .mib; br.few same; br.few y\n.set same, x\ny = same"), [(0, 0), (0, 0)])
        self.unread("x: .mii;nop 0\nx:", 2, "'x' stands there twice")
        self.unread(".mib\nbr.few 1f", 2, "'1' names no bundle")
        self.unread(".mii\nnop 0\n[x:] nop 0\n.mib;br.few x", 4, "'x' names no bundle")
        self.unread(".mib\nbr.few .+16", 2, "a target that is no label")
        self.unread("a = b\nb = a\n.mib;br.few a", 3, "'a' is another name for itself")

    def entries(self, text):
        """The starts and the declared entries of functions, each as section and bundle, but for the first bundle."""
        return sorted((function.section.index, function.start // 16 + entry) for function in functions_in(code_of(text))
                      for entry in {0, *function.entries})[1:]

    def test_entries(self):
        """What may be reached from elsewhere."""
        bundle = ".mii;nop 1;nop 0;nop 0\n"
        start, middle = f"{bundle}{bundle}", f"x: {bundle}"
        self.assertEqual(self.entries(start + middle), [])
        for line in (".proc x#", ".type x#, @function", ".global x#", ".globl y, x", ".weak x", ".entry x", ".data\ndata8 x",
                     ".section .rodata\ndata8 x-y", ".data\ndata8 @fptr(x#), 5", '.xdata8 ".data", x', ".xdata8 .rodata,5,x",
                     ".section .t,\"a\"\ndata4 x-y"):
            self.assertEqual(self.entries(f"{line}\n.text\n{start}{middle}"), [(0, 2)], line)
        for line in (".data\ndata8 y-x", ".section .debug_info,\"\",@progbits\ndata8.ua x",
                     ".section .gcc_except_table,\"a\"\ndata8 x",
                     ".proc z\n.handlerdata\n.uleb128 x-y\ndata8 x\n.text", ".type x,@object", ".section .rodata\n.uleb128 x-y",
                     ".section .comment\ndata8 x", '.xdata8 ".ctors", x', ".section .foo\ndata8 x", ".section .ctors\ndata8.ua x",
                     ".data\nx1: data8 x1-x"):
            self.assertEqual(self.entries(f"{line}\n.text\n{start}{middle}"), [], line)
        for line in ("addl r8=@gprel(x),gp", "addl r8=@ltoff(x#), r1", "mov r8=x", "addl r8=@ltoff(@fptr(z)),r1\n.set z, x"):
            self.assertEqual(self.entries(f"{start}{middle}.mmi\n{line}\nnop 0\nnop 0"), [(0, 2)], line)
        self.assertEqual(self.entries(f"{start}{middle}.mlx\nmovl r8=x"), [(0, 2)])
        self.assertEqual(self.entries(f"{start}{middle}.mib\nchk.s r8,x\nbr.few x"), [])
        # Each section of code, and what follows a function, may be reached from elsewhere.
        self.assertEqual(self.entries(f"{start}.section .text.x,\"ax\"\n{bundle}.section .init,\"ax\"\n.align 32\n{bundle}"),
                         [(1, 0), (2, 0)])
        self.assertEqual(self.entries(f".proc f\nf:{start}.endp f\n{bundle}"), [(0, 2)])
        self.assertEqual(self.entries(f".proc f\nf:{start}.endp f\n.proc g\ng:{bundle}.mib;br.few h\n.endp g\nh=y\ny=f"),
                         [(0, 2)])

    def test_relations(self):
        """They say nothing, in whatever form and wherever they stand."""
        bundle = ".mii;nop 0;nop 0;nop 0\n"
        for relation in (".pred.rel.mutex p6, p7", '.pred.rel "mutex", p6, p7', ".pred.rel @mutex, p6-p7", ".pred.rel.clear",
                         '.pred.rel "imply", p6, p7', ".pred.rel.imply p6,p7", ".pred.rel.mutex p6"):
            for text in (f"{relation}\n{bundle}", f".global x\n{bundle}x:\n{relation}\n{bundle}",
                         f".data\n{relation}\n.text\n{bundle}"):
                self.assertEqual(said(text), said(text.replace(relation, "")))

    def test_sections(self):
        """Of each section of code its bundles."""
        text = (".section .text.b,\"ax\",@progbits\n.mii;nop 1\n.text\n.mii;nop 2\n.section .text.b\n.mii;nop 3\n.pushsection .data\n"
                ".string \";;{\"\n.popsection\n.mii;nop 4\n.previous\n.mii;nop 5\n.bss\nx: .skip 8\n.previous\n")
        self.assertEqual([(code.name, [bundle.slots[0].number for bundle in code.bundles]) for code in read(text).codes],
                         [(".text", [2, 5]), (".text.b", [1, 3, 4])])

    def test_many_bundles(self):
        """A function that is longer than a stretch of the text has its bundles, also where no stop is in it."""
        for stop in ("", ";;"):
            code = code_of("f: .proc f\n" + "".join(f".mii;nop {number}\n{stop}\n" for number in range(230)) + ".endp f")
            function, = functions_in(code)
            self.assertEqual([bundle.words[0] >> 6 & 0xFFFFF for bundle in function.bundles], list(range(230)))

    def test_what_is_not_read(self):
        """Each with its line."""
        for text, line, why in (
                ("add r8=r9,r10\n;;\nadd r9=r9,r10\n", 1, "instructions in no bundle, which the assembler packs"),
                ("x:\n.mii;nop 0;nop 0;nop 0\nnop 1;nop 2", 3, "instructions in no bundle, which the assembler packs"),
                (".mii\nlfetch.x [r8]\n", 2, "'lfetch.x' is outside the profile, or unknown"),
                (".mfi\nnop 0\n\nfma.d f8=f9,f10,r11", 4, "'fma.d' is outside the profile, or unknown"),
                (".mmi\n(p6) ldf8 f6=[r32],8,9", 2, "'ldf8' is outside the profile, or unknown"),
                (".mmi\nsetf.sig f1=r32", 2, "'setf.sig' is outside the profile, or unknown"),
                (".mmi\nld8.d2 r8=[r32]", 2, "'ld8.d2' is outside the profile, or unknown"),
                (".mmi\nptc.g r8,r32", 2, "'ptc.g' is outside the profile, or unknown"),
                (".mlx\nnop 0\nbrl.call.sptk.many f#", 3, "'brl.call.sptk.many' is outside the profile, or unknown"),
                (".mmi\nnop 0\nmov r8=psr", 3, "the register 'psr' is outside the profile, or isn't there"),
                (".macro x\n.endm", 1, "the directive '.macro' isn't known here"),
                ("\n.if 1\n.endif", 2, "the directive '.if' isn't known here"),
                (".text 1", 1, "a subsection"), (".text\n.subsection 1", 2, "the directive '.subsection' isn't known here"),
                (".auto", 1, "the directive '.auto' isn't known here"), (".rotr A[4]", 1,
                                                                         "the directive '.rotr' isn't known here"),
                ("\n.text\ndata8 5", 3, "'data8' in a section of code"), (".string \"x\"", 1,
                                                                          "'.string' in a section of code"),
                (".data\n.mii\nnop 0", 2, "a bundle in a section of data"), (".data\nnop 0", 2,
                                                                             "an instruction in a section of data"),
                ("{ .mii\nnop 0\n", 2, "a bundle that isn't closed"), ("{\nnop 0 }", 2,
                                                                       "a bundle without a template, which the assembler chooses"),
                ("{ .mii\nnop 0;nop 0;nop 0;nop 0 }", 2, "a bundle that isn't closed, or has more instructions than fit"),
                ("}", 1, "'}' isn't wanted here"), ("{ { .mii", 1, "'{' isn't wanted here"), ("{ }", 1, "'}' isn't wanted here"),
                (".mii\nbr.few x\n", 2, "'br.few' doesn't fit a bundle .mii"), (".mfi\nnop 0\nhint 0\n", 3,
                                                                                "'hint 0' in unit F"),
                ("\n/* x", 2, "a comment without an end"), (".string \"x\n", 1, "a quotation without an end"),
                (".mii\nadd r8=x[2],r9", 2, "'x[2]' in an operand"), (".mii\nadds r8=.-x,r9", 2, "'.-x' in an operand"),
                (".mii\nadds r8=1+,r9", 2, "a number without an end"), (".mii\nadds r8=1/0,r9", 2, "'/ 0'"),
                (".mii\nadds r8=08,r9", 2, "'08' as a number"), (".mii\nadds r8=5 5,r9", 2, "'5' in a number"),
                (".mii\nadd r8=,r9", 2, "an operand is missing"), (".mii\nadds r8=?,r9", 2, "'?' in an operand"),
                (".mii\nadds r8=x,r9\nx = 5", 3, "'x' gets a value after it was used"), ("x = 5\nx = 6", 2, "'x' gets a value twice"),
                ("x = 2*y\n.mii;adds r8=x,r9", 2, "'x' has a value that isn't known here"),
                (".mii\n(p64) nop 0", 2, "the predicate 'p64'"), ("(r6) nop 0", 1, "'(r6) nop 0' isn't known here"),
                ("*\n", 1, "'*' isn't known here"), (".data\ndata8 5", 2, "no code stands in it"), ("", 1, "no code stands in it"),
                (".mib\nbr.few r8", 2, "'r8' as a target"), (".mib;br.few 0x10", 1, "a target that is no label"),
                (".mii\nnop 0\nmov b6=r8,y", 3, "the tag 'y' is no bundle near here"), (".align 24", 1, "an alignment that isn't known here"),
                (".popsection", 1, "no section to come back to"),
                (".section", 1, "a section without a name, or with flags that aren't known here"),
                (".section .x,\"2\"", 1, "a section without a name, or with flags that aren't known here"),
                (".section .x,#alloc", 1, "a section without a name, or with flags that aren't known here"),
                (".section .x\n.text\n.section .x,\"a\"", 3, "the section '.x' with other flags than before"),
                (".section .x,\"ax\",@nobits", 1, "a section of code without bytes"),
                (".xdata8 .text,5", 1, "'.xdata8' for a section of code"), (".data\ndata8 1$", 2, "'1$' as a number"),
                (".alias f,\"g\"", 1, "the directive '.alias' isn't known here"),
                (".symver f,f", 1, "a version that isn't known here"),
                ("f: .mii;nop 0\n.data\ndata8 f&-16", 3, "'f&-16', which names code"),
                ("f: .mii;nop 0\n.data\ndata8 f+f", 3, "'f+f', which names code"),
                ("f: .mii;nop 0\n.data\ndata8 2*f", 3, "'2*f', which names code"),
                ("f: .mii;nop 0\n.data\nx: data8 f-x+8", 3, "'f-x+8', which names code"),
                ("f: .mlx;nop 0;movl r9=~f", 1, "'~f', which names code"),
                ("f: .mii;nop 0\nx = 2*f\n.data\ndata8 x", 4, "'x', which names code"),
                ("f: .mii;nop 0\nx = .\n.data\ndata8 x", 4, "'x', which names code"),
                (".mii;nop 0\n.data\ndata8 1f", 3, "'1' names nothing"),
                (".mii;nop 0\nf: x = f", 2, "'x' gets the place of a label before the bundle in front of that is ended"),
                (".proc f\nf: .mii;nop 0\n.size f,.-f\n.endp f", 3, "'.-f' as the size of 'f'"),
                (".mii\nalloc r32=ar.pfs,90,9,0,0", 2, "a frame that isn't known here"), (".mii\nnop 0\nmov pr=r8,x", 3, "a number that the linker puts in"),
                (".mmi\ncmp.leu p6,p7=0,r9", 2, "no number is below 0 without a sign")):
            with self.subTest(text):
                self.unread(text, line, why)

    def test_hostile_bytes(self):
        """Any bytes are read, or it is said why not."""
        pool = [b"\n", b";;", b"{", b"}", b".mii", b"x:", b"[x:]", b"(p6)", b"nop 0", b"add r8=r9,r10", b"br.few x", b"\"",
                b"'", b"/*",
                b"*/", b"//", b"#", b"=", b",", b" ", b"\t", b"\0", b"\xff", b"\r", b"\\", b"(", b")", b"[", b"]", b"-",
                b"<<", b"5", b".data",
                b".text", b".section x", b"data8 x", b".pred.rel.mutex p6,p7", b"alloc r8=ar.pfs,1,2,3,0", b".align 64",
                b".proc x", b".endp",
                b"1:", b"br.few 1b", b".set x,y", b"y=x", b"mov b6=r8,x", b"movl r8=x", b".regstk 1,2,3,0", b"in0",
                b"@fptr(x)", b".",
                b"\xb2", b"clrrrb", b"break.f 0", b".previous", b".pushsection .data", b".popsection", b"cmp.leu p6=0,r8",
                b"nop.x 0x3fffff"]
        chance, taken = random.Random(5), 0
        for _ in range(1500):
            data = b"".join(chance.choice(pool) + chance.choice((b"", b"\n", b" ")) for _ in range(chance.randrange(1, 20)))
            taken += self.is_read(data)
        for _ in range(500):
            self.is_read(bytes(chance.randrange(256) for _ in range(60)))
        whole = BY_HAND.encode()
        for at in range(0, len(whole), 5):
            self.is_read(whole[:at] + bytes([chance.randrange(256)]) * (at % 2) + whole[at + 1:][:len(whole) * (at % 2)])
        self.assertGreater(taken, 20)

    def is_read(self, data):
        try:
            got = sources.read(data)
        except sources.Unread as unread:
            self.assertTrue(0 < unread.line <= data.count(b"\n") + 1 and unread.why, data)
            return False
        self.assertEqual(len(got.lines), got.text.count(b"\n"))
        self.assertEqual(asked("build", got.text)[0] in (0, 3), True, data)
        return True

    def test_long_ones(self):
        """The work grows with the source alone."""
        count = 10000
        for text in ("/*" * count, "\"\\" * count, "'" * count, ";" * count, "x" * count, "(" * count,
                     ".mii;adds r8=" + "(" * count,
                     ".mii;adds r8=" + "-" * count + "(" * count + "1" + ")" * count + ",r9",
                     ".mii;adds r8=" + "1+" * count + "1,r9",
                     "1" * count + ":", ".mii;adds r8=" + "9" * count,
                     "\n".join(f"x{n} = x{n + 1}" for n in range(count)) + "\n.mib;br.few x0",
                     ".mib\n" + "\n".join(f"br.few x{n}\n.mib" for n in range(count // 10)), "{" * count, "[x:" * count,
                     "a:" * count,
                     " " * count + "/", "x" + " " * count + "/", ".global x" + " " * count + "5", "[x" + " " * count,
                     ".data;data1 " + "'\\\"'," * count,
                     ".pred.rel.mutex " + "p6," * count, ".mii;nop 0\n.align 65536\n" * 1000,
                     "".join(f".section .t{n},\"ax\"\n.mii;nop 0\n.align 65536\n.mii;nop 1\n" for n in range(200)),
                     ".global " + "x," * count, "data8 " + "x-" * count, "mov " + "=" * count):
            self.is_read(text.encode())


class Lines(unittest.TestCase):
    """Where the lines of a text come from."""

    def test_every_line(self):
        """Each line of an instruction has what its line of the source has."""
        for name, text in dict(GCC, by_hand=BY_HAND).items():
            got, source = read(text), text.split("\n")
            for row, line in zip(got.text.decode().splitlines(), got.lines):
                if line and row.startswith("  "):
                    word = row.split(") ")[-1].split()[0].split(".")[0]
                    self.assertIn({"addl": "add"}.get(word, word), source[line - 1].lower(), name)

    def test_the_map(self):
        text = ("\n.text\n.global f\n\n{ .mii\n\nnop 1\n // x\n;;\nadd r8=r9,r10\n}\nf: .pred.rel.mutex p6,p7\r\n"
                ".mib\n/* \n */ br.few f; ;; movl r8=5\n.align 32\n;;.mib;br.few g")
        self.assertEqual(list(zip(said(text), read(text).lines)), [
            ("{ .mii", 5), ("  nop 1", 7), ("  nop 0 ;;", 0), ("  add r8 = r9, r10", 10), ("}", 0),
            ("{ .mib", 13), ("  nop 0", 0), ("  nop 0", 0), ("  br.few end ;;", 15), ("}", 0),
            ("{ .mlx", 15), ("  nop 0", 0), ("  movl r8 = 5 ;;", 15), ("}", 0),
            ("{ .mmi", 0), ("  nop 0", 0), ("  nop 0", 0), ("  nop 0", 0), ("}", 0),
            ("{ .mib", 17), ("  nop 0", 0), ("  nop 0", 0), ("  br.few end ;;", 17), ("}", 0),
            ("end:", 0), ("{ .mii", 0), ("  break.m 0x0", 0), ("  nop.i 0x0", 0), ("  nop.i 0x0 ;;", 0), ("}", 0)])
        code = code_of(text)
        self.assertEqual([code.line((0, 16 * bundle, slot)) for bundle in range(5) for slot in range(3)],
                         [7, 7, 10, 15, 15, 15, 15, 15, 15, None, None, None, 17, 17, 17])
        self.assertIsNone(code.line((0, 80, 0)))


def with_less_stops(text, seed):
    """A source without some of its stops."""
    chance = random.Random(seed)
    return "".join(part if part != ";;" or chance.random() > 0.3 else "" for part in re.split("(;;)", text))


class Verdicts(Case):
    """What `check` says of sources where the GNU assembler isn't installed."""

    def check(self, text, *words):
        Path("x.s").write_text(text)
        with unittest.mock.patch("front.gnu.installed", lambda tool: None):
            return self.lines("check", "x.s", *words)

    def test_each_function(self):
        """A function each, by its name, with the lines of the source."""
        source = (ROOT / "examples" / "functions.s").read_text()
        self.assertEqual(self.check(source), (1, [
            "x.s:23: error: x.s(.text+0x20) swap: RAW r9: written by 'adds r9=0,r8' (+0x10 slot 1) and read by 'st8 [r33]=r9' "
            "(+0x20 slot 0)", "2 accepted, 1 violated, 0 not judged (1 of these functions with stand-ins)"], ""))
        self.assertEqual(self.check(source, "-v")[1][-2:], [
            "x.s:56: note: x.s(.text+0x70) sum: stood in for: 'lfetch.nta [r33]' (+0x70 slot 0)",
            "2 accepted, 1 violated, 0 not judged (1 of these functions with stand-ins)"])
        self.assertEqual(self.check(source, "--exact")[1][-3:], [
            "not judged, by the first reason:", "      1 lfetch.nta: no stand-in is wanted",
            "1 accepted, 1 violated, 1 not judged"])

    def test_system_calls(self):
        source = ".proc f\nf: .mii; break.m 0x100000\n.mmi;add r8=r9,r10;add r9=r8,r8\n.mib;br.ret.sptk.many b0;;\n.endp f"
        self.assertEqual([self.check(source, *words)[0] for words in ((), ("--syscalls",))], [0, 1])

    def test_floating_point(self):
        """Its registers are mapped to general ones, as in object files, and `--exact` doesn't judge it."""
        self.assertEqual(self.check(FLOATING)[1], ["2 accepted, 0 violated, 0 not judged (2 of these functions with stand-ins)"])
        wrong = self.check(FLOATING.replace("ldfd f7 = [r32]\n\tnop 0\n\tnop 0\n\t;;", "ldfd f7 = [r32]"))
        self.assertEqual((wrong[0], wrong[1][0]), (1, (
            "x.s:36: error: x.s(.text+0x50) scale: RAW f7: written by 'ldfd f7=[r32]' (+0x40 slot 0) and read by "
            "'fma.d.s0 f7=f7,f6,f0' (+0x50 slot 1)")))

    def test_what_the_program_refuses(self):
        """The line of the source, and the reason."""
        self.assertEqual(self.check(".prologue\n.mii\nadds r8=9000,r9\n")[:2], (2, [
            "x.s:3: error: not read without the GNU assembler: refused, range: a number outside its field",
            "0 accepted, 0 violated, 0 not judged"]))

    def test_the_reason(self):
        """What stops the reading is told, and the refusal of the text alone where the line is none of that assembler."""
        bundle = "{ .mii\n nop.m 0\n nop.i 0\n nop.i 0 ;;\n}\n"
        for text, said in (
                (f"{bundle}x: .skip 16\n", "6: error: not read without the GNU assembler: '.skip' in a section of code"),
                (f"{bundle}x:\n.if 1\n", "7: error: not read without the GNU assembler: the directive '.if' isn't known here"),
                ("x: .mii; nop 0\n.rotr A[4]",
                 "2: error: not read without the GNU assembler: the directive '.rotr' isn't known here"),
                ("{ .mii\n nop.m 0\n mov r8=psr\n nop.i 0\n}\n",
                 "3: error: not read without the GNU assembler: the register 'psr' is outside the profile, or isn't there"),
                ("hello world\n", "1: error: refused, name: the leading word begins no line: 'hello world'"),
                ("{ .mii\n nop.m 0\n frob r1\n", "3: error: refused, name: the leading word begins no line: 'frob r1'"),
                ("{ .mii\n nop.m 0\n adds r8=9000,r9\n nop.i 0\n}\n", "3: error: refused, range: a number outside its field: 'adds r8=9000,r9'; in place of 9000 may stand -8192 to 8191")):
            self.assertEqual(self.check(text)[:2], (2, [f"x.s:{said}", "0 accepted, 0 violated, 0 not judged"]))

    def test_names_in_expressions(self):
        """An entry behind a predicate's compare: what stands behind it shares no knowledge of predicates."""
        code = (".text\n.proc f#\nf:\n.mib;cmp.eq p6,p7=r9,r10;nop 0;(p6) br.cond.sptk 1f;;\n"
                "1: .mii;(p6) add r8=r9,r10;(p7) add r8=r9,r11;nop 0;;\n.mib;nop 0;nop 0;br.ret.sptk b0;;\n.endp f#\n")
        self.assertEqual(self.check(code)[0], 0)
        for data in (".section .rodata\ndata8 1b", ".data\ndata8 f+16", "y = f + 16\n.data\ndata8 y"):
            self.assertEqual(self.check(f"{code}{data}\n")[0], 1, data)
        self.assertEqual(self.check(f"{code}.section .ctors\ndata8.ua 1b\n")[0], 0)

    def test_a_program_without_answers(self):
        """It is told as such, and not as a fault of the source."""
        broken = Path("broken")
        broken.write_text("#!/bin/sh\ncat > /dev/null\n[ $1 = build ] && exit 7\necho 'line 1: name'\nexit 3\n")
        broken.chmod(0o755)
        self.program = str(broken.resolve())
        status, _, said = self.check(".mii\nnop 0\n")
        self.assertEqual((status, said), (2, f"ia64: x.s: `{self.program} build` ended with status 7\n"))

    def test_a_run_that_is_too_long(self):
        """Such a function alone isn't judged."""
        source = ".proc f\nf:" + ".mii;nop 1\n" * 65 + ".endp f\n.proc g\ng: .mib;br.ret.sptk.many b0;;\n.endp g"
        self.assertEqual(self.check(source)[1][-1], "1 accepted, 0 violated, 1 not judged")

    @needs_gnu
    def test_as_with_the_assembler(self):
        """The same verdicts and lines."""
        for name, text in dict(GCC, by_hand=BY_HAND, floating=FLOATING.replace(", f0\n", ", f5\n")).items():
            if name in ("leaf", "table"):            # of which GNU's lines are others, or an object file tells less
                continue
            for seed in range(3):
                changed = with_less_stops(text, seed).replace("\t.endp\n", "\t.endp copy, inner\n")
                (status, lines, _), (wanted, others, _) = self.check(changed, "-v"), self.lines("check", "x.s", "-v")
                self.assertEqual((status, lines[1:]), (wanted, others[1:]), f"{name} {seed}")
                self.assertEqual([lines[0], others[0]], ["x.s: note: judged as it is read without the GNU assembler",
                                                         "x.s: note: judged as the GNU assembler makes it"])


if __name__ == "__main__":
    unittest.main()
