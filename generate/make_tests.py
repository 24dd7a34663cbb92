#!/usr/bin/env python3
"""Makes the texts of tests/run/ that are made of parts: loop branches, frames, rotation, spills, faults and the ALAT.

  generate/make_tests.py

gate/try_program.sh runs these texts. The first line of a text says for how many groups it is run and with which status that ends.
NAME.state has what is printed. This doesn't make it.
"""
import os

folder = os.path.join(os.path.dirname(os.path.abspath(__file__)), "..", "tests/run")


def bundle(shape, *slots):
    """A bundle with a stop at its end; slots that are left out are `nop`."""
    slots = list(slots) + [f"nop.{unit} 0" for unit in shape[1 + len(slots):]]
    return "{ .%s\n%s ;;\n}\n" % (shape[1:], "\n".join("  " + slot for slot in slots))


def mii(*slots): return bundle("xmii", *slots)
def mmi(*slots): return bundle("xmmi", *slots)
def mib(*slots): return bundle("xmib", *slots)
def mlx(first, long): return "{ .mlx\n  %s\n  %s ;;\n}\n" % (first, long)
def branch(slot): return mib("nop.m 0", "nop.i 0", slot)


BREAK = branch("break.b 0")
DATA = mlx("nop.m 0", "movl r14=0x100000")


def write(name, groups, status, says, *parts):
    with open(os.path.join(folder, name + ".s"), "w") as out:
        out.write(f"// run {groups}, status {status}: {says}\n" + "".join(parts))


def loop_branches():
    yield mlx("alloc r32=ar.pfs,0,16,0,8", "movl r14=results")
    n = 0
    for kind in ["cloop", "ctop", "cexit", "wtop", "wexit"]:
        for p17 in [0, 1] if kind.startswith("w") else [0]:
            for lc, ec in [(2, 3), (0, 3), (0, 1), (0, 0)]:
                guard = "(p17) " if kind.startswith("w") else ""
                yield f"// br.{kind} with LC {lc}, EC {ec}" + (f", p17 {p17}\n" if guard else "\n")
                yield mib("adds r16=2,r0", f"mov pr.rot={p17 << 17}", "clrrrb")
                yield mii("nop.m 0", f"mov.i ar.lc={lc}", f"mov.i ar.ec={ec}")
                yield mib(f"adds r32={n + 1},r0", "nop.i 0", f"{guard}br.{kind}.sptk.few taken{n}")
                yield branch(f"br.cond.sptk.few stored{n}")
                yield f"taken{n}:\n" + mii("adds r16=1,r0")
                yield f"stored{n}:\n" + mii("nop.m 0", "mov.i r17=ar.lc", "mov.i r18=ar.ec")
                yield mii("shladd r17=r18,4,r17", "mov r19=pr")
                yield mii("st8 [r14]=r19,8", "dep r16=r17,r16,8,16")
                yield mmi("st8 [r14]=r16,8") + mmi("st8 [r14]=r33,8")
                n += 1
    yield BREAK + f".data\nresults:\n.skip {24 * n}\n"


def calls(depth):
    yield mii(f"adds r9={depth},r0") + branch("br.call.sptk.few b0=down") + BREAK
    yield "down:\n" + mii("alloc r32=ar.pfs,0,96,0,0", "mov r33=b0", "adds r9=-1,r9")
    yield mii("adds r127=0,r9", "cmp.eq p6,p7=r0,r9") + branch("(p7) br.call.sptk.few b0=down")
    yield mii("add r10=r10,r127", "mov.i ar.pfs=r32", "mov b0=r33") + branch("br.ret.sptk.few b0")


def rotation():
    yield mlx("nop.m 0", "movl r14=results")
    for eights in range(13):
        yield f"// {8 * eights} rotating registers\n" + branch("clrrrb") + mii(f"alloc r20=ar.pfs,0,96,0,{8 * eights}")
        yield mii(f"adds r32={eights + 1},r0", f"adds r127={100 + eights},r0", "mov.i ar.lc=2")
        yield mib(f"adds r39={50 + eights},r0", "nop.i 0", f"br.ctop.sptk.few once{eights}")
        yield f"once{eights}:\n" + branch(f"br.ctop.sptk.few twice{eights}") + f"twice{eights}:\n"
        for register in [32, 33, 34, 39, 40, 41, 127]:
            yield mmi(f"st8 [r14]=r{register},8")
    yield BREAK + f".data\nresults:\n.skip {13 * 7 * 8}\n"


def spills():
    yield mlx("ld8.s r8=[r0]", "movl r14=saved") + mlx("adds r9=7,r0", "movl r15=saved") + mii("nop.m 0", "mov.i ar.lc=69")
    yield "// a NaT and a number by turns, to 70 words, so that six bits of UNAT are written twice\n"
    yield "save:\n" + mmi("st8.spill [r14]=r8,8") + mii("adds r9=1,r9", "tnat.nz p6,p7=r8")
    yield mmi("(p6) adds r8=0,r9", "(p7) ld8.s r8=[r0]") + branch("br.cloop.sptk.few save")
    yield mii("mov.m r20=ar.unat", "mov.i ar.lc=69")
    yield "load:\n" + mmi("ld8.fill r10=[r15],8") + mii("nop.m 0", "tnat.nz p8,p9=r10")
    yield mii("(p8) adds r11=1,r11", "(p9) add r12=r12,r10") + branch("br.cloop.sptk.few load")
    yield "// the collection turned: what was a NaT comes back as a number, and a number as a NaT\n"
    yield mii("andcm r21=-1,r20", "adds r15=-560,r15") + mmi("mov.m ar.unat=r21") + mmi("ld8.fill r22=[r15],8")
    yield mmi("ld8.fill r23=[r15]") + mii("adds r15=496,r15")
    yield "".join(mmi(f"ld8.fill r{register}=[r15],8") for register in [24, 25, 26])
    yield BREAK + ".data\n.skip 24\nsaved:\n.skip 560\n"


def accesses():
    end = 16 + 64
    yield DATA + mlx("nop.m 0", "movl r15=results")
    for size in [1, 2, 4, 8]:
        for offset in [-size, -1, 0, 1, size, end - size, end - size + 1, end - 1, end]:
            yield f"// ld{size}.s at 0x100000{offset:+}\n" + mii(f"adds r16={offset},r14", "adds r18=0xee,r0")
            yield mmi(f"ld{size}.s r17=[r16]") + mii("nop.m 0", "tnat.nz p6,p7=r17")
            yield mmi("(p7) adds r18=0,r17") + mmi("st1 [r15]=r18,1")
    yield BREAK + ".data\ndata8 0x0807060504030201,0x100f0e0d0c0b0a09\nresults:\n.skip 64\n"


def alat(count):
    yield mlx("alloc r32=ar.pfs,0,40,0,0", "movl r14=words")
    yield "".join(mmi(f"ld4.a r{34 + k}=[r14],4") for k in range(count))
    checks = {"first": 0, "second": 1, "last": count - 1}
    for name, k in checks.items():
        yield mii(f"chk.a.nc r{34 + k},gone_{name}", "adds r8=1,r8") + f"back_{name}:\n"
    yield BREAK
    for name in checks:
        yield f"gone_{name}:\n" + mib("adds r9=1,r9", "nop.i 0", f"br.cond.sptk.few back_{name}")
    yield ".data\nwords:\n.skip 136\n"


def alat_rules():
    yield mlx("alloc r32=ar.pfs,0,16,0,8", "movl r14=words") + mii("adds r15=3,r14", "adds r16=8,r14")
    yield "// a store of one byte inside the eight takes the entry away; one beside them leaves it\n"
    yield mmi("ld8.a r8=[r14]", "ld8.a r9=[r16]") + mmi("st1 [r15]=r16") + mmi("ld8.c.nc r8=[r14]", "ld8.c.clr r9=[r16]")
    yield "// the entry belongs to the place of a register: after a rotation it is found under the next name\n"
    yield mii("ld8.a r33=[r14]", "mov.i ar.lc=1") + branch("br.ctop.sptk.few rotated")
    yield "rotated:\n" + mii("chk.a.nc r33,missed", "adds r10=1,r10") + "missed:\n" + mii("chk.a.clr r34,end", "adds r11=1,r11")
    yield "end:\n" + mmi("invala.e r8") + mmi("ld4.sa r12=[r15]", "ld8.a r13=[r14]") + BREAK
    yield ".data\nwords:\ndata8 0x1122334455667788,0x99\n"


def return_by(state):
    return mlx("nop.m 0", f"movl r9={state}") + mii("nop.m 0", "mov.i ar.pfs=r9") + branch("br.ret.sptk.few b0") + BREAK


def on_data(*bundles):
    return DATA + "".join(bundles) + BREAK + ".data\ndata8 1,2\n"


write("loop_branches", 10000, 0, """each loop branch at each state of LC, EC and its predicate. Of each, three words:
// the predicates by place; 1 where it was taken or 2 where not, with LC in bits 11:8 and EC from bit 12 on; and r33, which
// is r32 of before where the registers rotated.""", *loop_branches())
write("calls_to_the_limit", 10000, 0, """calls down to the limit of the register stack, 682 frames of 96 registers, and
// back. r10 is the sum of what each frame kept in r127.""", *calls(682))
write("calls_past_the_limit", 10000, 9, "one call more than the register stack has room for.", *calls(683))
write("rotation", 10000, 0, """two rotations of a frame with 0, 8 .. 96 rotating registers. Of each, r32, r33, r34, r39,
// r40, r41 and r127 after what was written to r32, r39 and r127 before.""", *rotation())
write("call_of_a_rotated_frame", 9, 0, """a call from a rotated frame: the callee has no rename bases, and the return takes
// them and EC back.""", mii("alloc r32=ar.pfs,0,8,2,8", "mov pr.rot=0x10000"), mii("nop.m 0", "mov.i ar.ec=5"),
      mib("adds r33=7,r0", "nop.i 0", "br.wtop.sptk.few on"), "on:\n", branch("br.call.sptk.few b3=callee"), BREAK,
      "callee:\n", mii("alloc r34=ar.pfs,0,16,0,0", "adds r32=9,r32"), mii("nop.m 0", "mov.i r8=ar.ec"),
      mii("nop.m 0", "mov.i ar.ec=0"), branch("br.ret.sptk.few b3"))
write("spills_and_fills", 10000, 0, """NaT bits spilled and filled over all 64 bits of UNAT and past them. r11 counts the NaTs
// that came back, r12 is the sum of the numbers; r22 to r26 are filled from a collection that was turned.""", *spills())
write("accesses_at_the_edges", 10000, 0, """speculative loads of each size at the first and the last byte of the data and
// beside them. Of each, one byte: what was loaded, or 0xee where the load was deferred.""", *accesses())
write("alat_of_32", 99, 0, "32 advanced loads, all of whose entries stay. r8 counts the checks that hit, r9 the others.", *alat(32))
write("alat_of_33", 99, 0, "33 advanced loads; the oldest entry leaves. r8 counts the checks that hit, r9 the others.", *alat(33))
write("alat_rules", 99, 0, """stores, rotation and checks on the entries of the ALAT. r10 counts a check under the old name,
// which misses, and r11 one under the new name, which hits.""", *alat_rules())
write("deferred_with_update", 9, 0, "deferred loads update their base, and a NaT that is added makes it a NaT.",
      on_data(mmi("ld8.s r8=[r0]"), mii("adds r15=1,r14", "adds r16=0,r14"), mmi("ld4.s r9=[r15],12"), mmi("ld8 r10=[r16],r8")))
write("load_past_the_data", 9, 9, "a load of the byte after the data.", on_data(mii("adds r15=16,r14"), mmi("ld1 r8=[r15]")))
write("store_before_the_data", 9, 9, "a store whose first byte is before the data. Nothing is stored.",
      on_data(mii("adds r15=-8,r14"), mmi("st8 [r15]=r14")))
write("unaligned_before_bad", 9, 9, "an address past the data that is no multiple of the size: the latter counts.",
      on_data(mii("adds r15=17,r14"), mmi("ld2 r8=[r15]")))
write("unaligned_store", 9, 9, "a store to an address that is no multiple of its size.",
      on_data(mii("adds r15=4,r14"), mmi("st8 [r15]=r14")))
write("nat_stored", 9, 9, "a NaT is stored by a store that is no spill.", on_data(mmi("ld8.s r8=[r0]"), mmi("st8 [r14]=r8")))
write("nat_as_an_address", 9, 9, "a NaT as the address of a check load, whose target has an entry.",
      on_data(mmi("ld8.a r9=[r14]", "ld8.s r8=[r0]"), mmi("ld8.c.clr r9=[r8]")))
write("return_to_no_frame", 9, 9, """a return by a previous function state with a frame of 97 registers. b0 is no entry
// either, which is looked for later.""", return_by("0x61"))
write("return_below_the_stack", 9, 9, "a return whose locals reach below the first register.", return_by("0x81"))
write("return_to_no_entry", 9, 9, "a return with a frame, to an address that is no entry.", return_by("0x0"))
write("alloc_while_rotated", 9, 9, "`alloc` changes the rotating part while the registers are rotated.",
      mii("alloc r32=ar.pfs,0,16,0,8", "mov.i ar.lc=1"), branch("br.ctop.sptk.few on"), "on:\n",
      mii("alloc r33=ar.pfs,0,96,0,16"), BREAK)
write("alloc_outside", 9, 9, "the target of `alloc` is outside the new frame.", mii("alloc r40=ar.pfs,0,8,0,0"), BREAK)
write("outside_the_frame", 9, 9, "r32 without a frame.", mii("adds r32=1,r0"), BREAK)
write("hit_with_update", 9, 0, """check loads that hit update their base: one by an immediate, which keeps its entry, and one by a
// NaT, which makes the base a NaT and forgets its own.""",
      on_data(mmi("ld8.a r9=[r14]", "ld8.s r8=[r0]"), mii("adds r15=0,r14", "adds r16=8,r14"), mmi("ld8.a r10=[r16]"),
              mmi("ld8.c.nc r9=[r15],8"), mmi("ld8.c.clr r10=[r16],r8")))
