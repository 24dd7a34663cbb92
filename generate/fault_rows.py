"""The table of what decodes to nothing: codes that no instruction has, operands out of range, and instructions that the
profile leaves out. It is imported, and not called.

The listed codes are those of the manual's tables (volume 3, chapter 4) for the instructions of the profile. Every other code has
to be refused. What the assembler knows and the profile leaves out is given as the assembler's text.
"""

import itertools

LOADS = {*range(0x00, 0x18), 0x1B, *range(0x20, 0x2C)}
STORES = {*range(0x30, 0x38), 0x3B}
SEMAPHORES = {*range(0x08, 0x0C), 0x12, 0x13, 0x16, 0x17}
ALU = {4 * x4 + x2b for x4, x2b in (
    (0x0, 0), (0x0, 1), (0x1, 0), (0x1, 1), (0x2, 0), (0x9, 1),
    *((x4, x2b) for x4 in (0x3, 0x4, 0x6, 0xB) for x2b in range(4)))}
LANES = {4 * x4 + x2b for x4, x2b in ((0x0, 0), (0x1, 0), (0x9, 0), (0x9, 1))}
I_SYSTEM = {0x00, 0x01, 0x0A, 0x10, 0x11, 0x12, 0x14, 0x15, 0x16, 0x2A, 0x30, 0x31, 0x32, 0x33}
I_AR, M_AR = {64, 65, 66}, {36}

# The major opcodes of each unit that some listed instruction has.
MAJOR = {
    "m": {0x0, 0x1, 0x4, 0x5, 0x8, 0x9, 0xC, 0xD, 0xE},
    "i": {0x0, 0x4, 0x5, 0x7, 0x8, 0x9, 0xC, 0xD, 0xE},
    "f": {0x0},
    "b": {0x0, 0x1, 0x2, 0x4, 0x5},
    "x": {0x0, 0x6},
}

# The units, the fields that stay by their lowest bits, the lowest bit and the width of the field
# that runs through its values, and its values that are listed.
SWEEPS = [
    *((unit, {}, (37, 4), listed) for unit, listed in MAJOR.items()),
    # M: x2 above x4, x3, and x6
    ("m", {37: 0, 33: 0}, (27, 6), {0x00, 0x01, 0x10, 0x12, 0x22, 0x28}),
    ("m", {37: 0}, (33, 3), {0, 4, 5}),
    ("m", {37: 1, 33: 0}, (27, 6), {0x22, 0x2A}),
    ("m", {37: 1}, (33, 3), {0, 1, 6}),
    # M: x6 of loads and stores, without and with an update, and of semaphores, which bit 27 sets apart
    ("m", {37: 4, 36: 0, 27: 0}, (30, 6), LOADS | STORES),
    ("m", {37: 4, 36: 1, 27: 0}, (30, 6), LOADS),
    ("m", {37: 4, 36: 0, 27: 1}, (30, 6), SEMAPHORES),
    ("m", {37: 4, 36: 1, 27: 1}, (30, 6), set()),
    ("m", {37: 5}, (30, 6), LOADS | STORES),
    # A: x4 above x2b, without and with x2a, by za and zb
    ("mi", {37: 8, 34: 0, 33: 0}, (27, 6), ALU),
    *(("mi", {37: 8, 36: za, 34: 1, 33: zb}, (27, 6), LANES) for za, zb in ((0, 0), (0, 1), (1, 0))),
    ("mi", {37: 8, 36: 1, 34: 1, 33: 1}, (27, 6), set()),
    # I: x6, x3, x2 above x, and x2c above x2b
    ("i", {37: 0, 33: 0}, (27, 6), I_SYSTEM),
    ("i", {37: 0}, (33, 3), {0, 1, 2, 3, 7}),
    ("i", {37: 5}, (33, 3), {0, 2, 3, 6, 7}),
    ("i", {37: 7, 36: 1, 33: 1, 34: 0}, (28, 4), {0x0, 0x2, 0x4}),
    ("i", {37: 7, 36: 0, 33: 1, 34: 1}, (28, 4), {0x9}),
    *(("i", {37: 7, 36: za, 33: zb, 34: x2a}, (28, 4), set())
      for za, zb, x2a in ((0, 0, 0), (0, 1, 0), (1, 0, 2), (1, 1, 1))),
    # B: x6, btype, wh with its lowest bit, and x6 of nop and hint
    ("b", {37: 0}, (27, 6), {0x00, 0x04, 0x05, 0x20, 0x21}),
    ("b", {37: 0, 27: 0x20}, (6, 3), {0}),
    ("b", {37: 0, 27: 0x21}, (6, 3), {4}),
    ("b", {37: 1}, (32, 3), {1, 3, 5, 7}),
    ("b", {37: 2}, (27, 6), {0x00, 0x01}),
    ("b", {37: 4}, (6, 3), {0, 2, 3, 5, 6, 7}),
    # F and X: x6, and x3
    ("f", {37: 0}, (27, 6), {0x00, 0x01}),
    ("x", {37: 0}, (27, 6), {0x00, 0x01}),
    ("x", {37: 0}, (33, 3), {0}),
    # Application registers: from a general register, of an immediate, to a general register
    ("m", {37: 1, 27: 0x2A}, (20, 7), M_AR),
    ("m", {37: 0, 27: 0x28}, (20, 7), M_AR),
    ("m", {37: 1, 27: 0x22}, (20, 7), M_AR),
    ("i", {37: 0, 27: 0x2A}, (20, 7), I_AR),
    ("i", {37: 0, 27: 0x0A}, (20, 7), I_AR),
    ("i", {37: 0, 27: 0x32}, (20, 7), I_AR),
]


def field(low, width, value):
    """The change of a word that puts this value into a field."""
    return lambda word: word & ~(((1 << width) - 1) << low) | value << low


def base_of_its_target(word):
    """A load's word, with the base as the target too."""
    return field(6, 7, word >> 20 & 0x7F)(word)


def out_of_range(row):
    """The changes that put an operand of the row out of its range: the hint of a load, a store, a
    semaphore or a move to a branch register, the base of an update, and the parts of a frame."""
    has_update = row.text.template.endswith(("],$r2", ",$imm"))
    if row.name == "Load":
        return [field(28, 2, 2)] + has_update * [field(20, 7, 0), base_of_its_target]
    if row.name in ("Xchg", "FetchAdd"):
        return [field(28, 2, 2)]
    if row.name == "Store":
        return [field(28, 2, 1), field(28, 2, 2)] + has_update * [field(20, 7, 0)]
    if row.name == "MovToBr":
        return [field(20, 2, 3)]
    if row.name == "Alloc":
        return [field(13, 18, sor << 14 | sol << 7 | sof) for sof, sol, sor in FRAMES]
    return []


# Frames that are none, as sof, sol and sor.
FRAMES = (
    (97, 0, 0), (127, 127, 15), (97, 97, 12), (0, 1, 0), (95, 96, 0), (0, 0, 1), (7, 7, 1),
    (95, 95, 12), (96, 96, 13), (96, 0, 15))

# Instructions that the assembler knows and the profile leaves out, by the unit of their slot.
LEFT_OUT = {
    "mi": """
        padd1.sss r8=r9,r10
        padd1.uus r8=r9,r10
        padd1.uuu r8=r9,r10
        padd2.sss r8=r9,r10
        psub2.uuu r8=r9,r10
        pavg1 r8=r9,r10
        pavg1.raz r8=r9,r10
        pavg2 r8=r9,r10
        pavgsub1 r8=r9,r10
        pavgsub2 r8=r9,r10
        pshladd2 r8=r9,1,r10
        pshradd2 r8=r9,3,r10
    """,
    "i": """
        pmpyshr2 r8=r9,r10,16
        pmpyshr2.u r8=r9,r10,0
        pmpy2.r r8=r9,r10
        pmpy2.l r8=r9,r10
        mix1.r r8=r9,r10
        mix1.l r8=r9,r10
        mix2.r r8=r9,r10
        mix2.l r8=r9,r10
        mix4.r r8=r9,r10
        mix4.l r8=r9,r10
        pack2.uss r8=r9,r10
        pack2.sss r8=r9,r10
        pack4.sss r8=r9,r10
        unpack1.h r8=r9,r10
        unpack1.l r8=r9,r10
        unpack2.h r8=r9,r10
        unpack4.l r8=r9,r10
        pmin1.u r8=r9,r10
        pmax1.u r8=r9,r10
        pmin2 r8=r9,r10
        pmax2 r8=r9,r10
        psad1 r8=r9,r10
        mux1 r8=r9,@rev
        mux1 r8=r9,@mix
        mux1 r8=r9,@shuf
        mux1 r8=r9,@alt
        mux1 r8=r9,@brcst
        mux2 r8=r9,0x1b
        pshr2 r8=r9,r10
        pshr2.u r8=r9,r10
        pshr4 r8=r9,r10
        pshr2 r8=r9,3
        pshr2.u r8=r9,15
        pshr4 r8=r9,31
        pshl2 r8=r9,r10
        pshl4 r8=r9,r10
        pshl2 r8=r9,1
        pshl4 r8=r9,31
        czx1.l r8=r9
        czx1.r r8=r9
        czx2.l r8=r9
        czx2.r r8=r9
        clz r8=r9
        mpy4 r8=r9,r10
        mpyshl4 r8=r9,r10
        tbit.z.and p6,p7=r8,3
        tbit.nz.and p6,p7=r8,3
        tbit.z.or p6,p7=r8,3
        tbit.nz.or p6,p7=r8,3
        tbit.z.or.andcm p6,p7=r8,3
        tbit.nz.or.andcm p6,p7=r8,3
        tnat.z.and p6,p7=r8
        tnat.nz.and p6,p7=r8
        tnat.z.or p6,p7=r8
        tnat.nz.or p6,p7=r8
        tnat.z.or.andcm p6,p7=r8
        tnat.nz.or.andcm p6,p7=r8
        tf.z p6,p7=32
        tf.z.unc p6,p7=63
        tf.nz.and p6,p7=40
        tf.z.or.andcm p6,p7=40
        mov.i ar48=r8
        mov.i r8=ar111
        mov.i ar112=5
        mov.i r8=ar127
    """,
    "m": """
        ld8.nt2 r8=[r9]
        ld8.d4 r8=[r9]
        ld1.acq.d7 r8=[r9]
        ld8.fill.d2 r8=[r9]
        st8.d1 [r8]=r9
        st2.rel.d2 [r8]=r9
        st8.spill.d1 [r8]=r9
        ld16 r8,ar.csd=[r9]
        ld16.nta r8,ar.csd=[r9]
        ld16.acq r8,ar.csd=[r9]
        st16 [r8]=r9,ar.csd
        st16.rel.nta [r8]=r9,ar.csd
        cmpxchg1.acq r8=[r9],r10,ar.ccv
        cmpxchg2.rel r8=[r9],r10,ar.ccv
        cmpxchg4.acq.nta r8=[r9],r10,ar.ccv
        cmpxchg8.rel.nt1 r8=[r9],r10,ar.ccv
        cmp8xchg16.acq r8=[r9],r10,ar.csd,ar.ccv
        cmp8xchg16.rel r8=[r9],r10,ar.csd,ar.ccv
        lfetch [r8]
        lfetch.nt1 [r8]
        lfetch.nt2 [r8]
        lfetch.nta [r8]
        lfetch.d4 [r8]
        lfetch.excl [r8]
        lfetch.fault [r8]
        lfetch.fault.excl.nta [r8]
        lfetch [r8],r9
        lfetch.excl.nt1 [r8],r9
        lfetch.fault [r8],r9
        lfetch [r8],16
        lfetch.fault.excl [r8],-16
        ldfs f8=[r9]
        ldfd.s f8=[r9]
        ldf8.a f8=[r9]
        ldfe.sa f8=[r9]
        ldfs.c.clr f8=[r9]
        ldfd.c.nc f8=[r9]
        ldf.fill f8=[r9]
        ldfd.nt1 f8=[r9],r10
        ldfe.a.nta f8=[r9],r10
        ldf.fill f8=[r9],r10
        ldfs f8=[r9],16
        ldf8.c.clr f8=[r9],-8
        ldf.fill.nta f8=[r9],255
        ldfps f8,f9=[r10]
        ldfpd.s f8,f9=[r10]
        ldfp8.a f8,f9=[r10]
        ldfps f8,f9=[r10],8
        ldfpd.c.nc f8,f9=[r10],16
        ldfp8.sa.nta f8,f9=[r10],16
        stfs [r8]=f9
        stfd.nta [r8]=f9
        stf8 [r8]=f9
        stfe [r8]=f9
        stf.spill [r8]=f9
        stfs [r8]=f9,4
        stf.spill.nta [r8]=f9,-16
        setf.sig f8=r9
        setf.exp f8=r9
        setf.s f8=r9
        setf.d f8=r9
        getf.sig r8=f9
        getf.exp r8=f9
        getf.s r8=f9
        getf.d r8=f9
        chk.s f8,%+16
        chk.a.nc f8,%-16
        chk.a.clr f8,%+32
        invala.e f8
        fwb
        mf.a
        srlz.d
        srlz.i
        sync.i
        fc r8
        fc.i r8
        flushrs
        loadrs
        mov.m ar.rsc=r8
        mov.m ar.rsc=3
        mov.m r8=ar.rsc
        mov.m r8=ar.bsp
        mov.m ar.bspstore=r8
        mov.m r8=ar.bspstore
        mov.m ar.rnat=r8
        mov.m r8=ar.rnat
        mov.m ar.k0=r8
        mov.m r8=ar.k7
        mov.m ar.ccv=r8
        mov.m ar.ccv=-1
        mov.m r8=ar.ccv
        mov.m ar.csd=r8
        mov.m r8=ar.ssd
        mov.m ar.fpsr=r8
        mov.m r8=ar.fpsr
        mov.m ar.itc=r8
        mov.m r8=ar.itc
        mov psr.l=r8
        mov r8=psr
        mov psr.um=r8
        mov r8=psr.um
        mov cr.dcr=r8
        mov cr.itm=r8
        mov r8=cr.ivr
        mov cr.eoi=r8
        mov rr[r8]=r9
        mov r8=rr[r9]
        mov dbr[r8]=r9
        mov r8=dbr[r9]
        mov ibr[r8]=r9
        mov r8=ibr[r9]
        mov pkr[r8]=r9
        mov r8=pkr[r9]
        mov pmc[r8]=r9
        mov r8=pmc[r9]
        mov pmd[r8]=r9
        mov r8=pmd[r9]
        mov r8=cpuid[r9]
        mov r8=dahr[r9]
        ssm 0x2000
        rsm 0x2000
        sum 0x3f
        rum 0x3f
        itc.d r8
        itc.i r8
        itr.d dtr[r8]=r9
        itr.i itr[r8]=r9
        ptc.l r8,r9
        ptc.g r8,r9
        ptc.ga r8,r9
        ptc.e r8
        ptr.d r8,r9
        ptr.i r8,r9
        probe.r r8=r9,r10
        probe.w r8=r9,r10
        probe.r r8=r9,0
        probe.w r8=r9,3
        probe.r.fault r8,0
        probe.w.fault r8,1
        probe.rw.fault r8,2
        tak r8=r9
        tpa r8=r9
        thash r8=r9
        ttag r8=r9
    """,
    "f": """
        fma.s0 f8=f9,f10,f11
        fma.s.s1 f8=f9,f10,f11
        fma.d.s2 f8=f9,f10,f11
        fpma.s3 f8=f9,f10,f11
        fms.s0 f8=f9,f10,f11
        fpms.s0 f8=f9,f10,f11
        fnma.d.s0 f8=f9,f10,f11
        fpnma.s0 f8=f9,f10,f11
        fadd.s0 f8=f9,f10
        fsub.d.s0 f8=f9,f10
        fmpy.s.s0 f8=f9,f10
        fnorm.s0 f8=f9
        xma.l f8=f9,f10,f11
        xma.h f8=f9,f10,f11
        xma.hu f8=f9,f10,f11
        xmpy.l f8=f9,f10
        fselect f8=f9,f10,f11
        fcmp.eq.s0 p6,p7=f8,f9
        fcmp.lt.unc.s1 p6,p7=f8,f9
        fcmp.le.s0 p6,p7=f8,f9
        fcmp.unord.s0 p6,p7=f8,f9
        fclass.m p6,p7=f8,@nat
        fclass.m.unc p6,p7=f8,0x1ff
        frcpa.s0 f8,p6=f9,f10
        fprcpa.s1 f8,p6=f9,f10
        frsqrta.s0 f8,p6=f9
        fprsqrta.s1 f8,p6=f9
        fmin.s0 f8=f9,f10
        fmax.s0 f8=f9,f10
        famin.s0 f8=f9,f10
        famax.s0 f8=f9,f10
        fpmin.s0 f8=f9,f10
        fpamax.s0 f8=f9,f10
        fpcmp.eq.s0 f8=f9,f10
        fpcmp.lt.s0 f8=f9,f10
        fmerge.s f8=f9,f10
        fmerge.ns f8=f9,f10
        fmerge.se f8=f9,f10
        fpmerge.se f8=f9,f10
        fmix.lr f8=f9,f10
        fmix.r f8=f9,f10
        fmix.l f8=f9,f10
        fsxt.r f8=f9,f10
        fsxt.l f8=f9,f10
        fpack f8=f9,f10
        fswap f8=f9,f10
        fswap.nl f8=f9,f10
        fswap.nr f8=f9,f10
        fand f8=f9,f10
        fandcm f8=f9,f10
        for f8=f9,f10
        fxor f8=f9,f10
        fabs f8=f9
        fneg f8=f9
        fnegabs f8=f9
        fcvt.fx.s0 f8=f9
        fcvt.fxu.s0 f8=f9
        fcvt.fx.trunc.s0 f8=f9
        fcvt.fxu.trunc.s0 f8=f9
        fcvt.xf f8=f9
        fpcvt.fx.s0 f8=f9
        fsetc.s0 0x7f,0x0f
        fsetc.s1 0x00,0x7f
        fclrf.s0
        fclrf.s3
        fchkf.s0 %+16
        fchkf.s1 %-16
        hint.f 0
        hint.f 0x1fffff
    """,
    "b": """
        br.ia.sptk.few b6
        br.ia.dpnt.many.clr b1
        brp.sptk %+64,%+16
        brp.loop.imp %-64,%+32
        brp.exit %+16,%+16
        brp.dptk.imp %-16,%+16
        brp.sptk.imp b6,%+16
        brp.dptk b7,%+32
        brp.ret.sptk b0,%+16
        brp.ret.dptk.imp b0,%+16
        cover
        rfi
        bsw.0
        bsw.1
        epc
        vmsw.0
        vmsw.1
    """,
    "x": """
        brl.cond.sptk.few %+32
        brl.cond.dpnt.many.clr %-32
        brl.call.sptk.many b0=%+64
        brl.call.spnt.few b7=%-64
        hint.x 0
        hint.x 0xfffff
    """,
}


# Of these, what takes no qualifying predicate, besides the B instructions, which are tried without.
UNQUALIFIED = ("flushrs", "loadrs")


def left_out():
    """The instructions that are left out, each with each unit that it has, and where that can be with
    a qualifying predicate too."""
    for names, lines in LEFT_OUT.items():
        for unit, line in itertools.product(names, lines.strip().splitlines()):
            text = line.strip()
            yield unit, text
            if unit != "b" and text not in UNQUALIFIED:
                yield unit, f"(p63) {text}"
