"""Pairs of slots in one group, each with a slot that writes one resource: what they clash on shows what the second slot reads
and writes."""

# An instruction of each form, by the unit of its slot.
EXAMPLES = {
    "m": """\
add r8=r9,r10|add r8=r9,r10,1|sub r8=r9,r10|sub r8=r9,r10,1|addp4 r8=r9,r10|and r8=r9,r10|andcm r8=r9,r10|or r8=r9,r10
xor r8=r9,r10|shladd r8=r9,2,r10|shladdp4 r8=r9,2,r10|sub r8=5,r10|and r8=5,r10|andcm r8=5,r10|or r8=5,r10|xor r8=5,r10
adds r8=5,r10|addp4 r8=5,r10|addl r8=5,r2|addl r8=5,r0|adds r8=0,r8|adds r32=0,r8|adds r8=0,r33|(p16) adds r8=0,r9
cmp.eq p6,p7=r8,r9|cmp.lt.unc p6,p7=r8,r9|(p8) cmp.ltu.unc p6,p7=r8,r9|cmp4.eq p6,p7=r8,r9|cmp.eq p6,p7=5,r9
cmp4.lt.unc p6,p7=5,r9|cmp.eq.and p6,p7=r8,r9|cmp.ne.or p6,p7=r8,r9|cmp4.eq.or.andcm p6,p7=r8,r9|cmp.ne.and p6,p7=5,r9
cmp.gt.or p6,p7=r0,r9|cmp4.le.and p6,p7=r0,r9|(p8) cmp.lt.or.andcm p6,p7=r0,r9|cmp.eq p6,p0=r8,r9|cmp.eq p0,p16=r8,r9
padd1 r8=r9,r10|psub4 r8=r9,r10|pcmp2.eq r8=r9,r10|(p8) pcmp4.gt r8=r9,r10
ld8 r8=[r9]|ld1.s r8=[r9]|ld2.a.nt1 r8=[r9]|ld4.sa r8=[r9],r10|ld8.c.clr r8=[r9],-8|ld8.fill r8=[r9]|ld8.fill.nta r8=[r9],8
ld4.acq r8=[r9],r10|(p8) ld8 r8=[r9],8|ld8.c.nc r33=[r9]|ld8.bias r8=[r9]|ld8.c.clr.acq r8=[r9]
st8 [r9]=r8|st4.rel [r9]=r8|st1.nta [r9]=r8,1|st8.spill [r9]=r8|st8.spill [r9]=r8,8|(p8) st8 [r33]=r8,16
xchg1 r8=[r9],r10|xchg8.nta r8=[r9],r10|fetchadd4.acq r8=[r9],1|(p8) fetchadd8.rel.nt1 r8=[r9],-16
chk.s.m r8,x|chk.a.nc r8,x|chk.a.clr r33,x|(p8) chk.a.nc r8,x|invala|invala.e r8|(p8) invala.e r33|mf|(p8) mf
mov.m ar.unat=r8|mov.m r8=ar.unat|(p8) mov.m ar.unat=5|alloc r8=ar.pfs,0,2,1,0|alloc r32=ar.pfs,0,8,0,8
break.m 0|nop.m 0|hint.m 0|(p8) break.m 5|(p8) nop.m 5|(p16) hint.m 0""",
    "i": """\
shr r8=r9,r10|shr.u r8=r9,r10|shl r8=r9,r10|popcnt r8=r9|shrp r8=r9,r10,5|extr r8=r9,5,6|extr.u r8=r9,5,6|dep.z r8=r9,5,6
dep.z r8=5,6,7|dep r8=-1,r9,5,6|dep r8=0,r9,5,6|dep r8=r9,r10,5,6|tbit.z p6,p7=r9,5|(p8) tbit.z.unc p6,p7=r9,5
tnat.z p6,p7=r9|tnat.z.unc p6,p7=r9|zxt1 r8=r9|zxt4 r8=r9|sxt2 r8=r9|(p8) sxt4 r8=r33|chk.s.i r8,x|(p8) chk.s.i r33,x
mov b6=r8,0|mov.ret.dptk.imp b0=r8,1|(p8) mov b7=r33|mov r8=b6|mov pr=r8,0x1fffe|mov pr=r8,0x10000|mov pr=r8,0xc0
(p8) mov pr=r8,0x8002|mov pr.rot=65536|mov r8=ip|mov r8=pr|(p8) mov r33=pr|mov.i ar.pfs=r8|mov.i ar.lc=r8|mov.i ar.ec=r8
mov.i ar.lc=5|mov.i r8=ar.pfs|mov.i r8=ar.lc|(p8) mov.i r8=ar.ec|break.i 0|nop.i 0|hint.i 0|(p8) nop.i 0|add r8=r9,r10
cmp.eq p6,p7=r8,r9""",
    "b": """\
br.cond.sptk.few x|(p6) br.cond.spnt.many.clr x|(p16) br.cond.sptk.few x|(p16) br.wexit.sptk.few x|br.wtop.sptk.few x
(p6) br.wtop.dptk.few x|br.cloop.sptk.few x|br.cexit.sptk.few x|br.ctop.sptk.few x|br.call.sptk.few b0=x
(p6) br.call.sptk.few b6=x
br.cond.sptk.few b6|(p6) br.cond.sptk.few b6|(p16) br.cond.sptk.few b6|br.ret.sptk.many b0|(p6) br.ret.sptk.few b6
br.call.sptk.few b0=b6|(p8) br.call.sptk.few b0=b0|clrrrb|clrrrb.pr|break.b 0|nop.b 0|hint.b 0|(p6) nop.b 0|(p16) break.b 0""",
    "f": "break.f 0|nop.f 0|(p6) nop.f 5",
    "x": "break.x 5|nop.x 5|movl r8=5|(p6) movl r33=5|(p16) nop.x 0",
}

# A bundle that writes each resource which is tried.
GENERAL, PREDICATES, BRANCH = (2, 8, 9, 10, 11, 32, 33), (1, 2, 6, 7, 8, 15, 16, 17, 62, 63), (0, 6, 7)
WRITERS = {
    **{f"r{number}": f"{{ .mii\nadds r{number}=0,r0\nnop.i 0\nnop.i 0\n}}\n" for number in GENERAL},
    **{f"p{number}": f"{{ .mii\ncmp.eq p{number},p0=r0,r0\nnop.i 0\nnop.i 0\n}}\n" for number in PREDICATES},
    **{f"b{number}": f"{{ .mii\nnop.m 0\nmov b{number}=r0\nnop.i 0\n}}\n" for number in BRANCH},
    **{name: f"{{ .mii\nnop.m 0\nmov.i ar.{name}=r0\nnop.i 0\n}}\n" for name in ("pfs", "lc", "ec")},
    "unat": "{ .mii\nmov.m ar.unat=r0\nnop.i 0\nnop.i 0\n}\n",
    "cfm": "{ .mib\nnop.m 0\nnop.i 0\nbr.ctop.sptk.few x\n}\n",
}
BUNDLES = {"m": "{{ .mii\n{}\nnop.i 0\nnop.i 0 ;;\n}}\n", "i": "{{ .mii\nnop.m 0\n{}\nnop.i 0 ;;\n}}\n",
           "b": "{{ .mib\nnop.m 0\nnop.i 0\n{} ;;\n}}\n", "f": "{{ .mfi\nnop.m 0\n{}\nnop.i 0 ;;\n}}\n",
           "x": "{{ .mlx\nnop.m 0\n{} ;;\n}}\n"}


def examples():
    """Each example with its unit."""
    return [(unit, text) for unit, texts in EXAMPLES.items() for line in texts.splitlines() for text in line.split("|")]


def probe(unit, text):
    """A program of a group for each resource: a slot that writes it, and behind it the example. All begin at entries, and the
    last bundle is `x`."""
    groups = "".join(f".entry e{number}\ne{number}:\n{writer}{BUNDLES[unit].format(text)}"
                     for number, writer in enumerate(WRITERS.values()))
    return f"{groups}x:\n{{ .mii\nnop.m 0\nnop.i 0\nbreak.i 0 ;;\n}}\n".encode()
