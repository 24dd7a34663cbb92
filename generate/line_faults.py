"""The table of lines with a fault, and which fault it is. It is imported, and not called.

The specification of the text form says which fault it is, and not the GNU assembler. That takes some of these lines, and refuses
others with words of its own.

Each block has a line for each row of a fault. Within a block the lines are in the order of what they try: registers and memory,
compares, fields, moves, branches, the rest, and lines that aren't slots. `WHOLE` has a right text of each form, which is spoilt
at each of its positions.
"""

import re

LONGEST = "n" + "a" * 62
TOO_LONG = LONGEST + "a"
HUGE = "1" + "0" * 30

CHAR = [
    "\x7f",
    "\xe9",
    "\x01nop.i 0",
    "nop.i\x1f0",
    "nop.i 0\x7f",
    "nop.i 0 // \x7f",
    "// d\xe9j\xe0 vu",
    "//\x7f",
    "add r8=r9,r1\xe9",
    "f\xe9:",
    "foo\x7f:",
    ".entry f\xe9",
    "data1 1,\x7f",
    "{ .mii \xe9",
    "} \x7f",
    ";; \xe9",
    # before any other fault
    "nope \x7f",
    "add 5=r9,r10 // \x7f",
    "adds r8=foo,r9 \xe9",
    "adds r8=8192,r9 \x7f",
    "add r8=r9 \xe9",
    "add r0=r9,r10 // \xe9",
    "(p6) \x7f",
]

NAME = """\
5
-5
=
,
;
:
[r9]
)
/
nope
ad r8=r9,r10
Add r8=r9,r10
ADD r8=r9,r10
add. r8=r9,r10
add.u r8=r9,r10
addd r8=r9,r10
padd r8=r9,r10
padd8 r8=r9,r10
padd1.sss r8=r9,r10
padd2.uuu r8=r9,r10
psub8 r8=r9,r10
psub1.uus r8=r9,r10
pcmp1 r8=r9,r10
pcmp1.ne r8=r9,r10
pcmp1.eq.gt r8=r9,r10
padd1.eq r8=r9,r10
pcmp4 r8=r9,r10
pcmp8.eq r8=r9,r10
pcmp2.ge r8=r9,r10
pcmp2.lt r8=r9,r10
pavg1 r8=r9,r10
sub.p r8=r9,r10
shladdp r8=r9,1,r10
addp8 r8=r9,r10
shladd4 r8=r9,1,r10
cmp p6,p7=r8,r9
cmp8.eq p6,p7=r8,r9
cmp.eq.andcm p6,p7=r8,r9
cmp.eq.orcm p6,p7=r8,r9
cmp.eq.and.orcm p6,p7=r8,r9
cmp.unc.eq p6,p7=r8,r9
cmp.eq.unc.or p6,p7=r8,r9
cmp.ltu.or p6,p7=r8,r9
cmp.leu.and p6,p7=r0,r9
cmp.geu.or.andcm p6,p7=r0,r9
cmp4.gtu.or p6,p7=r0,r9
cmp.eq.or.unc p6,p7=r8,r9
cmp.eqq p6,p7=r8,r9
cmp4 p6,p7=r8,r9
shr.s r8=r9,r10
shl.u r8=r9,r10
shrp.u r8=r9,r10,1
popcnt8 r8=r9
extr.z r8=r9,0,1
dep.u r8=r9,0,1
tbit p6,p7=r8,0
tbit.z.and p6,p7=r8,0
tbit.nz.or p6,p7=r8,0
tbit.unc.z p6,p7=r8,0
tnat p6,p7=r8
tnat.z.or p6,p7=r8
tf.z p6,p7=32
zxt8 r8=r9
sxt r8=r9
zxt r8=r9
czx1.l r8=r9
mux1 r8=r9,0
clz r8=r9
mov.f b0=r8
mov.b b0=r8
mov.dpnt b0=r8
mov.spnt b0=r8
mov.imp.ret b0=r8
mov.imp.sptk b0=r8
mov.sptk.ret b0=r8
mov.ret.ret b0=r8
mov.few b0=r8
mov.l r8=5
ld r8=[r9]
ld3 r8=[r9]
ld16 r8=[r9]
ld4.fill r8=[r9]
ld1.fill.nta r8=[r9]
ld8.x r8=[r9]
ld8.c r8=[r9]
ld8.clr r8=[r9]
ld8.acq.c.clr r8=[r9]
ld8.c.nc.acq r8=[r9]
ld8.nta.s r8=[r9]
ld8.nt2 r8=[r9]
ld8.nt1.nta r8=[r9]
ld8.spill r8=[r9]
ld8.rel r8=[r9]
ldfe f8=[r9]
lfetch [r9]
st [r9]=r8
st2.spill [r9]=r8
st4.spill [r9]=r8
st8.fill [r9]=r8
st8.acq [r9]=r8
st8.nt1 [r9]=r8
st8.nta.rel [r9]=r8
st16 [r9]=r8
xchg r8=[r9],r10
xchg16 r8=[r9],r10
xchg8.acq r8=[r9],r10
xchg8.nt2 r8=[r9],r10
xchg8.nta.nt1 r8=[r9],r10
cmpxchg8.acq r8=[r9],r10,ar.ccv
fetchadd4 r8=[r9],1
fetchadd8.nta r8=[r9],1
fetchadd8.nta.acq r8=[r9],1
fetchadd4.acq.rel r8=[r9],1
fetchadd8.bias r8=[r9],1
fetchadd.acq r8=[r9],1
fetchadd2.acq r8=[r9],1
chk.s.b r8,x
chk.s.x r8,x
chk.a r8,x
chk.a.s r8,x
chk r8,x
invala.a r8
mf.a
alloc.m r8=ar.pfs,0,0,0,0
br.foo x
br.ia b6
br.cond.few.sptk x
br.cond.clr.many x
br.cond.many.few x
br.cond.sptk.sptk x
br.sptk.cond x
br.cond.sptk.few.clr.clr x
br.wexitt x
br.Cond x
br.ret.imp b0
brl.cond.sptk.few x
brp.loop.few x,y
clrrrb.gr
clrrrb.pr.pr
cover
nop.q 0
nop.mm 0
nop.l 0
break.a 0
hint.f 0
hint.x 0
movll r8=5
fma f8=f9,f10,f11
r8
b0
p6 add r8=r9,r10
.foo
.entr x
.globl x
.align 16
.skp 5
.Text
data3 1
data16 1
data 1
{
{ 5
{ x
{ mii
{ .
{ .xyz
{ .MII
{ .miii
{ . mii
{ }
{ ;;
{ // nothing
{{
{ {
()
(p6)
(p6) // nothing
(p6
(p6 add r8=r9,r10
(
(p6) (p7) add r8=r9,r10
((p6)) add r8=r9,r10
(p6) x:
(p6) foo r8=r9
(p6) 5
(p64) ad r8=r9,r10
(p6) ;
(p6) // add r8=r9,r10
$foo
_
.pred "mutex",p6,p7
.pred.rel.mutex p6,p7
.pred.rel_ "mutex",p6,p7
.Pred.rel "mutex",p6,p7
pred.rel "mutex",p6,p7
"mutex",p6,p7
".pred.rel" "mutex",p6,p7
(p6) "nop.i" 0
("p6) add r8="r9,r10
"x":
{ ".mii"
"
" // "
"""

REGISTER = """\
add 5=r9,r10
add foo=r9,r10
add .foo=r9,r10
add ==r9,r10
add ;;
add ,r9
add p6=r9,r10
add b6=r9,r10
add ar.lc=r9,r10
add r128=r9,r10
add r08=r9,r10
add R8=r9,r10
add in0=r9,r10
add pr=r9,r10
add ip=r9,r10
add r8=foo,r10
add r8=b0,r10
add r8=r128,5
add r8=5,6
add r8=5,foo
add r8=5,=
add r8=8191,p6
add r8=r9,foo
add r8=r9,5
add r8=r9,-5
add r8=r9, ;;
sub r8=loc0,r9
sub r8=5,5
sub r8=r9,p6,1
sub 5=5,5
addp4 r8=f9,r10
addp4 r8=r9,5
addp4 r8=5,8192
and r8=5,.foo
and r8=foo,r9
andcm foo=5,r9
or r8=p6,r9
xor r8=5,6
xor r8=xor,r9
shladd 5=r9,1,r10
shladd r8=9,1,r10
shladd r8=r9,1,10
shladd r8=r9,1,foo
shladdp4 r8=,1,r10
shladdp4 r8=r9,4,b0
adds r8=5,6
adds r8=5,foo
adds 8=5,r9
addl r8=5,6
addl r8=5,r
addl p8=5,r1
cmp.eq r6,p7=r8,r9
cmp.eq 6,p7=r8,r9
cmp.eq p64,p7=r8,r9
cmp.eq p6,r7=r8,r9
cmp.eq p6,7=r8,r9
cmp.eq p6,p7=foo,r9
cmp.eq p6,p7=p8,r9
cmp.eq p6,p7=r8,5
cmp.eq p6,p7=5,5
cmp4.lt.unc p6,p7=5,foo
cmp4.lt.unc p6,p7=foo,r9
cmp4.ltu p6,pr=5,r9
cmp.ne.or p6,p7=b0,r9
cmp.ne.or.andcm p6,p7=r8,=
cmp.eq.and pr.rot,p7=r8,r9
cmp.gt.or p6,p7=r5,r6
cmp.gt.or p6,p7=5,r6
cmp.gt.or p6,p7=foo,r6
cmp.lt.and p6,p7=r8,r0
cmp.le.or.andcm p6,p7=r128,r6
cmp4.ge.and p6,p7=r1,r6
cmp4.ge.and p6,p7=0,r6
cmp4.lt.or p6,p7=r0,0
cmp4.lt.or p6,p7=r0,foo
cmp.leu p6,p7=5,r9
cmp.gtu p6,p7=5,r9
cmp4.leu.unc p6,p7=-1,r9
cmp4.gtu p6,p7=200,r9
cmp.leu p6,p7=.x,r9
cmp.le p6,p7=foo,r9
cmp.le p6,p7=5,6
cmp.gt.unc p6,7=5,r9
cmp.ge p6,p7=5,6
cmp.geu p6,p7=r8,6
cmp.ne p6,p7=r8,p9
cmp.ne p6,p7=foo,r9
cmp.gt p6,p7=foo,r9
cmp.geu p6,p7=foo,r9
cmp.gtu p6,p7=r8,6
shr r8=5,r9
shr r8=r9,foo
shr.u r8=foo,r9
shr.u r8=r9,foo
shl 5=r9,r10
shl r8=r9,p6
shl r8=r9,b0
padd1 r8=5,r9
psub2 r8=r9,5
pcmp4.eq r8=b0,r9
popcnt r8=5
popcnt 5=r8
popcnt r8= ;;
shrp 8=r9,r10,1
shrp r8=9,r10,1
shrp r8=r9,10,1
shrp r8=r9,pr,1
extr 8=r9,0,1
extr.u r8=9,0,1
extr r8=foo,0,1
dep.z 8=r9,0,1
dep.z r8=foo,0,1
dep.z r8=b0,0,1
dep 8=r9,r10,0,1
dep r8=foo,r9,0,1
dep r8=r9,10,0,1
dep r8=-1,10,0,1
dep r8=0,foo,0,1
tbit.z r6,p7=r8,0
tbit.z p6,7=r8,0
tbit.nz.unc p6,p7=8,0
tbit.nz p6,p7=p8,0
tnat.z p64,p7=r8
tnat.nz p6,b7=r8
tnat.nz.unc p6,p7=8
zxt1 r8=9
sxt4 p8=r9
sxt2 r8=foo
chk.s.i foo,x
chk.s.i 5,x
chk.s.m p6,x
chk.s b0,x
chk.a.nc 5,x
chk.a.clr ,x
mov 5=r8
mov foo=r8
mov =r8
mov ip=r8
mov f8=r8
mov ;;
mov r8=foo
mov r8=p6
mov r8=ar.itc
mov r8=pr.rot
mov r8=r128
mov r8=f8
mov r8=a
mov b0=5
mov b0=b1
mov b0=foo
mov b0=ip
mov b8=r8
mov ar.lc=3
mov ar.unat=-1
mov ar.lc=ar.ec
mov ar.lc=foo
mov ar.pfs=b0
mov ar.rsc=r8
mov pr=5
mov pr=pr
mov pr=p6,0
mov pr=foo,0x1fffe
mov pr= ;;
mov.i r8=r9
mov.i r8=5
mov.i r8=foo
mov.i 5=r8
mov.i b0=r8
mov.i pr=r8
mov.i ar.lc=foo
mov.i ar.lc=ar.lc
mov.i ar.ccv=r8
mov.m ar.lc=r8
mov.m ar.pfs=5
mov.m r8=ar.lc
mov.m r8=r9
mov.m r8=5
mov.m ar.unat=foo
mov.m ar.unat=b0
mov.m 5=r8
mov.ret r8=r9
mov.ret 5=r9
mov.sptk b0=5
mov.sptk.imp b0=b1,5
mov.ret.dptk ar.lc=r8
mov.imp b0=foo,1
ld8 8=[r9]
ld8 [r9]=r8
ld8 p8=[r9]
ld8 r8=[9]
ld8 r8=[b9]
ld8 r8=[]
ld8 r8=[[r9]]
ld8 r8=[foo],8
ld8 r8=[r9],foo
ld8 r8=[r9],p6
ld1.c.clr.acq.nta r8=[r9],b0
ld8.fill r8=[-1]
ld8.fill r8=[r9],ar.unat
st8 [9]=r8
st8 [foo]=r8
st8 [r9]=8
st8 [r9]=[r8]
st8 [r9]=foo
st8 [r9]=p8,8
st8.spill [r9]=b0
st1.rel.nta [r9]= ;;
xchg8 8=[r9],r10
xchg8 [r9]=r8
xchg8 r8=[9],r10
xchg4 r8=[r9], ;;
xchg8 r8=[r9],5
xchg1.nta r8=[r9],foo
xchg8 r8=[r9],ar.ccv
fetchadd8.acq p8=[r9],1
fetchadd4.rel r8=[9],1
fetchadd8.acq r8=[foo],1
invala.e 5
invala.e p6
invala.e foo
invala.e ;;
alloc 8=ar.pfs,0,0,0,0
alloc b8=ar.pfs,0,0,0,0
alloc r32=ar.lc,0,1,0,0
alloc r32=ar.unat,0,1,0,0
alloc r32=pfs,0,1,0,0
alloc r32=5,0,1,0,0
alloc r32=r33,0,1,0,0
alloc r32=0,1,0,0
br 5
br -5
br =
br ;;
br.sptk 5
br.cond 5
br.cond [r9]
br.cond.dpnt.many.clr 0x10000
br.cond ;;
br.call 5
br.call x
br.call r0=x
br.call 0=x
br.call b8=x
br.call.sptk.many foo=b6
br.call b0=5
br.call b0==
br.call b0= ;;
br.ret x
br.ret 5
br.ret r8
br.ret b8
br.ret ;;
br.ret.sptk.many .foo
movl 5=5
movl p6=5
movl foo=foo
movl ;;
() add r8=r9,r10
()add r8=r9,r10
( ) nop.i 0
(p64) add r8=r9,r10
(p64) nop.i 0
(6) add r8=r9,r10
(r6) add r8=r9,r10
(foo) nop.i 0
(p06) nop.i 0
(P6) nop.i 0
(;;) nop.i 0
(,p6) nop.i 0
(b0) add 5=r9,r10
(-1) alloc r8=ar.pfs,97,0,0,0
(pr) mov r8=pr
.pred.rel "mutex",5
.pred.rel "mutex",6,7
.pred.rel "mutex",p6,-7
.pred.rel "mutex",r6,p16
.pred.rel "mutex",p6,r7
.pred.rel "mutex",p6,b7
.pred.rel "mutex",p6,p64
.pred.rel "mutex",p6,p64,p16
.pred.rel "mutex",p06,p7
.pred.rel "mutex",P6,p7
.pred.rel "mutex",pr,p7
.pred.rel "mutex",pr.rot,p7
.pred.rel "mutex",foo,p7
.pred.rel "mutex",,p6,p7
.pred.rel "mutex",p6,,p7
.pred.rel "mutex",;;
.pred.rel "mutex",p6,;;
.pred.rel "mutex",p6,"mutex"
.pred.rel "mutex",p6,"p7"
.pred.rel "mutex",(p6),p7
popcnt r8="r9"
br.cond "x"
(" ") nop.i 0
""" + "\n".join((
    f"add r8={TOO_LONG},r9",
    f"mov r8={TOO_LONG}",
    f"br.ret {LONGEST}",
    f"br.ret {TOO_LONG}",
    f"ld8 r8=[r9],{TOO_LONG}",
)) + "\n"

NUMBER = """\
add r8=,r9
add r8== r9
add r8=.foo,r9
add r8=_,r9
add r8=;;r9
add r8= ;;
add r8=1x,r9
add r8=0x,r9
add r8=- 5,r9
add r8=r9,r10,r11
add r8=r9,r10,foo
add r8=r9,r10, ;;
add r8=r9,r10,1.0
sub r8=.5,r9
sub r8=[r9],r10
sub r8=r9,r10,p6
addp4 r8=(5),r9
and r8=0X10,r9
andcm r8=5a,r9
or r8=0xg,r9
xor r8=--5,r9
shladd r8=r9,r10,1
shladd r8=r9,foo,r10
shladd r8=r9,,r10
shladdp4 r8=r9,1.5,r10
adds r8=r9,r10
adds r8=foo,r10
adds r8=,r10
adds r8= ;;
adds r8=-,r10
adds r8=5_,r10
addl r8=r9,r1
addl r8=.L5,r1
cmp.eq p6,p7=,r9
cmp.eq p6,p7=.x,r9
cmp.ne.or p6,p7=- 1,r9
cmp.ltu.unc p6,p7=1x,r9
cmp4.eq.and p6,p7= ;;
cmp.le p6,p7=_,r9
cmp.ge p6,p7=.x,r9
cmp.gt.unc p6,p7=0x,r9
cmp4.geu p6,p7=$,r9
shr r8=r9,.foo
shr.u r8=r9,1.5
shl r8=r9, ;;
shl r8=r9,=
shrp r8=r9,r10,r11
shrp r8=r9,r10,foo
extr r8=r9,r10,1
extr r8=r9,foo,1
extr.u r8=r9,0,r10
extr.u r8=r9,0,foo
extr r8=r9,,1
dep.z r8=.x,0,1
dep.z r8=r9,r10,1
dep.z r8=5,r10,1
dep.z r8=r9,0,foo
dep r8=.x,r9,0,1
dep r8=r9,r10,r11,1
dep r8=r9,r10,0,r11
dep r8=-1,r10,foo,1
dep r8=0,r10,0,.
tbit.z p6,p7=r8,r9
tbit.nz p6,p7=r8,foo
tbit.z.unc p6,p7=r8,0x
mov r8==
mov r8=.foo
mov r8=_foo
mov r8=$foo
mov r8= ;;
mov r8=[r9]
mov r8=0x
mov r8=5x
mov r8=1.5
mov r8=-
mov r8=- 5
mov b0=r8,foo
mov b0=r8,.foo
mov b0=r8,r9
mov b0=r8,b0
mov b0=r8, ;;
mov.ret.sptk.imp b0=r8,x
mov pr=r8,foo
mov pr=r8,r9
mov pr=r8,0x1fffg
mov pr.rot=r8
mov pr.rot=foo
mov pr.rot=.foo
mov pr.rot= ;;
mov.i ar.lc=.foo
mov.i ar.lc= ;;
mov.i ar.ec==
mov.i ar.pfs=0x
mov.m ar.unat=-
mov.m ar.unat=1x
ld8 r8=[r9],.foo
ld8 r8=[r9], ;;
ld8 r8=[r9],[r10]
ld4.s.nt1 r8=[r9],8x
ld8.fill r8=[r9],- 8
st8 [r9]=r8,r10
st8 [r9]=r8,foo
st8 [r9]=r8,.
st4.rel [r9]=r8, ;;
st8.spill [r9]=r8,r9
fetchadd8.acq r8=[r9],r10
fetchadd4.rel r8=[r9],foo
fetchadd8.acq.nta r8=[r9],-
fetchadd8.acq r8=[r9], ;;
alloc r8=ar.pfs,r9,0,0,0
alloc r8=ar.pfs,foo,0,0,0
alloc r8=ar.pfs,0,r9,0,0
alloc r8=ar.pfs,0,.,0,0
alloc r8=ar.pfs,0,0,r9,0
alloc r8=ar.pfs,0,0,,0
alloc r8=ar.pfs,0,0,0,r9
alloc r8=ar.pfs,0,0,0,0x
alloc r8=ar.pfs, ;;
nop r8
nop foo
nop.m p6
nop.i .foo
nop.i =
nop.f ,
nop.b 0x
nop.x 0xg
nop.i 1.0
nop.i 12q
nop.i - 1
break foo
break.b x
break.m r8
break.i [
hint r8
hint.m @pause
hint.b 1x
movl r8==
movl r8=,5
movl r8= ;;
movl r8=1x
movl r8=0x
movl r8=- 5
movl r8=[r9]
(p6) adds r8=r9,r10
(p6) nop.i foo
data1 foo
data1 r8
data1 =
data1 ,1
data1 1,,2
data1 1,foo
data2 .x
data4 ;;
data8 table
data8 1,2,3x
data8 0x
data8 1,- 1
.skip foo
.skip r8
.skip .
.skip =
.skip ;;
.skip 1x
.skip - 1
add r8="r9",r10
adds r8="5",r9
data1 "5"
nop.i "mutex"
""" + f"nop.i {TOO_LONG}\ndata1 {TOO_LONG}\n"

# Numbers one past an edge are made by `line_texts.py` besides these.
RANGE = """\
add r8=2097152,r9
add r8=-2097153,r9
add r8=2097152,foo
add r8=r9,r10,2
add r8=r9,r10,0
add r8=r9,r10,-1
sub r8=r9,r10,10
addl r8=-2097153,r5
adds r8=8192,p6
adds r8=18446744073709551616,r0
adds r8=-18446744073709551616,r0
cmp.eq p6,p7=128,5
cmp.eq p6,p6=-129,r9
cmp.le p6,p7=-128,r9
cmp.gt p6,p7=129,r9
cmp.ne p6,p7=128,r9
dep r8=1,r9,0,1
dep r8=-2,r9,0,1
dep r8=r9,r10,0,17
dep r8=r9,r10,64,17
extr r8=r9,64,0
mov r8=2097152
mov r0=-2097153
mov pr.rot=1
mov pr.rot=65535
mov pr.rot=-65537
mov.i ar.unat=128
mov.m ar.unat=-129
ld8 r8=[r8],256
ld8 r0=[r9],-257
st8 [r0]=r8,256
fetchadd8.acq r8=[r9],32
fetchadd4.rel r0=[r9],-32
fetchadd8.acq r8=[r9],32769
alloc r8=ar.pfs,97,0,0,foo
alloc r8=ar.pfs,96,97,0,0
alloc r8=ar.pfs,0,0,-1,0
alloc r8=ar.pfs,0,0,0,4
alloc r8=ar.pfs,0,0,0,1
alloc r8=ar.pfs,0,0,0,104
alloc r0=ar.pfs,0,0,0,-8
nop 4611686018427387904
nop -1
break 0x4000000000000000
hint 2097152
nop.i 2097152 x
nop.x -1
movl r8=18446744073709551616
movl r8=-9223372036854775809
(p6) nop.i -1
data1 256
data1 1,-129
data1 256,foo
data2 65536
data4 0x100000000
data8 18446744073709551616
data8 -9223372036854775809
.skip 1048577
.skip -1
.skip 1048577 x
.pred.rel "mutex",p0,p7
.pred.rel "mutex",p0
.pred.rel "mutex",p16
.pred.rel "mutex",p16,p16
.pred.rel "mutex",p6,p16
.pred.rel "mutex",p6,p16,p6
.pred.rel "mutex",p6,p16 x
.pred.rel "mutex",p6,p63,r7
.pred.rel "mutex",p1,p2,p3,p4,p5,p6,p7,p8,p9,p10,p11,p12,p13,p14,p15,p16
""" + f"nop.i {HUGE}\ndata8 0,{HUGE}\nadd r8=-{HUGE},r9\n"

FORM = """\
add
add r8
add r8=
add r8=r9
add r8=r9,
add r8=r9,r10,
add r8=5
add r8=5,
add r8 r9
add r8,r9,r10
add r8=r9 r10
add r8=r9=r10
add r8=r9,r10 r11
add r8=r9,r10,1,
add r8=r9,r10,1,1
add r8=r9,r10 x
add r8=r9,r10 5
add r8=r9,r10 ;; ;;
add r8=r9,r10 ; ;
add r8=r9,r10 ;
add r8=r9;;
add r8;;=r9,r10
add r8=r9;;,r10
add r8=5,r9,1
add r8#r9
add#r8 r8
sub r8=5,r9,1
sub r8=r9,r10,1 x
shladd r8=r9,1
shladd r8=r9,1,r10,1
adds r8=5
adds r8=5,r9,r10
addl r8
addp4 r8=r9,r10,1
and r8=r9,r10,1
xor r8 ;;
cmp.eq
cmp.eq p6
cmp.eq p6,
cmp.eq p6,p7
cmp.eq p6=r8,r9
cmp.eq p6,p7=r8
cmp.eq p6,p7=5
cmp.eq p6,p7=r8,r9,r10
cmp.eq p6,p7,r8,r9
cmp.lt.or p6,p7=r0
cmp.le p6,p7=5,r9 x
popcnt r8
popcnt r8=r9,r10
shl r8=r9
shl r8=r9,5,6
shrp r8=r9,r10
extr r8=r9
extr r8=r9,0
extr r8=r9,0,1,2
dep.z r8=r9,0
dep r8=r9,r10,0
dep r8=-1
tbit.z p6,p7=r8
tbit.z p6,p7=r8,0,0
tnat.z p6,p7=r8,0
tnat.z p6
zxt1 r8=r9,r10
sxt4 r8
chk.s.i
chk.s.i r8
chk.s.i r8,
chk.s.i r8,5
chk.s.m r8,=
chk.s.m r8, ;;
chk.s.m r8,x,y
chk.s r8 x
chk.a.nc r8,-1
chk.a.clr r8,[x]
chk.a.clr r8=x
mov
mov r8
mov r8,r9
mov r8=
mov r8 r9
mov r8=r9,r10
mov r8=5,
mov r8=b0,0
mov r8=ip x
mov b0
mov b0=r8,
mov b0=r8 0
mov b0=r8,0,0
mov pr=r8,
mov pr=r8,0,0
mov pr.rot
mov pr.rot=0,0
mov ar.lc=r8,0
mov.i
mov.i ar.lc
mov.i ar.lc=
mov.i r8=ar.lc ar.ec
mov.m ar.unat,r8
mov.ret b0
mov.sptk b0=r8,5,
ld8
ld8 r8
ld8 r8=
ld8 r8=r9
ld8 r8=5
ld8 r8=[
ld8 r8=[r9
ld8 r8=[r9,8]
ld8 r8=[r9],
ld8 r8=[r9] 8
ld8 r8=[r9],8,8
ld8 r8=(r9)
ld8 r8,[r9]
st8
st8 r9=r8
st8 [r9]
st8 [r9]=
st8 [r9],r8
st8 [r9]=r8 8
st8 [r9]=r8,8,8
st8.spill 5
xchg8
xchg8 r8=[r9]
xchg8 r8=[r9],
xchg8 r8=[r9],r10,8
xchg8 r8,[r9],r10
fetchadd8.acq r8=[r9]
fetchadd8.acq r8=[r9],
fetchadd8.acq r8=[r9],8,8
fetchadd4.rel r8,[r9],1
invala r8
invala 5
invala ;; ;;
invala.e
invala.e r8,r9
mf 1
mf r8
mf ;; x
alloc
alloc r8
alloc r8=ar.pfs
alloc r8=ar.pfs,
alloc r8=ar.pfs,0,0,0
alloc r8=ar.pfs,0,0,0,
alloc r8=ar.pfs,0,0,0,0,0
alloc r8=ar.pfs 0,0,0,0
br
br.cond
br.cond x y
br.cond x,y
br.cond x=y
br.cond x:
br.cond b6,b7
br.ret
br.ret b0 b1
br.ret b0,
br.call
br.call b0
br.call b0=
br.call b0,x
br.call b0=x,
br.call b0=b6 x
br.ctop
br.ctop 5
br.ctop =
br.ctop ;;
br.cloop x y
br.wexit -1
clrrrb 1
clrrrb r8
clrrrb.pr x
nop.i 0 0
nop.i 0,0
nop.i 0 x
nop 0 ;; 0
break.b 0 r8
break 0 x
hint 0,0
hint.m 0,
movl
movl r8
movl r8=
movl r8,5
movl r8=5,6
movl r8=foo,1
movl r8=foo+1
movl r8=foo bar
(p6)add
(p6) add r8=r9
(p6,p7) add r8=r9,r10
(p6 p7) add r8=r9,r10
(p6=) nop.i 0
(p6 5) nop.i 0
(p6;;) nop.i 0
(p6)nop.i 0)
addl r8=1,r4
addl r8=1,r5
addl r8=-2097152,r127
add r8=8192,r9
add r8=-8193,r4
add r8=2097151,r127
mov.i ar.unat=r8
mov.i ar.unat=5
mov.i r8=ar.unat
add r0=r8,r9
add r0=r8,r9,1
add r0=1,r9
sub r0=1,r9
shladd r0=r8,1,r9
adds r0=1,r9
addl r0=1,r1
mov r0=r8
mov r0=5
mov r0=b0
mov r0=ip
mov r0=pr
mov r0=ar.lc
mov.m r0=ar.unat
mov.i r0=ar.lc
padd1 r0=r8,r9
psub4 r0=r8,r9
pcmp2.gt r0=r8,r9
popcnt r0=r8
shr r0=r8,r9
shl r0=r8,5
extr r0=r8,0,1
dep.z r0=r8,0,1
dep r0=0,r8,0,1
dep r0=r8,r9,0,1
shrp r0=r8,r9,1
zxt1 r0=r8
ld8 r0=[r9]
ld8.fill r0=[r9],8
xchg8 r0=[r9],r10
fetchadd8.rel r0=[r9],1
alloc r0=ar.pfs,0,0,0,0
movl r0=5
movl r0=foo
cmp.eq p6,p6=r8,r9
cmp.eq p0,p0=r8,r9
cmp.eq.unc p6,p6=5,r9
cmp.lt.or p63,p63=r0,r9
cmp.ne p6,p6=r8,r9
cmp.le p6,p6=5,r9
cmp4.geu p6,p6=r8,r9
tbit.z p6,p6=r8,0
tbit.nz p6,p6=r8,0
tnat.z.unc p6,p6=r8
tnat.nz p6,p6=r8
ld8 r8=[r8],8
ld8 r8=[r8],r9
ld8 r8=[r0],8
ld8.s.nta r8=[r0],r9
ld8 gp=[r1],8
st8 [r0]=r8,8
st8.spill [r0]=r8,-8
alloc r8=ar.pfs,40,40,17,0
alloc r8=ar.pfs,96,1,0,0
alloc r8=ar.pfs,0,7,0,8
alloc r8=ar.pfs,0,0,0,96
(p6) alloc r8=ar.pfs,0,0,0,0
(p6) clrrrb
(p6) clrrrb.pr
(p6) br.cloop x
(p6) br.ctop x
(p6) br.cexit.sptk.few x
(p6) .text
(p6) .data
(p6) .entry x
(p6) .global x
(p6) .skip 5
(p6) data1 1
(p6) }
(p6) ;;
(p6) { .mii
(p6) {.mii
foo: add r8=r9,r10
foo: bar:
foo: ;;
foo::
foo : 5
r0:
r5:
r127:
p0:
p63:
b0:
b7:
r8 :
r5#:
.text x
.text ;;
.data 5
.data .text
.entry
.entry 5
.entry =
.entry ;;
.entry x y
.entry x,y
.entry x ;;
.global
.global 5
.global x,y
.proc
.proc main main
.endp
.endp 5
data1
data1 1,
data1 1 2
data1 1;;
data1 1,2 3
data8 0x10 ;;
data8 1:
.skip
.skip 5 5
.skip 5,
.skip 5 ;;
{ .mii x
{ .mii ;;
{ .mii }
{ .mii nop.m 0
{ .mib {
} x
} ;;
} }
;; ;;
;;;;
;; x
;; nop.i 0
;;;
.pred.rel
.pred.rel ;;
.pred.rel x
.pred.rel 5
.pred.rel,"mutex",p6,p7
.pred.rel p6,p7
.pred.rel mutex,p6,p7
.pred.rel @mutex,p6,p7
.pred.rel "mutex
.pred.rel "mutex,p6,p7
.pred.rel mutex",p6,p7
.pred.rel "mutex//",p6,p7
.pred.rel "//mutex",p6,p7
.pred.rel "Mutex",p6,p7
.pred.rel " mutex",p6,p7
.pred.rel "mutex ",p6,p7
.pred.rel "",p6,p7
.pred.rel "clear"
.pred.rel "clear",p6,p7
.pred.rel "imply",p6,p7
.pred.rel "repeat",p6,p7
.pred.rel "mutex"
.pred.rel "mutex" ;;
.pred.rel "mutex"//,p6,p7
.pred.rel "mutex" p6,p7
.pred.rel "mutex" "mutex",p6,p7
.pred.rel "mutex",
.pred.rel "mutex",p6
.pred.rel "mutex",p6 ;;
.pred.rel "mutex",p6,
.pred.rel "mutex",p6,p6
.pred.rel "mutex",p6,p7,p6
.pred.rel "mutex",p6,p6,p16
.pred.rel "mutex",p6,p7,
.pred.rel "mutex",p6,p7 p8
.pred.rel "mutex",p6 p16
.pred.rel "mutex",p6-p9
.pred.rel "mutex",p6=p7
.pred.rel "mutex",p6;p7
.pred.rel "mutex",p6,p7 ;;
.pred.rel "mutex",p6,p7 x
.pred.rel "mutex",p6,p7 "mutex"
.pred.rel "mutex",p1,p2,p3,p4,p5,p6,p7,p8,p9,p10,p11,p12,p13,p14,p15,p1
(p6) .pred.rel "mutex",p6,p7
(p0) .pred.rel "mutex",p6,p7
nop.i 0 "
nop.i 0 "x"
nop.i 0 " // "
x: "
.text "mutex"
.entry "x"
ld8 r8="[r9]"
} "
""" + "\n".join((
    f"{TOO_LONG}:",
    f"br.cond {TOO_LONG}",
    f"br.call b0={TOO_LONG}",
    f"br.ctop .{TOO_LONG}",
    f"chk.s.i r8,{TOO_LONG}",
    f"movl r8={TOO_LONG}",
    f".entry {TOO_LONG}",
    f".global {TOO_LONG}",
    "data1 " + ",".join("1" for _ in range(33)),
    "data8 " + ",".join(str(n) for n in range(40)),
)) + "\n"

# A right text of each form, or nearly. `|` stands where the text may end before its end.
WHOLE = """\
add r8=r9,r10|,1
sub r8=5,r9
addp4 r8=r9,r10
and r8=5,r9
andcm r8=r9,r10
or r8=5,r9
xor r8=r9,r10
shladd r8=r9,1,r10
shladdp4 r8=r9,4,r10
adds r8=5,r9
addl r8=5,r3
cmp.eq p6,p7=r8,r9
cmp4.lt.unc p6,p7=5,r9
cmp.ltu p6,p7=r8,r9
cmp.ne.or p6,p7=r8,r9
cmp4.eq.or.andcm p6,p7=-5,r9
cmp.gt.or p6,p7=r0,r9
cmp4.le.and p6,p7=r0,r9
cmp.ne p6,p7=5,r9
cmp.le p6,p7=r8,r9
cmp.gt.unc p6,p7=128,r9
cmp.ge p6,p7=r8,r9
cmp4.geu p6,p7=5,r9
cmp.leu p6,p7=r8,r9
cmp4.gtu.unc p6,p7=r8,r9
shr r8=r9,r10
shr.u r8=r9,5
shl r8=r9,r10
padd1 r8=r9,r10
padd2 r8=r9,r10
padd4 r8=r9,r10
psub1 r8=r9,r10
psub2 r8=r9,r10
psub4 r8=r9,r10
pcmp1.eq r8=r9,r10
pcmp2.eq r8=r9,r10
pcmp4.gt r8=r9,r10
popcnt r8=r9
shrp r8=r9,r10,5
extr r8=r9,0,1
extr.u r8=r9,63,64
dep.z r8=r9,0,1
dep.z r8=5,0,1
dep r8=-1,r9,0,1
dep r8=r9,r10,0,1
tbit.z p6,p7=r8,5
tbit.nz.unc p6,p7=r8,5
tnat.z.unc p6,p7=r8
tnat.nz p6,p7=r8
zxt1 r8=r9
sxt4 r8=r9
chk.s.i r8,x
chk.s.m r8,x
chk.s r8,x
chk.a.nc r8,x
chk.a.clr r8,x
mov r8=r9
mov r8=5
mov r8=ip
mov r8=pr
mov r8=b0
mov r8=ar.lc
mov b0=r8|,5
mov.ret.sptk.imp b0=r8|,5
mov pr=r8|,0x1fffe
mov pr.rot=0
mov ar.lc=r8
mov.i ar.lc=r8
mov.i ar.lc=5
mov.i r8=ar.lc
mov.m ar.unat=r8
mov.m ar.unat=5
mov.m r8=ar.unat
ld8 r8=[r9]|,r10
ld1.c.clr.acq.nta r8=[r9]|,8
ld8.fill r8=[r9]|,8
st8 [r9]=r8|,8
st2.rel.nta [r9]=r8|,8
st8.spill [r9]=r8|,8
xchg8 r8=[r9],r10
xchg1.nta r8=[r9],r10
fetchadd4.acq r8=[r9],1
fetchadd8.rel.nt1 r8=[r9],-16
invala.e r8
alloc r8=ar.pfs,1,2,3,0
br x
br.cond.sptk.few x
br.wexit x
br.wtop.sptk x
br.cloop.sptk.few.clr x
br.cexit.few x
br.ctop.clr x
br.call b0=x
br.call.sptk.many b0=b6
br.ret b0
nop| 5
nop.x| 5
break.b| 5
hint.m| 5
data1 1|,2|,3
data8 0x10|,-1
.skip 5
.entry x
.global x
"""

REGISTER_NAMES = re.compile(r"[rpb][0-9]+|ar\.\w+|pr|pr\.rot|ip")
TOKENS = re.compile(r"[A-Za-z_.$][A-Za-z0-9_.$]*|-?[0-9][0-9a-fx]*|.")


def spoilt(text):
    """The faults of a right text that is spoilt, by the one rule for operands: cut before each operand
    and each mark, with another token in place of each, and with one too many."""
    word, operands = re.fullmatch(r"([^ |]+)(.*)", text).groups()
    pieces = TOKENS.findall(operands.replace(" ", ""))
    tokens = [piece for piece in pieces if piece != "|"]
    ends = {place - pieces[:place].count("|") for place, piece in enumerate(pieces) if piece == "|"}
    for place, token in enumerate(tokens):
        before, after = "".join(tokens[:place]), "".join(tokens[place + 1:])
        if place not in ends:
            yield "form", f"{word} {before}".rstrip()
        for fault, other in others(word, token):
            yield fault, f"{word} {before}{other}{after}"
    yield "form", f"{word} {''.join(tokens)} x"


def others(word, token):
    """What is put in place of a token, and which fault that is: a name that is no register; for a
    number, what is none and begins with no letter, and a number outside each field; for a label, what is
    no name (after `br` and `br.call b0=`, where `b6` stands in `WHOLE`, a register is possible too); and
    another mark."""
    if token == "x" or token == "b6":
        either = word == "br" or word.startswith(("br.cond", "br.call"))
        return [("register" if either else "form", "5")]
    if REGISTER_NAMES.fullmatch(token):
        return [("register", "b9")]
    if re.fullmatch(r"-?[0-9].*", token):
        return [("number", ".x"), ("range", HUGE)]
    return [("form", ":")]


FAULTS = [("char", text) for text in CHAR] + [
    (fault, text)
    for fault, block in (("name", NAME), ("register", REGISTER), ("number", NUMBER),
                         ("range", RANGE), ("form", FORM))
    for text in block.splitlines()
] + [row for text in WHOLE.splitlines() for row in spoilt(text)]
