// run 9, status 0: returns to entries that relate predicates of which one is 1, and to one whose two are both 0.
.pred.rel "mutex",p1,p15
{ .mib
cmp.eq.unc p6,p7=r8,r0
nop.i 0
br.call.sptk.few b0=callee ;;
}
.pred.rel "mutex",p6,p7,p8
{ .mib
(p6) adds r9=1,r0
(p7) adds r9=2,r0
(p6) br.call.sptk.few b0=callee ;;
}
.pred.rel "mutex",p7,p8
{ .mib
(p7) adds r10=3,r0
(p8) adds r10=4,r0
break.b 0 ;;
}
callee:
{ .mib
nop.m 0
nop.i 0
br.ret.sptk.few b0 ;;
}
