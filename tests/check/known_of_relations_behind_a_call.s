// Three writes behind a call, under predicates of which no two are both 1, as the bundle where it returns to promises;
// and two under others, of which it promises nothing.
{ .mib
nop.m 0
nop.i 0
br.call.sptk.few b0=f ;;
}
.pred.rel "mutex",p8,p6,p7
{ .mii
(p6) mov r8=1
(p7) mov r8=2
(p8) mov r8=3 ;;
}
{ .mii
(p8) mov r9=1
(p9) mov r9=2
nop.i 0 ;;
}
{ .mib
nop.m 0
nop.i 0
break.b 0 ;;
}
f:
{ .mib
nop.m 0
nop.i 0
br.ret.sptk.few b0 ;;
}
