// run 4, status 9: a branch to an entry that promises of two predicates that they aren't both 1, and they are.
.entry landing
{ .mlx
nop.m 0
movl r9=landing ;;
}
{ .mii
nop.m 0
mov b6=r9
nop.i 0 ;;
}
{ .mib
cmp.eq.or p6,p7=r8,r10
nop.i 0
br.cond.sptk.few b6 ;;
}
landing:
.pred.rel "mutex",p6,p7
{ .mib
nop.m 0
nop.i 0
break.b 0 ;;
}
