// Two writes under predicates that the entry relates, and a walk that comes to it along a branch, and knows nothing of them.
{ .mib
nop.m 0
nop.i 0
(p8) br.cond.sptk.few e ;;
}
.entry e
e:
.pred.rel "mutex",p6,p7
{ .mii
nop.m 0
(p6) mov r8=1
(p7) mov r8=2 ;;
}
