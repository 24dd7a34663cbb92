// Two writes under predicates that the entry relates, so that they are never both 1. The walk from the compare knows it too.
{ .mii
cmp.eq p6,p7=r0,r0
nop.i 0
nop.i 0 ;;
}
.entry e
e:
.pred.rel "mutex",p6,p7
{ .mii
nop.m 0
(p6) mov r8=1
(p7) mov r8=2 ;;
}
