// A compare under a predicate that may be 0 leaves what stood in its targets.
{ .mii
cmp.eq p6,p7=r0,r0
nop.i 0
nop.i 0 ;;
}
{ .mii
(p6) cmp.eq p8,p9=r0,r0
nop.i 0
nop.i 0 ;;
}
{ .mii
nop.m 0
(p8) mov r8=1
(p7) mov r8=2 ;;
}
