// An unconditional compare, .unc, clears its targets also under a predicate that is 0, so they are never both 1.
{ .mii
cmp.eq p6,p7=r0,r0
nop.i 0
nop.i 0 ;;
}
{ .mii
(p6) cmp.eq.unc p8,p9=r0,r0
nop.i 0
nop.i 0 ;;
}
{ .mii
nop.m 0
(p8) mov r8=1
(p7) mov r8=2 ;;
}
