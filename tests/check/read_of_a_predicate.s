// An addition does not see the predicate that its group writes, as a branch would.
{ .mii
cmp.eq p6,p7=r0,r0
(p6) adds r8=1,r0
nop.i 0 ;;
}
