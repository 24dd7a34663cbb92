// Or-compares may write one predicate in one group.
{ .mii
cmp.eq.or p6,p0=r8,r0
cmp.eq.or p6,p0=r9,r0
cmp.eq.or p6,p0=r10,r0 ;;
}
