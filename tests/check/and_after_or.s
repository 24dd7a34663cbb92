// An and-compare may not write a predicate that an or-compare of its group writes.
{ .mii
cmp.eq.or p6,p0=r8,r0
cmp.eq.or p6,p0=r9,r0
cmp.eq.and p6,p0=r10,r0 ;;
}
