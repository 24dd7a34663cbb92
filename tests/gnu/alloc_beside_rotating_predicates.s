// check: accepted; GNU as: may be WAW r10
// An `alloc` writes no predicate and renames none; GNU as forgets what it knew of p16 to p63.
{ .mii
  cmp.eq p16,p17=r8,r9
  nop.i 0
  nop.i 0 ;;
}
{ .mii
  alloc r32=ar.pfs,0,1,0,0
  (p16) mov r10=1
  (p17) mov r10=2 ;;
}
