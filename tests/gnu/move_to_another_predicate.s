// check: accepted; GNU as: may be WAW r10
// The move writes p8 alone, so p6 and p7 are still never both 1; GNU as forgets what it knew of these too.
{ .mii
  cmp.eq p6,p7=r8,r9
  nop.i 0
  nop.i 0 ;;
}
{ .mii
  nop.m 0
  mov pr=r8,0x100
  nop.i 0 ;;
}
{ .mii
  nop.m 0
  (p6) mov r10=1
  (p7) mov r10=2 ;;
}
