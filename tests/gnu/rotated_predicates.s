// check: accepted; GNU as: may be WAW r10
// The rotation renames p16 and p17 as p17 and p18, which are never both 1; GNU as forgets what it knew.
loop:
{ .mii
  cmp.eq p16,p17=r8,r9
  nop.i 0
  nop.i 0 ;;
}
{ .mib
  nop.m 0
  nop.i 0
  br.wexit.sptk.few loop ;;
}
{ .mii
  nop.m 0
  (p17) mov r10=1
  (p18) mov r10=2 ;;
}
