// check: accepted; GNU as: may be WAW r10
// A return that falls through renames nothing, so p16 and p17 are still never both 1; GNU as forgets what it knew of p16 to p63.
{ .mii
  cmp.eq p16,p17=r8,r9
  nop.i 0
  nop.i 0 ;;
}
{ .mib
  nop.m 0
  nop.i 0
  (p6) br.ret.sptk.few b0 ;;
}
{ .mii
  nop.m 0
  (p16) mov r10=1
  (p17) mov r10=2 ;;
}
