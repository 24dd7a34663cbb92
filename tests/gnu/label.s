// check: accepted; GNU as: may be WAW r10 at label here
// Nobody branches to `here`, so p6 and p7 are never both 1 there; at each label GNU as takes nothing for known.
{ .mii
  cmp.eq p6,p7=r8,r9
  nop.i 0
  nop.i 0 ;;
}
here:
{ .mii
  nop.m 0
  (p6) mov r10=1
  (p7) mov r10=2 ;;
}
