// check: accepted; GNU as: may be WAW r10
// The second compare sets p6 only where p6 is 1 already, so it is never 1 together with p7; GNU as forgets what it knew of p6.
{ .mii
  cmp.eq p6,p7=r8,r9
  nop.i 0
  nop.i 0 ;;
}
{ .mii
  (p6) cmp.eq p6,p8=r8,r10
  nop.i 0
  nop.i 0 ;;
}
{ .mii
  nop.m 0
  (p6) mov r10=1
  (p7) mov r10=2 ;;
}
