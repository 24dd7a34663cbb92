// check: WAW p8; GNU as: nothing
// The compare with `unc` writes 0 to p8 where p6 is 0, so also where p7 is 1; GNU as finds it where this compare is the later one.
{ .mii
  cmp.eq p6,p7=r8,r9
  nop.i 0
  nop.i 0 ;;
}
{ .mii
  nop.m 0
  (p6) cmp.eq.unc p8,p0=r8,r9
  (p7) cmp.eq p8,p0=r8,r10 ;;
}
