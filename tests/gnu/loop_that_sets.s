// check: WAW r10; GNU as: nothing
// On the way back p6 and p7 may both be 1, and so p7 and p8; behind a label GNU as goes on from what it knew before it.
{ .mii
  cmp.eq p6,p7=r8,r9
  nop.i 0
  nop.i 0 ;;
}
loop:
{ .mii
  (p6) cmp.eq.unc p8,p9=r8,r9
  nop.i 0
  nop.i 0 ;;
}
{ .mii
  nop.m 0
  (p7) mov r10=1
  (p8) mov r10=2 ;;
}
{ .mib
  cmp.eq.or p7,p0=r8,r10
  nop.i 0
  br.cloop.sptk.few loop ;;
}
