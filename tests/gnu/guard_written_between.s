// check: WAW b0; GNU as: nothing
// p6 may be 1 before the compare and p7 after it, and then b0 is written twice; GNU as sees the compare's p6 in both places.
call:
{ .mii
  nop.m 0
  (p6) mov b0=r8
  cmp.eq p6,p7=r8,r9
}
{ .mib
  nop.m 0
  nop.i 0
  (p7) br.call.sptk.few b0=call ;;
}
