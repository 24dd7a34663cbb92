// check: accepted; GNU as: may be WAW r8
// Where the branch falls through p6 is 0, so the compare with `unc` clears p8, and the second move isn't made.
{ .mib
  nop.m 0
  nop.i 0
  (p6) br.cond.sptk.few b6 ;;
}
{ .mii
  (p6) cmp.eq.unc p8,p9=r8,r9
  nop.i 0
  nop.i 0 ;;
}
{ .mii
  mov r8=1
  (p8) mov r8=2
  nop.i 0 ;;
}
