// check: accepted; GNU as: may be WAW r8
// Where the branch falls through p6 is 0, so the second move isn't made.
{ .mib
  mov r8=1
  nop.i 0
  (p6) br.cond.sptk.few b6
}
{ .mii
  (p6) mov r8=2
  nop.i 0
  nop.i 0 ;;
}
