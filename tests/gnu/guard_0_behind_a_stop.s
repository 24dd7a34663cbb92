// check: accepted; GNU as: WAW r8
// Where the branch falls through p6 is 0, so the first move isn't made; GNU as knows it of a branch between the two alone.
{ .mib
  nop.m 0
  nop.i 0
  (p6) br.cond.sptk.few b6 ;;
}
{ .mii
  (p6) mov r8=1
  mov r8=2
  nop.i 0 ;;
}
