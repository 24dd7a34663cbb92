// check: accepted; GNU as: WAW r8
// No walk reaches the second bundle, which is no entry; GNU as judges all code.
{ .mib
  nop.m 0
  nop.i 0
  br.cond.sptk.few b6 ;;
}
{ .mii
  mov r8=1
  mov r8=2
  nop.i 0 ;;
}
