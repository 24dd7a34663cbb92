// check: accepted; GNU as: may be WAW r8
// A `br.wexit` that falls through leaves 0 in p16, so the second move isn't made.
loop:
{ .mib
  mov r8=1
  nop.i 0
  br.wexit.sptk.few loop ;;
}
{ .mii
  nop.m 0
  mov r8=1
  (p16) mov r8=2 ;;
}
