// check: CLEAR cfm; GNU as: nothing
// GNU as puts a stop after the `clrrrb` and says nothing: another program than the text.
{ .mib
  nop.m 0
  nop.i 0
  clrrrb
}
{ .mii
  mov r8=1
  nop.i 0
  nop.i 0 ;;
}
