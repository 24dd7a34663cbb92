// A move from a branch register does not see what its group writes there, as a branch would.
{ .mii
  nop.m 0
  mov b6=r8
  mov r9=b6 ;;
}
