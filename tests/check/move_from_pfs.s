// A move from the previous function state does not see what its group writes there, as a return would.
{ .mii
  nop.m 0
  mov.i ar.pfs=r9
  mov.i r8=ar.pfs ;;
}
