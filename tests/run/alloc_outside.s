// run 9, status 9: the target of `alloc` is outside the new frame.
{ .mii
  alloc r40=ar.pfs,0,8,0,0
  nop.i 0
  nop.i 0 ;;
}
{ .mib
  nop.m 0
  nop.i 0
  break.b 0 ;;
}
