// run 9, status 9: r32 without a frame.
{ .mii
  adds r32=1,r0
  nop.i 0
  nop.i 0 ;;
}
{ .mib
  nop.m 0
  nop.i 0
  break.b 0 ;;
}
