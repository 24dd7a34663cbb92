// run 9, status 9: `alloc` changes the rotating part while the registers are rotated.
{ .mii
  alloc r32=ar.pfs,0,16,0,8
  mov.i ar.lc=1
  nop.i 0 ;;
}
{ .mib
  nop.m 0
  nop.i 0
  br.ctop.sptk.few on ;;
}
on:
{ .mii
  alloc r33=ar.pfs,0,96,0,16
  nop.i 0
  nop.i 0 ;;
}
{ .mib
  nop.m 0
  nop.i 0
  break.b 0 ;;
}
