// run 9, status 0: a call from a rotated frame: the callee has no rename bases, and the return takes
// them and EC back.
{ .mii
  alloc r32=ar.pfs,0,8,2,8
  mov pr.rot=0x10000
  nop.i 0 ;;
}
{ .mii
  nop.m 0
  mov.i ar.ec=5
  nop.i 0 ;;
}
{ .mib
  adds r33=7,r0
  nop.i 0
  br.wtop.sptk.few on ;;
}
on:
{ .mib
  nop.m 0
  nop.i 0
  br.call.sptk.few b3=callee ;;
}
{ .mib
  nop.m 0
  nop.i 0
  break.b 0 ;;
}
callee:
{ .mii
  alloc r34=ar.pfs,0,16,0,0
  adds r32=9,r32
  nop.i 0 ;;
}
{ .mii
  nop.m 0
  mov.i r8=ar.ec
  nop.i 0 ;;
}
{ .mii
  nop.m 0
  mov.i ar.ec=0
  nop.i 0 ;;
}
{ .mib
  nop.m 0
  nop.i 0
  br.ret.sptk.few b3 ;;
}
