// run 10000, status 0: calls down to the limit of the register stack, 682 frames of 96 registers, and
// back. r10 is the sum of what each frame kept in r127.
{ .mii
  adds r9=682,r0
  nop.i 0
  nop.i 0 ;;
}
{ .mib
  nop.m 0
  nop.i 0
  br.call.sptk.few b0=down ;;
}
{ .mib
  nop.m 0
  nop.i 0
  break.b 0 ;;
}
down:
{ .mii
  alloc r32=ar.pfs,0,96,0,0
  mov r33=b0
  adds r9=-1,r9 ;;
}
{ .mii
  adds r127=0,r9
  cmp.eq p6,p7=r0,r9
  nop.i 0 ;;
}
{ .mib
  nop.m 0
  nop.i 0
  (p7) br.call.sptk.few b0=down ;;
}
{ .mii
  add r10=r10,r127
  mov.i ar.pfs=r32
  mov b0=r33 ;;
}
{ .mib
  nop.m 0
  nop.i 0
  br.ret.sptk.few b0 ;;
}
