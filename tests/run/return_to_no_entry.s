// run 9, status 9: a return with a frame, to an address that is no entry.
{ .mlx
  nop.m 0
  movl r9=0x0 ;;
}
{ .mii
  nop.m 0
  mov.i ar.pfs=r9
  nop.i 0 ;;
}
{ .mib
  nop.m 0
  nop.i 0
  br.ret.sptk.few b0 ;;
}
{ .mib
  nop.m 0
  nop.i 0
  break.b 0 ;;
}
