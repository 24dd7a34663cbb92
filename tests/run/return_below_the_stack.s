// run 9, status 9: a return whose locals reach below the first register.
{ .mlx
  nop.m 0
  movl r9=0x81 ;;
}
{ .mii
  nop.m 0
  mov.i ar.pfs=r9
  nop.i 0 ;;
}
{ .mib
  nop.m 0
  nop.i 0
  br.ret.sptk.few b0 ;;
}
{ .mib
  nop.m 0
  nop.i 0
  break.b 0 ;;
}
