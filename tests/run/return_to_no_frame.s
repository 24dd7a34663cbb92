// run 9, status 9: a return by a previous function state with a frame of 97 registers. b0 is no entry
// either, which is looked for later.
{ .mlx
  nop.m 0
  movl r9=0x61 ;;
}
{ .mii
  nop.m 0
  mov.i ar.pfs=r9
  nop.i 0 ;;
}
{ .mib
  nop.m 0
  nop.i 0
  br.ret.sptk.few b0 ;;
}
{ .mib
  nop.m 0
  nop.i 0
  break.b 0 ;;
}
