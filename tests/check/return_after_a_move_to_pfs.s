// A return reads the previous function state as earlier slots of its group wrote it.
{ .mii
  nop.m 0
  adds r9=129,r0
  nop.i 0 ;;
}
{ .mib
  nop.m 0
  mov.i ar.pfs=r9
  br.ret.sptk.few b0 ;;
}
