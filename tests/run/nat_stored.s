// run 9, status 9: a NaT is stored by a store that is no spill.
{ .mlx
  nop.m 0
  movl r14=0x100000 ;;
}
{ .mmi
  ld8.s r8=[r0]
  nop.m 0
  nop.i 0 ;;
}
{ .mmi
  st8 [r14]=r8
  nop.m 0
  nop.i 0 ;;
}
{ .mib
  nop.m 0
  nop.i 0
  break.b 0 ;;
}
.data
data8 1,2
