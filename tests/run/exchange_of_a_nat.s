// run 9, status 9: a NaT that would be exchanged comes before the address that is not aligned, and nothing is stored.
{ .mlx
  nop.m 0
  movl r14=0x100001 ;;
}
{ .mmi
  ld8.s r8=[r0]
  nop.m 0
  nop.i 0 ;;
}
{ .mmi
  xchg8 r9=[r14],r8
  nop.m 0
  nop.i 0 ;;
}
{ .mib
  nop.m 0
  nop.i 0
  break.b 0 ;;
}
.data
data8 1,2
