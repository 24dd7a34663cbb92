// run 9, status 9: a NaT as the address of a check load, whose target has an entry.
{ .mlx
  nop.m 0
  movl r14=0x100000 ;;
}
{ .mmi
  ld8.a r9=[r14]
  ld8.s r8=[r0]
  nop.i 0 ;;
}
{ .mmi
  ld8.c.clr r9=[r8]
  nop.m 0
  nop.i 0 ;;
}
{ .mib
  nop.m 0
  nop.i 0
  break.b 0 ;;
}
.data
data8 1,2
