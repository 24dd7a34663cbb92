// run 9, status 0: check loads that hit update their base: one by an immediate, which keeps its entry, and one by a
// NaT, which makes the base a NaT and forgets its own.
{ .mlx
  nop.m 0
  movl r14=0x100000 ;;
}
{ .mmi
  ld8.a r9=[r14]
  ld8.s r8=[r0]
  nop.i 0 ;;
}
{ .mii
  adds r15=0,r14
  adds r16=8,r14
  nop.i 0 ;;
}
{ .mmi
  ld8.a r10=[r16]
  nop.m 0
  nop.i 0 ;;
}
{ .mmi
  ld8.c.nc r9=[r15],8
  nop.m 0
  nop.i 0 ;;
}
{ .mmi
  ld8.c.clr r10=[r16],r8
  nop.m 0
  nop.i 0 ;;
}
{ .mib
  nop.m 0
  nop.i 0
  break.b 0 ;;
}
.data
data8 1,2
