// run 9, status 0: deferred loads update their base, and a NaT that is added makes it a NaT.
{ .mlx
  nop.m 0
  movl r14=0x100000 ;;
}
{ .mmi
  ld8.s r8=[r0]
  nop.m 0
  nop.i 0 ;;
}
{ .mii
  adds r15=1,r14
  adds r16=0,r14
  nop.i 0 ;;
}
{ .mmi
  ld4.s r9=[r15],12
  nop.m 0
  nop.i 0 ;;
}
{ .mmi
  ld8 r10=[r16],r8
  nop.m 0
  nop.i 0 ;;
}
{ .mib
  nop.m 0
  nop.i 0
  break.b 0 ;;
}
.data
data8 1,2
