// run 9, status 9: a load of the byte after the data.
{ .mlx
  nop.m 0
  movl r14=0x100000 ;;
}
{ .mii
  adds r15=16,r14
  nop.i 0
  nop.i 0 ;;
}
{ .mmi
  ld1 r8=[r15]
  nop.m 0
  nop.i 0 ;;
}
{ .mib
  nop.m 0
  nop.i 0
  break.b 0 ;;
}
.data
data8 1,2
