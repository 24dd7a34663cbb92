// run 9, status 9: a store whose first byte is before the data. Nothing is stored.
{ .mlx
  nop.m 0
  movl r14=0x100000 ;;
}
{ .mii
  adds r15=-8,r14
  nop.i 0
  nop.i 0 ;;
}
{ .mmi
  st8 [r15]=r14
  nop.m 0
  nop.i 0 ;;
}
{ .mib
  nop.m 0
  nop.i 0
  break.b 0 ;;
}
.data
data8 1,2
