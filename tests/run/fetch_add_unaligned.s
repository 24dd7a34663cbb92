// run 9, status 9: four bytes at an address that is a multiple of two alone; the exchange before it in its group is made.
{ .mlx
  nop.m 0
  movl r14=0x100002 ;;
}
{ .mmi
  xchg2 r8=[r14],r14
  fetchadd4.acq r9=[r14],1
  nop.i 0 ;;
}
{ .mib
  nop.m 0
  nop.i 0
  break.b 0 ;;
}
.data
data8 0x0102030405060708
