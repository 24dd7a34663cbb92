// run 9, status 9: an address past the data that is no multiple of the size: the latter counts.
{ .mlx
  nop.m 0
  movl r14=0x100000 ;;
}
{ .mii
  adds r15=17,r14
  nop.i 0
  nop.i 0 ;;
}
{ .mmi
  ld2 r8=[r15]
  nop.m 0
  nop.i 0 ;;
}
{ .mib
  nop.m 0
  nop.i 0
  break.b 0 ;;
}
.data
data8 1,2
