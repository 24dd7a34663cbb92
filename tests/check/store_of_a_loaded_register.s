// A register that a load of the group writes is not seen, whatever the memory holds.
{ .mlx
  nop.m 0
  movl r14=word ;;
}
{ .mmi
  ld8 r8=[r14]
  st8 [r14]=r8
  nop.i 0 ;;
}
.data
word:
  data8 1
