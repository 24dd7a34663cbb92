// A register that a fetch-and-add of the group writes is not seen, whatever the memory holds.
{ .mlx
  nop.m 0
  movl r14=word ;;
}
{ .mmi
  fetchadd4.rel r8=[r14],-1
  xchg4 r9=[r14],r8
  nop.i 0 ;;
}
.data
word:
  data8 1
