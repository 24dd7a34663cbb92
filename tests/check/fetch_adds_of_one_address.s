// Memory is reached in program order: the second sees what the first left.
{ .mlx
  nop.m 0
  movl r14=word ;;
}
{ .mmi
  fetchadd8.acq r8=[r14],1
  fetchadd8.acq r9=[r14],1
  nop.i 0 ;;
}
.data
word:
  data8 1
