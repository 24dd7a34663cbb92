// Memory is reached in program order: the load sees what the store of its group left.
{ .mlx
  nop.m 0
  movl r14=word ;;
}
{ .mmi
  st8 [r14]=r8
  ld8 r9=[r14]
  nop.i 0 ;;
}
.data
word:
  data8 1
