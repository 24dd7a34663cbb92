// A spill and a fill reach UNAT in program order, with their word of memory.
{ .mlx
  nop.m 0
  movl r14=word ;;
}
{ .mmi
  st8.spill [r14]=r8
  ld8.fill r9=[r14]
  nop.i 0 ;;
}
.data
word:
  data8 1
