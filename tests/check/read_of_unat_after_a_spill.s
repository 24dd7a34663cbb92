// A move from UNAT does not see the bit that a spill of its group writes, as a fill would.
{ .mlx
  nop.m 0
  movl r14=word ;;
}
{ .mmi
  st8.spill [r14]=r8
  mov.m r10=ar.unat
  nop.i 0 ;;
}
.data
word:
  data8 1
