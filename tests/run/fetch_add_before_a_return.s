// run 9, status 0: a fetch-and-add whose target the return of its group cuts off; the sum is in memory, and the register is
// gone with its frame.
{ .mlx
  nop.m 0
  movl r14=word ;;
}
{ .mib
  nop.m 0
  nop.i 0
  br.call.sptk.few b0=add ;;
}
{ .mib
  nop.m 0
  nop.i 0
  break.b 0 ;;
}
add:
{ .mib
  alloc r32=ar.pfs,0,2,0,0
  nop.i 0
  nop.b 0 ;;
}
{ .mib
  fetchadd8.acq r33=[r14],8
  nop.i 0
  br.ret.sptk.few b0 ;;
}
.data
word:
  data8 7
