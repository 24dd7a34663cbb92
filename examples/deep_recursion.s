// Deep recursion, and the register stack behind it: `f` adds what is left of r9 to r10, from the innermost call outward,
// until r9 is 0. Each of the hundred calls has a frame of sixteen registers, so 1,600 of them are live at the deepest
// point. 96 are resident at once; the other 1,504 were spilled to the backing store on the way down, and were filled
// again on the way back, the locals of every caller with what they held.
//
// Right as it stands: r32 and r33 keep what the caller needs, its previous function state and its return address.
//
// `ia64 run 1000` prints, since the sum of 1 to 99 is 4,950, which is 1356 in hexadecimal:
//
//   end break 0x0 at 2.2
//   groups 503
//   frame 0 sof 0 sol 0 sor 0 rrb 0 0 0
//   rse 0 0 1504 1504
//   r10 0000000000001356
//   pr 0000000000000041
//   b0 0000000000010020
//   ar.pfs c000000000000000
//
// `ia64 check` prints `accepted`.
{ .mii
  nop.m 0
  adds r9=100,r0
  nop.i 0 ;;
}
{ .mib
  nop.m 0
  nop.i 0
  br.call.sptk.few b0=f ;;
}
{ .mib
  nop.m 0
  nop.i 0
  break.b 0 ;;
}
f:
{ .mii
  alloc r32=ar.pfs,0,16,0,0
  mov r33=b0
  adds r9=-1,r9 ;;
}
{ .mii
  nop.m 0
  cmp.eq p6,p7=r0,r9
  adds r34=0,r9 ;;
}
{ .mib
  nop.m 0
  nop.i 0
  (p7) br.call.sptk.few b0=f ;;
}
{ .mii
  add r10=r10,r34
  mov.i ar.pfs=r32
  mov b0=r33 ;;
}
{ .mib
  nop.m 0
  nop.i 0
  br.ret.sptk.few b0 ;;
}
