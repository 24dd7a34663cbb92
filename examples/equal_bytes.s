// How many of the eight bytes of "mississi" are an s, in r10, by one compare of eight lanes.
//
// `pcmp1.eq` takes a register as eight lanes of a byte. Where the lanes are equal, that lane of the result has ones in
// all of its bits, else zeros; so `popcnt` counts eight for each byte that is equal.
//
// `ia64 check` prints `accepted`, and `ia64 run 100` prints:
//   end break 0x0 at 4.2
//   groups 6
//   frame 0 sof 0 sol 0 sor 0 rrb 0 0 0
//   rse 0 0 0 0
//   r8 697373697373696d
//   r9 7373737373737373
//   r10 0000000000000004
//   r14 0000000000100000
//   pr 0000000000000001
//   m 0000000000100000 697373697373696d
{ .mlx
  nop.m 0
  movl r14=letters ;;
}
{ .mlx
  ld8 r8=[r14]
  movl r9=0x7373737373737373 ;;
}
{ .mii
  pcmp1.eq r10=r8,r9
  nop.i 0
  nop.i 0 ;;
}
{ .mii
  nop.m 0
  popcnt r10=r10 ;;
  shr.u r10=r10,3 ;;
}
{ .mib
  nop.m 0
  nop.i 0
  break.b 0 ;;
}
.data
letters:
  data1 0x6d, 0x69, 0x73, 0x73, 0x69, 0x73, 0x73, 0x69
