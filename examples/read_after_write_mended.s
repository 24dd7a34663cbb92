// The additions of read_after_write.s with a stop between them: two instruction groups, and right.
// `ia64 check` prints `accepted`.
//
// One bundle would do, `add r8=r9,r10 ;;` and then the other addition, and is as right.
{ .mii
  nop.m 0
  nop.i 0
  add r8=r9,r10 ;;
}
{ .mii
  nop.m 0
  nop.i 0
  add r11=r8,r9 ;;
}
