// The hazard: both additions stand in one instruction group, since no stop parts them, so the second
// must not read r8, which the first writes. The hardware doesn't notice; `ia64 check` does, and ends
// with status 1:
//
//   violations 1
//   RAW r8 0.1 0.2
//
// read_after_write_mended.s has a stop between the two.
{ .mii
  nop.m 0
  add r8=r9,r10
  add r11=r8,r9 ;;
}
