// A call with register frames. The caller has one local register, r32, and one output, r33; the call
// makes the caller's r33 the r32 of `double`, which gives back twice of it in r8.
//
// Right as it stands: `alloc` is the first instruction of its group, and `br.ret` takes back the frame
// that ar.pfs had at the call, which the group before it restored.
//
// `ia64 run 100` prints, since 42 is 2a in hexadecimal:
//
//   end break 0x0 at 2.2
//   groups 6
//   frame 0 sof 2 sol 1 sor 0 rrb 0 0 0
//   rse 0 2 0 0
//   r8 000000000000002a
//   r33 0000000000000015
//   pr 0000000000000001
//   b0 0000000000010020
//   ar.pfs c000000000000082
//
// `ia64 check` prints `accepted`.
{ .mii
  alloc r32=ar.pfs,0,1,1,0
  nop.i 0
  nop.i 0 ;;
}
{ .mib
  addl r33=21,r0
  nop.i 0
  br.call.sptk.few b0=double ;;
}
// Here the callee returns to: the bundle after a call is an entry without being declared.
{ .mib
  nop.m 0
  nop.i 0
  break.b 0 ;;
}
double:
{ .mii
  alloc r33=ar.pfs,1,1,0,0
  add r8=r32,r32
  nop.i 0 ;;
}
{ .mib
  nop.m 0
  mov.i ar.pfs=r33
  nop.b 0 ;;
}
{ .mib
  nop.m 0
  nop.i 0
  br.ret.sptk.few b0 ;;
}
