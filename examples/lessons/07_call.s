// Lesson 7: a call with its frame. This program is accepted.
//
// The caller's output register r33 is the callee's r32. The callee's `alloc` makes a frame of its own and keeps the caller's
// frame state, ar.pfs, in r33 of it; `br.ret` takes the caller's frame back from ar.pfs.
//
// 1. What is the frame behind the call, before the callee's `alloc`?
// 2. Slot 4.1 writes ar.pfs, and `br.ret` in slot 5.2 reads it. Does `ia64 check` ask for the stop between them?
// 3. Which writes has the group of the call, and does their order matter?
// 4. Put the addition of bundle 3 before the `alloc`. What does `ia64 check` say, and why?
//
// README.md in this folder has what the commands print, and the answers.
{ .mii
  alloc r32=ar.pfs,0,1,1,0    // one local register, r32, and one output, r33
  nop.i 0
  nop.i 0 ;;
}
{ .mib
  addl r33=21,r0
  nop.i 0
  br.call.sptk.few b0=double ;;
}
{ .mib
  nop.m 0
  nop.i 0
  break.b 0 ;;
}
double:
{ .mmi
  alloc r33=ar.pfs,1,1,0,0    // one input, r32, and one local register, r33
  add r8=r32,r32
  nop.i 0 ;;
}
{ .mib
  nop.m 0
  mov.i ar.pfs=r33
  nop.b 0 ;;
}
{ .mib
  nop.m 0
  nop.i 0
  br.ret.sptk.few b0 ;;
}
