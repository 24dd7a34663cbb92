// A function whose `alloc` isn't the first of its group: the addition, which counts the calls, stands before
// it. The `alloc` makes the frame and puts the caller's frame, which ar.pfs has, into r32 of the new one.
// Slot by slot the frame is there before r32 is written. At once the order of the writes decides: where that
// of r32 comes before that of the frame, there is no r32 yet, and what was to be kept there is lost. Nothing
// tells of it. The function gives back 0 in place of the caller's frame, its return takes back an empty one,
// and the caller finds another register under the name r32.
//
// `ia64 check` finds it, and ends with status 1, as `ia64 run 100` does:
//
//   violations 1
//   ALLOC cfm 4.0 4.1
//
// To mend it, have the two change places. docs/use/wrong_groups.md has what `ia64 groups` prints.
{ .mii
  alloc r32=ar.pfs,0,1,0,0    // one local register
  nop.i 0
  nop.i 0 ;;
}
{ .mib
  addl r32=42,r0
  nop.i 0
  br.call.sptk.few b0=count ;;
}
{ .mmi
  alloc r33=ar.pfs,0,2,0,0 ;; // one more, and r32 stays as it was
  add r8=r32,r0               // 42
  nop.i 0 ;;
}
{ .mib
  nop.m 0
  nop.i 0
  break.b 0 ;;
}
count:
{ .mmi
  adds r9=1,r9
  alloc r32=ar.pfs,0,1,0,0    // too late: the addition stands before it
  nop.i 0 ;;
}
{ .mib
  nop.m 0
  mov.i ar.pfs=r32
  nop.b 0 ;;
}
{ .mib
  nop.m 0
  nop.i 0
  br.ret.sptk.few b0 ;;
}
