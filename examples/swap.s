// r8 and r9 change places by way of r10, in three moves that no stop parts. Slot by slot it works: r9 gets
// what the first move put into r10. At once the three read before any of them writes, and r9 gets what r10
// held before the group, here 0, in whatever order the writes come. No fault tells of it, and nothing else.
//
// `ia64 check` finds it, and ends with status 1, as `ia64 run 100` does:
//
//   violations 1
//   RAW r10 1.0 1.2
//
// To mend it, put a stop behind the second move. docs/use/wrong_groups.md has what `ia64 groups` prints.
{ .mii
  addl r8=1,r0
  addl r9=2,r0
  nop.i 0 ;;
}
{ .mii
  add r10=r8,r0
  add r8=r9,r0
  add r9=r10,r0 ;;
}
{ .mib
  nop.m 0
  nop.i 0
  break.b 0 ;;
}
