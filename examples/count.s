// The sum of 1, 2 .. 10 in r8, by a counted loop. `br.cloop` goes back while ar.lc isn't 0, and takes one
// off it, so a loop of ten turns begins with 9.
//
// Each turn is two instruction groups. The first counts r9 up. The second adds r9 to the sum, so a stop
// has to part the two: a read after a write may not share a group. The first bundle ends with a stop for
// the same reason: the loop reads r8, r9 and ar.lc, which it writes. A taken branch ends its group too;
// the stop after `br.cloop` is for the last turn, which falls through.
//
// `ia64 run 100` prints, since 55 is 37 in hexadecimal:
//
//   end break 0x0 at 3.2
//   groups 22
//   frame 0 sof 0 sol 0 sor 0 rrb 0 0 0
//   rse 0 0 0 0
//   r8 0000000000000037
//   r9 000000000000000a
//   pr 0000000000000001
//
// The groups are the first bundle, two for each of ten turns, and the last bundle. `ia64 watch 100` prints the
// first eight of them before the state. `ia64 check` prints `accepted`.
{ .mii
  addl r8=0,r0
  addl r9=0,r0
  mov.i ar.lc=9 ;;
}
loop:
{ .mib
  adds r9=1,r9
  nop.i 0
  nop.b 0 ;;
}
{ .mib
  nop.m 0
  add r8=r8,r9
  br.cloop.sptk.few loop ;;
}
{ .mib
  nop.m 0
  nop.i 0
  break.b 0 ;;
}
