// The sum of 10, 9 .. 1 in r8, by a counted loop. `br.cloop` goes back while ar.lc isn't 0, and takes
// one off it, so a loop of ten turns begins with 9. It stands in slot 2.
//
// Right as it stands: each turn is one instruction group, in which the first addition reads r9 before
// the second writes it. A write after a read may share a group, a read after a write may not.
//
// `ia64 run 100` prints, since 55 is 37 in hexadecimal:
//
//   end break 0x0 at 2.2
//   groups 12
//   frame 0 sof 0 sol 0 sor 0 rrb 0 0 0
//   rse 0 0 0 0
//   r8 0000000000000037
//   pr 0000000000000001
//
// `ia64 check` prints `accepted`.
{ .mii
  addl r9=10,r0
  mov.i ar.lc=9
  addl r8=0,r0 ;;
}
loop:
{ .mib
  add r8=r8,r9
  adds r9=-1,r9
  br.cloop.sptk.few loop ;;
}
{ .mib
  nop.m 0
  nop.i 0
  break.b 0 ;;
}
