// The greater of r8 and r9 in r10, chosen behind a call. `cmp.lt` sets one of p2 and p3 and clears the
// other before the call, and the additions behind it are under the two.
//
// Right as it stands, for the line `.pred.rel`. Where a call returns to, nothing is known of predicates,
// since the callee may have written them. The line has the bundle promise of whoever comes back that p2
// and p3 aren't both 1. The software conventions have a callee leave p1 to p5 as they were, so each
// callee that keeps to them keeps the promise; and one that breaks it ends the run with its return.
//
// `ia64 run 100` prints, since 7 is the greater one, and p3 is cleared:
//
//   end break 0x0 at 3.2
//   groups 5
//   frame 0 sof 0 sol 0 sor 0 rrb 0 0 0
//   rse 0 0 0 0
//   r8 0000000000000005
//   r9 0000000000000007
//   r10 0000000000000007
//   r11 000000000000000c
//   pr 0000000000000005
//   b0 0000000000010020
//   ar.pfs c000000000000000
//
// `ia64 check` prints `accepted`. Without the line `.pred.rel` it prints `violations 1` and
// `WAW r10 2.1 2.2`.
{ .mii
  addl r8=5,r0
  addl r9=7,r0
  nop.i 0 ;;
}
{ .mib
  cmp.lt p2,p3=r8,r9
  nop.i 0
  br.call.sptk.few b0=sum ;;
}
// Here the callee returns to: the bundle after a call is an entry without being declared.
.pred.rel "mutex",p2,p3
{ .mii
  nop.m 0
  (p2) add r10=r9,r0
  (p3) add r10=r8,r0 ;;
}
{ .mib
  nop.m 0
  nop.i 0
  break.b 0 ;;
}
sum:
{ .mib
  add r11=r8,r9
  nop.i 0
  br.ret.sptk.few b0 ;;
}
