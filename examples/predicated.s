// The greater of r8 and r9 in r10. Both additions write r10 in one instruction group, and are right:
// the compare sets one of p6 and p7 and clears the other, and an instruction whose predicate is 0
// writes nothing.
//
// `ia64 run 100` prints, since r8 and r9 are both 0 and so p7 is set:
//
//   end break 0x0 at 2.2
//   groups 3
//   frame 0 sof 0 sol 0 sor 0 rrb 0 0 0
//   rse 0 0 0 0
//   pr 0000000000000081
//
// `ia64 check` prints `accepted`: it knows that p6 and p7 are never both 1 there.
{ .mii
  cmp.lt p6,p7=r8,r9
  nop.i 0
  nop.i 0 ;;
}
{ .mii
  nop.m 0
  (p6) add r10=r9,r0
  (p7) add r10=r8,r0 ;;
}
{ .mib
  nop.m 0
  nop.i 0
  break.b 0 ;;
}
