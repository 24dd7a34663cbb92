// r8 is 1 as a rule, and 2 in a special case, under p6. The rule and the exception stand in one instruction
// group. Slot by slot the exception overrides the rule, as whoever wrote it meant. At once r8 is written
// twice, and the order of the two writes decides; and as long as p6 is 0 nobody sees it.
//
// `ia64 check` finds it, and ends with status 1, as `ia64 run 100` does:
//
//   violations 1
//   WAW r8 1.1 1.2
//
// To mend it, put the rule under p7, which the compare makes 1 exactly where p6 is 0, or put a stop behind
// it. docs/use/wrong_groups.md has what `ia64 groups` prints.
{ .mii
  cmp.eq p6,p7=r9,r0          // r9 is 0 at the start: the special case
  nop.i 0
  nop.i 0 ;;
}
{ .mii
  nop.m 0
  addl r8=1,r0                // the rule
  (p6) addl r8=2,r0 ;;        // the exception
}
{ .mib
  nop.m 0
  nop.i 0
  break.b 0 ;;
}
