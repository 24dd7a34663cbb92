// Lesson 4: predicates that excuse. This program is accepted.
//
// Slots 2.1 and 2.2 write r10 in one instruction group. Their qualifying predicates p6 and p7 are the two targets of
// a compare under p0, which never leaves both of them 1. A slot whose qualifying predicate is 0 writes nothing, so r10
// is written once, whatever r8 and r9 hold.
//
// 1. How many writes does group 3 of the run have, and which?
// 2. Would the two slots be excused if the compare stood in their group?
// 3. Would they be excused if the compare itself had the qualifying predicate p8? And with `.unc`?
// 4. Would they be excused behind a line `.entry choose`, where an indirect branch may land?
//
// README.md in this folder has what the commands print, and the answers.
{ .mii
  addl r8=5,r0
  addl r9=7,r0
  nop.i 0 ;;
}
{ .mii
  cmp.lt p6,p7=r8,r9
  nop.i 0
  nop.i 0 ;;
}
choose:
{ .mii
  nop.m 0
  (p6) add r10=r9,r0
  (p7) add r10=r8,r0 ;;
}
{ .mib
  nop.m 0
  nop.i 0
  break.b 0 ;;
}
