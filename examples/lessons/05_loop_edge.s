// Lesson 5: a loop edge. This program is violated on purpose.
//
// In the first turn p6 is 1 and p7 is 0, so of slots 1.0 and 1.1 one alone writes r8. At the end of a turn p7 becomes 1
// for the turns that follow, and p6 is forgotten: it stays 1. What the compare before the loop says of p6 and p7
// holds on the walk into the loop, and not on the walk that comes back.
//
// 1. How many groups has a turn of the loop, and which numbers have they in the run?
// 2. Which writes has the group at 1.0 in the first turn, and which in the second?
// 3. Whoever wrote this wants 1, doubled twice: 4. What may r8 be at the end?
// 4. Mend it in one line.
//
// README.md in this folder has what the commands print, and the answers.
{ .mii
  cmp.eq p6,p7=r0,r0          // the first turn
  mov.i ar.lc=2
  nop.i 0 ;;
}
loop:
{ .mii
  (p6) addl r8=1,r0           // the first turn begins with 1
  (p7) add r8=r8,r8           // each other one doubles it
  nop.i 0 ;;
}
{ .mib
  cmp.eq.or p7,p0=r0,r0       // p7 is 1 in the other turns
  nop.i 0
  br.cloop.sptk.few loop ;;
}
{ .mib
  nop.m 0
  nop.i 0
  break.b 0 ;;
}
