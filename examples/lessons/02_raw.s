// Lesson 2: a read after a write. This program is violated on purpose.
//
// Slot 1.1 reads r8, which slot 1.0 writes in the same instruction group. Hardware that executes a group all at once
// reads its registers before it writes any, so slot 1.1 finds the r8 of the group before.
//
// 1. Whoever wrote this wants r8 to be 10 and r9 to be 11. What does r9 become where the group runs all at once?
// 2. Which orders of the group's writes give 11?
// 3. Where does a stop have to stand, and how many groups does the run have then?
// 4. Slot 1.0 reads r8 and writes it. Why is that no violation?
//
// README.md in this folder has what the commands print, and the answers.
{ .mii
  addl r8=5,r0
  nop.i 0
  nop.i 0 ;;
}
{ .mmi
  adds r8=5,r8        // r8 is to be 10
  adds r9=1,r8        // and r9 one more
  nop.i 0 ;;
}
{ .mib
  nop.m 0
  nop.i 0
  break.b 0 ;;
}
