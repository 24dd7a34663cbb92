// Lesson 3: a swap. This program is violated on purpose.
//
// r8 and r9 are to change places in one instruction group, without a third register: each move is to read what the
// registers hold at the group's start. But slot 1.1 reads r8 after slot 1.0 writes it, and that no group may do.
//
// 1. Which orders of the two writes swap r8 and r9? And slot by slot?
// 2. Why is it wrong all the same?
// 3. Let `ia64 stops` set the stops. Is the program accepted then, and does it swap?
// 4. Swap with a third register, r10. How few groups are enough?
//
// README.md in this folder has what the commands print, and the answers.
{ .mii
  addl r8=1,r0
  addl r9=2,r0
  nop.i 0 ;;
}
{ .mii
  add r8=r9,r0
  add r9=r8,r0
  nop.i 0 ;;
}
{ .mib
  nop.m 0
  nop.i 0
  break.b 0 ;;
}
