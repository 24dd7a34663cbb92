// Lesson 1: an instruction group. This program is accepted.
//
// An instruction group goes from one stop, `;;`, to the next. It may go over several bundles, and a bundle may have
// parts of two groups.
//
// 1. Which slots are the first group, which the second, and which the third?
// 2. What do r8 and r11 hold at the end?
// 3. How many orders have the writes of the first group, and how many states do these leave?
// 4. Is the program still right without the stop in the middle of bundle 2?
//
// README.md in this folder has what the commands print, and the answers.
{ .mii
  addl r8=1,r0
  addl r9=2,r0
  addl r10=3,r0
}
{ .mii
  addl r11=4,r0
  nop.i 0
  nop.i 0 ;;
}
{ .mii
  nop.m 0
  add r8=r8,r9 ;;
  add r11=r8,r11
}
{ .mib
  nop.m 0
  nop.i 0
  break.b 0 ;;
}
