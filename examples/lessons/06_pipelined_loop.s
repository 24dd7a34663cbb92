// Lesson 6: a software-pipelined loop. This program is accepted.
//
// A turn is one instruction group. Its load belongs to one number of the table, its doubling to the number before, and
// its addition to the one before that: three stages. `br.ctop` renames the rotating registers, so what one turn writes to
// r32 is r33 in the next, and the stage predicates with them, so p16 of one turn is p17 in the next.
//
// 1. Slot 3.0 writes r32 and slot 3.1 reads r33. Why may they share a group?
// 2. Three numbers and three stages: how many turns are there? Which stages work in each of them?
// 3. Why is ar.lc 2, and why is ar.ec 3?
// 4. What is wrong with a loop that writes `(p17) add r34=r32,r32`?
//
// README.md in this folder has what the commands print, and the answers.
{ .mlx
  alloc r8=ar.pfs,0,8,0,8     // r32 to r39 rotate
  movl r14=table ;;
}
{ .mii
  addl r9=0,r0                // the sum
  mov.i ar.lc=2
  mov.i ar.ec=3
}
{ .mii
  nop.m 0
  mov pr.rot=0x10000          // p16 is 1, p17 to p63 are 0
  nop.i 0 ;;
}
loop:
{ .mii
  (p16) ld8 r32=[r14],8       // first stage: load
  (p17) add r34=r33,r33       // second stage: double
  (p18) add r9=r9,r35         // third stage: add
}
{ .mib
  nop.m 0
  nop.i 0
  br.ctop.sptk.few loop ;;
}
{ .mib
  nop.m 0
  nop.i 0
  break.b 0 ;;
}
.data
table:
  data8 1,10,100
