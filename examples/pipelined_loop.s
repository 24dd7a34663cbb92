// The sum of a table in r9, by a software-pipelined loop: while one number is added, the next one is
// already loaded. Each turn is one instruction group, though an addition can't share a group with the
// load that it waits for: it adds the number that the turn before loaded.
//
// `br.ctop` makes that of two instructions. At the end of each turn it renames the registers from r32 up
// and the predicates from p16 up: what was r32 is r33 in the next turn, and what was p16 is p17. So p16 is
// the stage of the load and p17, a turn later, that of the addition. It also says which stages work:
// while ar.lc isn't 0 it takes one off it and gives the next turn a p16 of 1; then it takes one off
// ar.ec, with a p16 of 0, and falls through where that was 1. Four numbers and two stages are five turns:
//
// turn 1: p16 is 1, p17 is 0: loads 10
// turn 2: p16 is 1, p17 is 1: loads 11, adds 10
// turn 3: p16 is 1, p17 is 1: loads 20, adds 11
// turn 4: p16 is 1, p17 is 1: loads 1, adds 20
// turn 5: p16 is 0, p17 is 1: adds 1
//
// `ia64 run 100` prints, since 10 + 11 + 20 + 1 is 2a in hexadecimal:
//
//   end break 0x0 at 4.2
//   groups 8
//   frame 0 sof 8 sol 8 sor 1 rrb 3 91 43
//   rse 0 8 0 0
//   r9 000000000000002a
//   r14 0000000000100020
//   r34 0000000000000001
//   r35 0000000000000014
//   r36 000000000000000b
//   r37 000000000000000a
//   pr e000000000010001
//   m 0000000000100000 000000000000000a
//   m 0000000000100008 000000000000000b
//   m 0000000000100010 0000000000000014
//   m 0000000000100018 0000000000000001
//
// The number that was loaded last is in r34, since two turns ended after its load. `ia64 check` prints
// `accepted`: the load writes r32 and r14, the addition reads r33 and r9.
{ .mlx
  alloc r8=ar.pfs,0,8,0,8     // a frame of eight registers, r32 to r39, all of which rotate
  movl r14=table ;;           // where the next number is
}
{ .mii
  addl r9=0,r0                // the sum
  mov.i ar.lc=3               // as many turns with a load, but the first
  mov.i ar.ec=2               // as many stages
}
{ .mii
  nop.m 0
  mov pr.rot=0x10000          // p16 is 1, and p17 to p63 are 0: the first turn only loads
  nop.i 0 ;;
}
loop:
{ .mib
  (p16) ld8 r32=[r14],8       // first stage: the next number, and r14 on to the one after it
  (p17) add r9=r9,r33         // second stage: what was r32 in the turn before is r33
  br.ctop.sptk.few loop ;;
}
{ .mib
  nop.m 0
  nop.i 0
  break.b 0 ;;
}
.data
table:
data8 10,11,20,1
