// Two additions write r10 in one instruction group, and a straight reading finds nothing wrong: the compare
// before the loop leaves p6 and p7 never both 1. That holds in the first turn. At the end of a turn p7 is set
// for the next ones, and p6, which was to stand for the first turn alone, is left as it is: from the second
// turn on both are 1. `ia64 check` follows the branch back, where nobody says that p6 and p7 are never both 1,
// and ends with status 1, as `ia64 run 100` does:
//
//   violations 2
//   RAW r10 1.1 1.2
//   WAW r10 1.1 1.2
//
// To mend it, write `cmp.ne p6,p7=r0,r0` in place of the last compare, which sets p7 and clears p6: on both
// ways to the loop p6 and p7 are then never both 1, and `ia64 check` prints `accepted`.
//
// The GNU assembler, with -xexplicit, takes nothing for known at a label, and so has to guess. It warns
// twice, of RAW and of WAW:
//
// Use of 'add' may violate WAW dependency 'GR%, % in 1 - 127' (impliedf) when entry is at label 'loop',
// specific resource number is 10
//
// It does so of this program, which is wrong, and word for word of the mended one, which is right. Its
// directive `.pred.rel "mutex",p6,p7` behind the label silences both warnings in both programs. And of the loop
// in tests/gnu/loop_that_sets.s, which goes wrong in the same way, it says nothing.
{ .mii
  cmp.eq p6,p7=r0,r0          // the first turn: p6 is 1, p7 is 0
  mov.i ar.lc=3
  nop.i 0 ;;
}
loop:
{ .mii
  nop.m 0
  (p6) addl r10=1,r0          // the first turn begins with 1
  (p7) add r10=r10,r10 ;;     // each other one doubles it
}
{ .mib
  cmp.eq.or p7,p0=r0,r0       // the other turns: p7 is 1, but p6 still is 1 too
  nop.i 0
  br.cloop.sptk.few loop ;;
}
{ .mib
  nop.m 0
  nop.i 0
  break.b 0 ;;
}
