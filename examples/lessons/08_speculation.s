// Lesson 8: speculation. This program is accepted.
//
// `ld8.s` (control speculation) loads before it is known whether the address is any good: where it isn't, the target gets
// a NaT in place of a fault. `ld8.a` (data speculation) loads before a store that may go to the same address, and
// makes an entry in the ALAT; a store there takes the entry away. `chk.s` looks for the NaT and `chk.a` for the
// entry, and each goes to its recovery code where the load has to be done again.
//
// 1. What do r8 and r9 hold behind the loads, and what is in the ALAT?
// 2. Which of the two checks go to their recovery code, and why?
// 3. What does r8 hold at the end, and what would it hold without `chk.a`?
// 4. `chk.s` reads r9. Why may it not share a group with the load?
//
// README.md in this folder has what the commands print, and the answers.
{ .mlx
  addl r10=42,r0
  movl r14=word ;;
}
{ .mmi
  ld8.a r8=[r14]              // before the store
  ld8.s r9=[r0]               // no data there
  nop.i 0 ;;
}
{ .mmi
  st8 [r14]=r10               // the same address
  nop.m 0
  nop.i 0 ;;
}
{ .mii
  chk.a.clr r8,load_again
  nop.i 0
  nop.i 0 ;;
}
checked:
{ .mii
  chk.s.m r9,no_word
  nop.i 0
  nop.i 0 ;;
}
done:
{ .mib
  nop.m 0
  nop.i 0
  break.b 0 ;;
}
load_again:
{ .mib
  ld8 r8=[r14]
  nop.i 0
  br.cond.sptk.few checked ;;
}
no_word:
{ .mib
  adds r9=-1,r0
  nop.i 0
  br.cond.sptk.few done ;;
}
.data
word:
  data8 7
