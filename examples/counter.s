// Numbers drawn from a counter by `fetchadd8`, which adds to a word of data and gives what was there, in one access. In one
// group one is drawn, then four at once, then one, and one is given back: r8, r9 and r10 have 100, 101 and 105, r11 has 106,
// and 105 is next again.
//
// No stop has to part them. The registers that the slots of a group read and write have to be independent, but its accesses to
// memory are made one after the other, in program order: each `fetchadd8` finds what the ones before it left. That is proved of
// groups like this one, whose accesses to memory are fetch-and-adds of one size to one address under p0; and where a program
// has no violation, every order of the writes leaves these numbers in the registers (`law_fetch_adds` of `order_laws`).
//
// `ia64 check` prints `accepted`, and `ia64 run 100` prints, since 100 is 64 in hexadecimal:
//   end break 0x0 at 3.2
//   groups 3
//   frame 0 sof 0 sol 0 sor 0 rrb 0 0 0
//   rse 0 0 0 0
//   r8 0000000000000064
//   r9 0000000000000065
//   r10 0000000000000069
//   r11 000000000000006a
//   r14 0000000000100000
//   pr 0000000000000001
//   m 0000000000100000 0000000000000069
{ .mlx
  nop.m 0
  movl r14=next ;;
}
{ .mmi
  fetchadd8.acq r8=[r14],1
  fetchadd8.acq r9=[r14],4
  nop.i 0
}
{ .mmi
  fetchadd8.acq r10=[r14],1
  fetchadd8.rel r11=[r14],-1
  nop.i 0 ;;
}
{ .mib
  nop.m 0
  nop.i 0
  break.b 0 ;;
}
.data
next:
  data8 100
