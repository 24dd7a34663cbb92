// The sum of a list, whose loads run before the branches which they stood behind. A node is a number and the
// address of the next node, or 0. `ld8.s` doesn't fault: at the end of the list, where r9 is 0, r8 becomes
// a NaT, and nobody looks at it. Where a node is there and the load couldn't be done, `chk.s.m` goes to the
// recovery code, which loads again without `.s`, faults if it must, and goes back.
//
// Right as it stands: a stop parts the load from the check, which reads what the load writes, and each
// load from the addition that reads it.
//
// `ia64 run 100` prints, since 20 + 22 is 2a in hexadecimal:
//
//   end break 0x0 at 6.2
//   groups 14
//   frame 0 sof 0 sol 0 sor 0 rrb 0 0 0
//   rse 0 0 0 0
//   r8 0000000000000000 nat
//   r10 000000000000002a
//   r11 0000000000000008
//   pr 0000000000000041
//   m 0000000000100000 0000000000000014
//   m 0000000000100008 0000000000100010
//   m 0000000000100010 0000000000000016
//
// `ia64 check` prints `accepted`.
{ .mlx
  nop.m 0
  movl r9=list ;;
}
node:
{ .mii
  ld8.s r8=[r9]
  cmp.eq p6,p7=r9,r0
  adds r11=8,r9 ;;
}
{ .mib
  nop.m 0
  nop.i 0
  (p6) br.cond.dpnt.few done ;;
}
{ .mii
  chk.s.m r8,recovery
  nop.i 0
  nop.i 0 ;;
}
loaded:
{ .mii
  ld8 r9=[r11]
  add r10=r10,r8
  nop.i 0 ;;
}
{ .mib
  nop.m 0
  nop.i 0
  br.cond.sptk.few node ;;
}
done:
{ .mib
  nop.m 0
  nop.i 0
  break.b 0 ;;
}
recovery:
{ .mib
  ld8 r8=[r9]
  nop.i 0
  br.cond.sptk.few loaded ;;
}
.data
list:
data8 20,0x100010
data8 22,0
