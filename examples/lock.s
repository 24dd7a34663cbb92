// A lock by `xchg4`. A word of data is 0 where the lock is free and 1 where it is held. `xchg4` puts 1 there and gives what
// was there, in one access: who finds 0 holds the lock, and who finds 1 asks again. `st4.rel` frees it.
//
// What the lock guards is a count. While the lock is held it is asked for once more: r9 has the 0 that took it, and r10 the 1
// that says it is held.
//
// `ia64 check` prints `accepted`, and `ia64 run 100` prints:
//   end break 0x0 at 7.2
//   groups 7
//   frame 0 sof 0 sol 0 sor 0 rrb 0 0 0
//   rse 0 0 0 0
//   r8 000000000000002a
//   r10 0000000000000001
//   r14 0000000000100000
//   r15 0000000000100004
//   r16 0000000000000001
//   pr 0000000000000041
//   m 0000000000100000 0000002a00000000
{ .mlx
  adds r16=1,r0
  movl r14=lock
}
{ .mlx
  nop.m 0
  movl r15=count ;;
}
ask:
{ .mib
  xchg4 r9=[r14],r16
  nop.i 0
  nop.b 0 ;;
}
{ .mib
  nop.m 0
  cmp.eq p6,p7=r9,r0
  (p7) br.cond.spnt.few ask ;;
}
{ .mmi
  xchg4 r10=[r14],r16
  ld4 r8=[r15]
  nop.i 0 ;;
}
{ .mii
  nop.m 0
  adds r8=1,r8
  nop.i 0 ;;
}
{ .mmi
  st4 [r15]=r8
  st4.rel [r14]=r0
  nop.i 0 ;;
}
{ .mib
  nop.m 0
  nop.i 0
  break.b 0 ;;
}
.data
lock:
  data4 0
count:
  data4 41
