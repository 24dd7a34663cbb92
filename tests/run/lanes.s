// run 100, status 0: each operation on lanes, of each size, where lanes carry, wrap, are equal and have their signs; a
// NaT gives a NaT, and under a predicate that is 0 nothing is written.
{ .mlx
  nop.m 0
  movl r8=0x80ff7f008000ffff
}
{ .mlx
  nop.m 0
  movl r28=0x80ff7f0000000000
}
{ .mlx
  nop.m 0
  movl r9=0x7f0180ff7fffffff ;;
}
{ .mmi
  padd1 r16=r8,r9
  padd2 r17=r8,r9
  padd4 r18=r8,r9
}
{ .mmi
  psub1 r19=r8,r9
  psub2 r20=r8,r9
  psub4 r21=r8,r9
}
{ .mmi
  pcmp1.eq r22=r8,r9
  pcmp2.eq r23=r8,r9
  pcmp4.eq r24=r8,r28
}
{ .mmi
  pcmp1.gt r25=r8,r9
  pcmp2.gt r26=r8,r9
  pcmp4.gt r27=r28,r8 ;;
}
{ .mmi
  pcmp1.eq r10=r8,r8
  pcmp4.gt r11=r9,r8
  padd4 r12=r9,r9 ;;
}
{ .mmi
  ld8.s r13=[r0]
  nop.m 0
  nop.i 0 ;;
}
{ .mmi
  padd1 r14=r13,r8
  psub2 r15=r8,r13
  (p6) padd1 r12=r8,r8 ;;
}
{ .mib
  nop.m 0
  nop.i 0
  break.b 0 ;;
}
