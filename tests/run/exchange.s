// run 100, status 0: exchanges and fetch-and-adds of each size: what was there, what is left, sums that wrap, several in one
// group in program order, an entry of the ALAT that goes, and one under a predicate that is 0.
{ .mlx
  nop.m 0
  movl r14=numbers
}
{ .mlx
  nop.m 0
  movl r15=0x1122334455667788 ;;
}
{ .mmi
  ld8.a r16=[r14]
  fetchadd8.acq r17=[r14],-1
  adds r18=8,r14 ;;
}
{ .mmi
  ld8.c.nc r16=[r14]
  fetchadd4.rel.nta r19=[r18],16
  adds r20=16,r14 ;;
}
{ .mmi
  xchg1 r21=[r20],r15
  xchg2.nt1 r22=[r20],r15
  nop.i 0 ;;
}
{ .mmi
  xchg4 r23=[r20],r15
  xchg8.nta r24=[r20],r15
  nop.i 0 ;;
}
{ .mmi
  fetchadd8.acq r25=[r14],1
  fetchadd8.rel r26=[r14],4
  nop.i 0
}
{ .mmi
  fetchadd8.acq.nt1 r27=[r14],8
  fetchadd8.acq r28=[r14],-16
  nop.i 0 ;;
}
{ .mib
  (p6) xchg8 r29=[r14],r15
  nop.i 0
  break.b 0 ;;
}
.data
numbers:
  data8 0, 0xfffffffe, 0xa1a2a3a4a5a6a7a8
