// run 10000, status 0: NaT bits spilled and filled over all 64 bits of UNAT and past them. r11 counts the NaTs
// that came back, r12 is the sum of the numbers; r22 to r26 are filled from a collection that was turned.
{ .mlx
  ld8.s r8=[r0]
  movl r14=saved ;;
}
{ .mlx
  adds r9=7,r0
  movl r15=saved ;;
}
{ .mii
  nop.m 0
  mov.i ar.lc=69
  nop.i 0 ;;
}
// a NaT and a number by turns, to 70 words, so that six bits of UNAT are written twice
save:
{ .mmi
  st8.spill [r14]=r8,8
  nop.m 0
  nop.i 0 ;;
}
{ .mii
  adds r9=1,r9
  tnat.nz p6,p7=r8
  nop.i 0 ;;
}
{ .mmi
  (p6) adds r8=0,r9
  (p7) ld8.s r8=[r0]
  nop.i 0 ;;
}
{ .mib
  nop.m 0
  nop.i 0
  br.cloop.sptk.few save ;;
}
{ .mii
  mov.m r20=ar.unat
  mov.i ar.lc=69
  nop.i 0 ;;
}
load:
{ .mmi
  ld8.fill r10=[r15],8
  nop.m 0
  nop.i 0 ;;
}
{ .mii
  nop.m 0
  tnat.nz p8,p9=r10
  nop.i 0 ;;
}
{ .mii
  (p8) adds r11=1,r11
  (p9) add r12=r12,r10
  nop.i 0 ;;
}
{ .mib
  nop.m 0
  nop.i 0
  br.cloop.sptk.few load ;;
}
// the collection turned: what was a NaT comes back as a number, and a number as a NaT
{ .mii
  andcm r21=-1,r20
  adds r15=-560,r15
  nop.i 0 ;;
}
{ .mmi
  mov.m ar.unat=r21
  nop.m 0
  nop.i 0 ;;
}
{ .mmi
  ld8.fill r22=[r15],8
  nop.m 0
  nop.i 0 ;;
}
{ .mmi
  ld8.fill r23=[r15]
  nop.m 0
  nop.i 0 ;;
}
{ .mii
  adds r15=496,r15
  nop.i 0
  nop.i 0 ;;
}
{ .mmi
  ld8.fill r24=[r15],8
  nop.m 0
  nop.i 0 ;;
}
{ .mmi
  ld8.fill r25=[r15],8
  nop.m 0
  nop.i 0 ;;
}
{ .mmi
  ld8.fill r26=[r15],8
  nop.m 0
  nop.i 0 ;;
}
{ .mib
  nop.m 0
  nop.i 0
  break.b 0 ;;
}
.data
.skip 24
saved:
.skip 560
