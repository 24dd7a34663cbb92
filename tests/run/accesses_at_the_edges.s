// run 10000, status 0: speculative loads of each size at the first and the last byte of the data and
// beside them. Of each, one byte: what was loaded, or 0xee where the load was deferred.
{ .mlx
  nop.m 0
  movl r14=0x100000 ;;
}
{ .mlx
  nop.m 0
  movl r15=results ;;
}
// ld1.s at 0x100000-1
{ .mii
  adds r16=-1,r14
  adds r18=0xee,r0
  nop.i 0 ;;
}
{ .mmi
  ld1.s r17=[r16]
  nop.m 0
  nop.i 0 ;;
}
{ .mii
  nop.m 0
  tnat.nz p6,p7=r17
  nop.i 0 ;;
}
{ .mmi
  (p7) adds r18=0,r17
  nop.m 0
  nop.i 0 ;;
}
{ .mmi
  st1 [r15]=r18,1
  nop.m 0
  nop.i 0 ;;
}
// ld1.s at 0x100000-1
{ .mii
  adds r16=-1,r14
  adds r18=0xee,r0
  nop.i 0 ;;
}
{ .mmi
  ld1.s r17=[r16]
  nop.m 0
  nop.i 0 ;;
}
{ .mii
  nop.m 0
  tnat.nz p6,p7=r17
  nop.i 0 ;;
}
{ .mmi
  (p7) adds r18=0,r17
  nop.m 0
  nop.i 0 ;;
}
{ .mmi
  st1 [r15]=r18,1
  nop.m 0
  nop.i 0 ;;
}
// ld1.s at 0x100000+0
{ .mii
  adds r16=0,r14
  adds r18=0xee,r0
  nop.i 0 ;;
}
{ .mmi
  ld1.s r17=[r16]
  nop.m 0
  nop.i 0 ;;
}
{ .mii
  nop.m 0
  tnat.nz p6,p7=r17
  nop.i 0 ;;
}
{ .mmi
  (p7) adds r18=0,r17
  nop.m 0
  nop.i 0 ;;
}
{ .mmi
  st1 [r15]=r18,1
  nop.m 0
  nop.i 0 ;;
}
// ld1.s at 0x100000+1
{ .mii
  adds r16=1,r14
  adds r18=0xee,r0
  nop.i 0 ;;
}
{ .mmi
  ld1.s r17=[r16]
  nop.m 0
  nop.i 0 ;;
}
{ .mii
  nop.m 0
  tnat.nz p6,p7=r17
  nop.i 0 ;;
}
{ .mmi
  (p7) adds r18=0,r17
  nop.m 0
  nop.i 0 ;;
}
{ .mmi
  st1 [r15]=r18,1
  nop.m 0
  nop.i 0 ;;
}
// ld1.s at 0x100000+1
{ .mii
  adds r16=1,r14
  adds r18=0xee,r0
  nop.i 0 ;;
}
{ .mmi
  ld1.s r17=[r16]
  nop.m 0
  nop.i 0 ;;
}
{ .mii
  nop.m 0
  tnat.nz p6,p7=r17
  nop.i 0 ;;
}
{ .mmi
  (p7) adds r18=0,r17
  nop.m 0
  nop.i 0 ;;
}
{ .mmi
  st1 [r15]=r18,1
  nop.m 0
  nop.i 0 ;;
}
// ld1.s at 0x100000+79
{ .mii
  adds r16=79,r14
  adds r18=0xee,r0
  nop.i 0 ;;
}
{ .mmi
  ld1.s r17=[r16]
  nop.m 0
  nop.i 0 ;;
}
{ .mii
  nop.m 0
  tnat.nz p6,p7=r17
  nop.i 0 ;;
}
{ .mmi
  (p7) adds r18=0,r17
  nop.m 0
  nop.i 0 ;;
}
{ .mmi
  st1 [r15]=r18,1
  nop.m 0
  nop.i 0 ;;
}
// ld1.s at 0x100000+80
{ .mii
  adds r16=80,r14
  adds r18=0xee,r0
  nop.i 0 ;;
}
{ .mmi
  ld1.s r17=[r16]
  nop.m 0
  nop.i 0 ;;
}
{ .mii
  nop.m 0
  tnat.nz p6,p7=r17
  nop.i 0 ;;
}
{ .mmi
  (p7) adds r18=0,r17
  nop.m 0
  nop.i 0 ;;
}
{ .mmi
  st1 [r15]=r18,1
  nop.m 0
  nop.i 0 ;;
}
// ld1.s at 0x100000+79
{ .mii
  adds r16=79,r14
  adds r18=0xee,r0
  nop.i 0 ;;
}
{ .mmi
  ld1.s r17=[r16]
  nop.m 0
  nop.i 0 ;;
}
{ .mii
  nop.m 0
  tnat.nz p6,p7=r17
  nop.i 0 ;;
}
{ .mmi
  (p7) adds r18=0,r17
  nop.m 0
  nop.i 0 ;;
}
{ .mmi
  st1 [r15]=r18,1
  nop.m 0
  nop.i 0 ;;
}
// ld1.s at 0x100000+80
{ .mii
  adds r16=80,r14
  adds r18=0xee,r0
  nop.i 0 ;;
}
{ .mmi
  ld1.s r17=[r16]
  nop.m 0
  nop.i 0 ;;
}
{ .mii
  nop.m 0
  tnat.nz p6,p7=r17
  nop.i 0 ;;
}
{ .mmi
  (p7) adds r18=0,r17
  nop.m 0
  nop.i 0 ;;
}
{ .mmi
  st1 [r15]=r18,1
  nop.m 0
  nop.i 0 ;;
}
// ld2.s at 0x100000-2
{ .mii
  adds r16=-2,r14
  adds r18=0xee,r0
  nop.i 0 ;;
}
{ .mmi
  ld2.s r17=[r16]
  nop.m 0
  nop.i 0 ;;
}
{ .mii
  nop.m 0
  tnat.nz p6,p7=r17
  nop.i 0 ;;
}
{ .mmi
  (p7) adds r18=0,r17
  nop.m 0
  nop.i 0 ;;
}
{ .mmi
  st1 [r15]=r18,1
  nop.m 0
  nop.i 0 ;;
}
// ld2.s at 0x100000-1
{ .mii
  adds r16=-1,r14
  adds r18=0xee,r0
  nop.i 0 ;;
}
{ .mmi
  ld2.s r17=[r16]
  nop.m 0
  nop.i 0 ;;
}
{ .mii
  nop.m 0
  tnat.nz p6,p7=r17
  nop.i 0 ;;
}
{ .mmi
  (p7) adds r18=0,r17
  nop.m 0
  nop.i 0 ;;
}
{ .mmi
  st1 [r15]=r18,1
  nop.m 0
  nop.i 0 ;;
}
// ld2.s at 0x100000+0
{ .mii
  adds r16=0,r14
  adds r18=0xee,r0
  nop.i 0 ;;
}
{ .mmi
  ld2.s r17=[r16]
  nop.m 0
  nop.i 0 ;;
}
{ .mii
  nop.m 0
  tnat.nz p6,p7=r17
  nop.i 0 ;;
}
{ .mmi
  (p7) adds r18=0,r17
  nop.m 0
  nop.i 0 ;;
}
{ .mmi
  st1 [r15]=r18,1
  nop.m 0
  nop.i 0 ;;
}
// ld2.s at 0x100000+1
{ .mii
  adds r16=1,r14
  adds r18=0xee,r0
  nop.i 0 ;;
}
{ .mmi
  ld2.s r17=[r16]
  nop.m 0
  nop.i 0 ;;
}
{ .mii
  nop.m 0
  tnat.nz p6,p7=r17
  nop.i 0 ;;
}
{ .mmi
  (p7) adds r18=0,r17
  nop.m 0
  nop.i 0 ;;
}
{ .mmi
  st1 [r15]=r18,1
  nop.m 0
  nop.i 0 ;;
}
// ld2.s at 0x100000+2
{ .mii
  adds r16=2,r14
  adds r18=0xee,r0
  nop.i 0 ;;
}
{ .mmi
  ld2.s r17=[r16]
  nop.m 0
  nop.i 0 ;;
}
{ .mii
  nop.m 0
  tnat.nz p6,p7=r17
  nop.i 0 ;;
}
{ .mmi
  (p7) adds r18=0,r17
  nop.m 0
  nop.i 0 ;;
}
{ .mmi
  st1 [r15]=r18,1
  nop.m 0
  nop.i 0 ;;
}
// ld2.s at 0x100000+78
{ .mii
  adds r16=78,r14
  adds r18=0xee,r0
  nop.i 0 ;;
}
{ .mmi
  ld2.s r17=[r16]
  nop.m 0
  nop.i 0 ;;
}
{ .mii
  nop.m 0
  tnat.nz p6,p7=r17
  nop.i 0 ;;
}
{ .mmi
  (p7) adds r18=0,r17
  nop.m 0
  nop.i 0 ;;
}
{ .mmi
  st1 [r15]=r18,1
  nop.m 0
  nop.i 0 ;;
}
// ld2.s at 0x100000+79
{ .mii
  adds r16=79,r14
  adds r18=0xee,r0
  nop.i 0 ;;
}
{ .mmi
  ld2.s r17=[r16]
  nop.m 0
  nop.i 0 ;;
}
{ .mii
  nop.m 0
  tnat.nz p6,p7=r17
  nop.i 0 ;;
}
{ .mmi
  (p7) adds r18=0,r17
  nop.m 0
  nop.i 0 ;;
}
{ .mmi
  st1 [r15]=r18,1
  nop.m 0
  nop.i 0 ;;
}
// ld2.s at 0x100000+79
{ .mii
  adds r16=79,r14
  adds r18=0xee,r0
  nop.i 0 ;;
}
{ .mmi
  ld2.s r17=[r16]
  nop.m 0
  nop.i 0 ;;
}
{ .mii
  nop.m 0
  tnat.nz p6,p7=r17
  nop.i 0 ;;
}
{ .mmi
  (p7) adds r18=0,r17
  nop.m 0
  nop.i 0 ;;
}
{ .mmi
  st1 [r15]=r18,1
  nop.m 0
  nop.i 0 ;;
}
// ld2.s at 0x100000+80
{ .mii
  adds r16=80,r14
  adds r18=0xee,r0
  nop.i 0 ;;
}
{ .mmi
  ld2.s r17=[r16]
  nop.m 0
  nop.i 0 ;;
}
{ .mii
  nop.m 0
  tnat.nz p6,p7=r17
  nop.i 0 ;;
}
{ .mmi
  (p7) adds r18=0,r17
  nop.m 0
  nop.i 0 ;;
}
{ .mmi
  st1 [r15]=r18,1
  nop.m 0
  nop.i 0 ;;
}
// ld4.s at 0x100000-4
{ .mii
  adds r16=-4,r14
  adds r18=0xee,r0
  nop.i 0 ;;
}
{ .mmi
  ld4.s r17=[r16]
  nop.m 0
  nop.i 0 ;;
}
{ .mii
  nop.m 0
  tnat.nz p6,p7=r17
  nop.i 0 ;;
}
{ .mmi
  (p7) adds r18=0,r17
  nop.m 0
  nop.i 0 ;;
}
{ .mmi
  st1 [r15]=r18,1
  nop.m 0
  nop.i 0 ;;
}
// ld4.s at 0x100000-1
{ .mii
  adds r16=-1,r14
  adds r18=0xee,r0
  nop.i 0 ;;
}
{ .mmi
  ld4.s r17=[r16]
  nop.m 0
  nop.i 0 ;;
}
{ .mii
  nop.m 0
  tnat.nz p6,p7=r17
  nop.i 0 ;;
}
{ .mmi
  (p7) adds r18=0,r17
  nop.m 0
  nop.i 0 ;;
}
{ .mmi
  st1 [r15]=r18,1
  nop.m 0
  nop.i 0 ;;
}
// ld4.s at 0x100000+0
{ .mii
  adds r16=0,r14
  adds r18=0xee,r0
  nop.i 0 ;;
}
{ .mmi
  ld4.s r17=[r16]
  nop.m 0
  nop.i 0 ;;
}
{ .mii
  nop.m 0
  tnat.nz p6,p7=r17
  nop.i 0 ;;
}
{ .mmi
  (p7) adds r18=0,r17
  nop.m 0
  nop.i 0 ;;
}
{ .mmi
  st1 [r15]=r18,1
  nop.m 0
  nop.i 0 ;;
}
// ld4.s at 0x100000+1
{ .mii
  adds r16=1,r14
  adds r18=0xee,r0
  nop.i 0 ;;
}
{ .mmi
  ld4.s r17=[r16]
  nop.m 0
  nop.i 0 ;;
}
{ .mii
  nop.m 0
  tnat.nz p6,p7=r17
  nop.i 0 ;;
}
{ .mmi
  (p7) adds r18=0,r17
  nop.m 0
  nop.i 0 ;;
}
{ .mmi
  st1 [r15]=r18,1
  nop.m 0
  nop.i 0 ;;
}
// ld4.s at 0x100000+4
{ .mii
  adds r16=4,r14
  adds r18=0xee,r0
  nop.i 0 ;;
}
{ .mmi
  ld4.s r17=[r16]
  nop.m 0
  nop.i 0 ;;
}
{ .mii
  nop.m 0
  tnat.nz p6,p7=r17
  nop.i 0 ;;
}
{ .mmi
  (p7) adds r18=0,r17
  nop.m 0
  nop.i 0 ;;
}
{ .mmi
  st1 [r15]=r18,1
  nop.m 0
  nop.i 0 ;;
}
// ld4.s at 0x100000+76
{ .mii
  adds r16=76,r14
  adds r18=0xee,r0
  nop.i 0 ;;
}
{ .mmi
  ld4.s r17=[r16]
  nop.m 0
  nop.i 0 ;;
}
{ .mii
  nop.m 0
  tnat.nz p6,p7=r17
  nop.i 0 ;;
}
{ .mmi
  (p7) adds r18=0,r17
  nop.m 0
  nop.i 0 ;;
}
{ .mmi
  st1 [r15]=r18,1
  nop.m 0
  nop.i 0 ;;
}
// ld4.s at 0x100000+77
{ .mii
  adds r16=77,r14
  adds r18=0xee,r0
  nop.i 0 ;;
}
{ .mmi
  ld4.s r17=[r16]
  nop.m 0
  nop.i 0 ;;
}
{ .mii
  nop.m 0
  tnat.nz p6,p7=r17
  nop.i 0 ;;
}
{ .mmi
  (p7) adds r18=0,r17
  nop.m 0
  nop.i 0 ;;
}
{ .mmi
  st1 [r15]=r18,1
  nop.m 0
  nop.i 0 ;;
}
// ld4.s at 0x100000+79
{ .mii
  adds r16=79,r14
  adds r18=0xee,r0
  nop.i 0 ;;
}
{ .mmi
  ld4.s r17=[r16]
  nop.m 0
  nop.i 0 ;;
}
{ .mii
  nop.m 0
  tnat.nz p6,p7=r17
  nop.i 0 ;;
}
{ .mmi
  (p7) adds r18=0,r17
  nop.m 0
  nop.i 0 ;;
}
{ .mmi
  st1 [r15]=r18,1
  nop.m 0
  nop.i 0 ;;
}
// ld4.s at 0x100000+80
{ .mii
  adds r16=80,r14
  adds r18=0xee,r0
  nop.i 0 ;;
}
{ .mmi
  ld4.s r17=[r16]
  nop.m 0
  nop.i 0 ;;
}
{ .mii
  nop.m 0
  tnat.nz p6,p7=r17
  nop.i 0 ;;
}
{ .mmi
  (p7) adds r18=0,r17
  nop.m 0
  nop.i 0 ;;
}
{ .mmi
  st1 [r15]=r18,1
  nop.m 0
  nop.i 0 ;;
}
// ld8.s at 0x100000-8
{ .mii
  adds r16=-8,r14
  adds r18=0xee,r0
  nop.i 0 ;;
}
{ .mmi
  ld8.s r17=[r16]
  nop.m 0
  nop.i 0 ;;
}
{ .mii
  nop.m 0
  tnat.nz p6,p7=r17
  nop.i 0 ;;
}
{ .mmi
  (p7) adds r18=0,r17
  nop.m 0
  nop.i 0 ;;
}
{ .mmi
  st1 [r15]=r18,1
  nop.m 0
  nop.i 0 ;;
}
// ld8.s at 0x100000-1
{ .mii
  adds r16=-1,r14
  adds r18=0xee,r0
  nop.i 0 ;;
}
{ .mmi
  ld8.s r17=[r16]
  nop.m 0
  nop.i 0 ;;
}
{ .mii
  nop.m 0
  tnat.nz p6,p7=r17
  nop.i 0 ;;
}
{ .mmi
  (p7) adds r18=0,r17
  nop.m 0
  nop.i 0 ;;
}
{ .mmi
  st1 [r15]=r18,1
  nop.m 0
  nop.i 0 ;;
}
// ld8.s at 0x100000+0
{ .mii
  adds r16=0,r14
  adds r18=0xee,r0
  nop.i 0 ;;
}
{ .mmi
  ld8.s r17=[r16]
  nop.m 0
  nop.i 0 ;;
}
{ .mii
  nop.m 0
  tnat.nz p6,p7=r17
  nop.i 0 ;;
}
{ .mmi
  (p7) adds r18=0,r17
  nop.m 0
  nop.i 0 ;;
}
{ .mmi
  st1 [r15]=r18,1
  nop.m 0
  nop.i 0 ;;
}
// ld8.s at 0x100000+1
{ .mii
  adds r16=1,r14
  adds r18=0xee,r0
  nop.i 0 ;;
}
{ .mmi
  ld8.s r17=[r16]
  nop.m 0
  nop.i 0 ;;
}
{ .mii
  nop.m 0
  tnat.nz p6,p7=r17
  nop.i 0 ;;
}
{ .mmi
  (p7) adds r18=0,r17
  nop.m 0
  nop.i 0 ;;
}
{ .mmi
  st1 [r15]=r18,1
  nop.m 0
  nop.i 0 ;;
}
// ld8.s at 0x100000+8
{ .mii
  adds r16=8,r14
  adds r18=0xee,r0
  nop.i 0 ;;
}
{ .mmi
  ld8.s r17=[r16]
  nop.m 0
  nop.i 0 ;;
}
{ .mii
  nop.m 0
  tnat.nz p6,p7=r17
  nop.i 0 ;;
}
{ .mmi
  (p7) adds r18=0,r17
  nop.m 0
  nop.i 0 ;;
}
{ .mmi
  st1 [r15]=r18,1
  nop.m 0
  nop.i 0 ;;
}
// ld8.s at 0x100000+72
{ .mii
  adds r16=72,r14
  adds r18=0xee,r0
  nop.i 0 ;;
}
{ .mmi
  ld8.s r17=[r16]
  nop.m 0
  nop.i 0 ;;
}
{ .mii
  nop.m 0
  tnat.nz p6,p7=r17
  nop.i 0 ;;
}
{ .mmi
  (p7) adds r18=0,r17
  nop.m 0
  nop.i 0 ;;
}
{ .mmi
  st1 [r15]=r18,1
  nop.m 0
  nop.i 0 ;;
}
// ld8.s at 0x100000+73
{ .mii
  adds r16=73,r14
  adds r18=0xee,r0
  nop.i 0 ;;
}
{ .mmi
  ld8.s r17=[r16]
  nop.m 0
  nop.i 0 ;;
}
{ .mii
  nop.m 0
  tnat.nz p6,p7=r17
  nop.i 0 ;;
}
{ .mmi
  (p7) adds r18=0,r17
  nop.m 0
  nop.i 0 ;;
}
{ .mmi
  st1 [r15]=r18,1
  nop.m 0
  nop.i 0 ;;
}
// ld8.s at 0x100000+79
{ .mii
  adds r16=79,r14
  adds r18=0xee,r0
  nop.i 0 ;;
}
{ .mmi
  ld8.s r17=[r16]
  nop.m 0
  nop.i 0 ;;
}
{ .mii
  nop.m 0
  tnat.nz p6,p7=r17
  nop.i 0 ;;
}
{ .mmi
  (p7) adds r18=0,r17
  nop.m 0
  nop.i 0 ;;
}
{ .mmi
  st1 [r15]=r18,1
  nop.m 0
  nop.i 0 ;;
}
// ld8.s at 0x100000+80
{ .mii
  adds r16=80,r14
  adds r18=0xee,r0
  nop.i 0 ;;
}
{ .mmi
  ld8.s r17=[r16]
  nop.m 0
  nop.i 0 ;;
}
{ .mii
  nop.m 0
  tnat.nz p6,p7=r17
  nop.i 0 ;;
}
{ .mmi
  (p7) adds r18=0,r17
  nop.m 0
  nop.i 0 ;;
}
{ .mmi
  st1 [r15]=r18,1
  nop.m 0
  nop.i 0 ;;
}
{ .mib
  nop.m 0
  nop.i 0
  break.b 0 ;;
}
.data
data8 0x0807060504030201,0x100f0e0d0c0b0a09
results:
.skip 64
