// run 10000, status 0: two rotations of a frame with 0, 8 .. 96 rotating registers. Of each, r32, r33, r34, r39,
// r40, r41 and r127 after what was written to r32, r39 and r127 before.
{ .mlx
  nop.m 0
  movl r14=results ;;
}
// 0 rotating registers
{ .mib
  nop.m 0
  nop.i 0
  clrrrb ;;
}
{ .mii
  alloc r20=ar.pfs,0,96,0,0
  nop.i 0
  nop.i 0 ;;
}
{ .mii
  adds r32=1,r0
  adds r127=100,r0
  mov.i ar.lc=2 ;;
}
{ .mib
  adds r39=50,r0
  nop.i 0
  br.ctop.sptk.few once0 ;;
}
once0:
{ .mib
  nop.m 0
  nop.i 0
  br.ctop.sptk.few twice0 ;;
}
twice0:
{ .mmi
  st8 [r14]=r32,8
  nop.m 0
  nop.i 0 ;;
}
{ .mmi
  st8 [r14]=r33,8
  nop.m 0
  nop.i 0 ;;
}
{ .mmi
  st8 [r14]=r34,8
  nop.m 0
  nop.i 0 ;;
}
{ .mmi
  st8 [r14]=r39,8
  nop.m 0
  nop.i 0 ;;
}
{ .mmi
  st8 [r14]=r40,8
  nop.m 0
  nop.i 0 ;;
}
{ .mmi
  st8 [r14]=r41,8
  nop.m 0
  nop.i 0 ;;
}
{ .mmi
  st8 [r14]=r127,8
  nop.m 0
  nop.i 0 ;;
}
// 8 rotating registers
{ .mib
  nop.m 0
  nop.i 0
  clrrrb ;;
}
{ .mii
  alloc r20=ar.pfs,0,96,0,8
  nop.i 0
  nop.i 0 ;;
}
{ .mii
  adds r32=2,r0
  adds r127=101,r0
  mov.i ar.lc=2 ;;
}
{ .mib
  adds r39=51,r0
  nop.i 0
  br.ctop.sptk.few once1 ;;
}
once1:
{ .mib
  nop.m 0
  nop.i 0
  br.ctop.sptk.few twice1 ;;
}
twice1:
{ .mmi
  st8 [r14]=r32,8
  nop.m 0
  nop.i 0 ;;
}
{ .mmi
  st8 [r14]=r33,8
  nop.m 0
  nop.i 0 ;;
}
{ .mmi
  st8 [r14]=r34,8
  nop.m 0
  nop.i 0 ;;
}
{ .mmi
  st8 [r14]=r39,8
  nop.m 0
  nop.i 0 ;;
}
{ .mmi
  st8 [r14]=r40,8
  nop.m 0
  nop.i 0 ;;
}
{ .mmi
  st8 [r14]=r41,8
  nop.m 0
  nop.i 0 ;;
}
{ .mmi
  st8 [r14]=r127,8
  nop.m 0
  nop.i 0 ;;
}
// 16 rotating registers
{ .mib
  nop.m 0
  nop.i 0
  clrrrb ;;
}
{ .mii
  alloc r20=ar.pfs,0,96,0,16
  nop.i 0
  nop.i 0 ;;
}
{ .mii
  adds r32=3,r0
  adds r127=102,r0
  mov.i ar.lc=2 ;;
}
{ .mib
  adds r39=52,r0
  nop.i 0
  br.ctop.sptk.few once2 ;;
}
once2:
{ .mib
  nop.m 0
  nop.i 0
  br.ctop.sptk.few twice2 ;;
}
twice2:
{ .mmi
  st8 [r14]=r32,8
  nop.m 0
  nop.i 0 ;;
}
{ .mmi
  st8 [r14]=r33,8
  nop.m 0
  nop.i 0 ;;
}
{ .mmi
  st8 [r14]=r34,8
  nop.m 0
  nop.i 0 ;;
}
{ .mmi
  st8 [r14]=r39,8
  nop.m 0
  nop.i 0 ;;
}
{ .mmi
  st8 [r14]=r40,8
  nop.m 0
  nop.i 0 ;;
}
{ .mmi
  st8 [r14]=r41,8
  nop.m 0
  nop.i 0 ;;
}
{ .mmi
  st8 [r14]=r127,8
  nop.m 0
  nop.i 0 ;;
}
// 24 rotating registers
{ .mib
  nop.m 0
  nop.i 0
  clrrrb ;;
}
{ .mii
  alloc r20=ar.pfs,0,96,0,24
  nop.i 0
  nop.i 0 ;;
}
{ .mii
  adds r32=4,r0
  adds r127=103,r0
  mov.i ar.lc=2 ;;
}
{ .mib
  adds r39=53,r0
  nop.i 0
  br.ctop.sptk.few once3 ;;
}
once3:
{ .mib
  nop.m 0
  nop.i 0
  br.ctop.sptk.few twice3 ;;
}
twice3:
{ .mmi
  st8 [r14]=r32,8
  nop.m 0
  nop.i 0 ;;
}
{ .mmi
  st8 [r14]=r33,8
  nop.m 0
  nop.i 0 ;;
}
{ .mmi
  st8 [r14]=r34,8
  nop.m 0
  nop.i 0 ;;
}
{ .mmi
  st8 [r14]=r39,8
  nop.m 0
  nop.i 0 ;;
}
{ .mmi
  st8 [r14]=r40,8
  nop.m 0
  nop.i 0 ;;
}
{ .mmi
  st8 [r14]=r41,8
  nop.m 0
  nop.i 0 ;;
}
{ .mmi
  st8 [r14]=r127,8
  nop.m 0
  nop.i 0 ;;
}
// 32 rotating registers
{ .mib
  nop.m 0
  nop.i 0
  clrrrb ;;
}
{ .mii
  alloc r20=ar.pfs,0,96,0,32
  nop.i 0
  nop.i 0 ;;
}
{ .mii
  adds r32=5,r0
  adds r127=104,r0
  mov.i ar.lc=2 ;;
}
{ .mib
  adds r39=54,r0
  nop.i 0
  br.ctop.sptk.few once4 ;;
}
once4:
{ .mib
  nop.m 0
  nop.i 0
  br.ctop.sptk.few twice4 ;;
}
twice4:
{ .mmi
  st8 [r14]=r32,8
  nop.m 0
  nop.i 0 ;;
}
{ .mmi
  st8 [r14]=r33,8
  nop.m 0
  nop.i 0 ;;
}
{ .mmi
  st8 [r14]=r34,8
  nop.m 0
  nop.i 0 ;;
}
{ .mmi
  st8 [r14]=r39,8
  nop.m 0
  nop.i 0 ;;
}
{ .mmi
  st8 [r14]=r40,8
  nop.m 0
  nop.i 0 ;;
}
{ .mmi
  st8 [r14]=r41,8
  nop.m 0
  nop.i 0 ;;
}
{ .mmi
  st8 [r14]=r127,8
  nop.m 0
  nop.i 0 ;;
}
// 40 rotating registers
{ .mib
  nop.m 0
  nop.i 0
  clrrrb ;;
}
{ .mii
  alloc r20=ar.pfs,0,96,0,40
  nop.i 0
  nop.i 0 ;;
}
{ .mii
  adds r32=6,r0
  adds r127=105,r0
  mov.i ar.lc=2 ;;
}
{ .mib
  adds r39=55,r0
  nop.i 0
  br.ctop.sptk.few once5 ;;
}
once5:
{ .mib
  nop.m 0
  nop.i 0
  br.ctop.sptk.few twice5 ;;
}
twice5:
{ .mmi
  st8 [r14]=r32,8
  nop.m 0
  nop.i 0 ;;
}
{ .mmi
  st8 [r14]=r33,8
  nop.m 0
  nop.i 0 ;;
}
{ .mmi
  st8 [r14]=r34,8
  nop.m 0
  nop.i 0 ;;
}
{ .mmi
  st8 [r14]=r39,8
  nop.m 0
  nop.i 0 ;;
}
{ .mmi
  st8 [r14]=r40,8
  nop.m 0
  nop.i 0 ;;
}
{ .mmi
  st8 [r14]=r41,8
  nop.m 0
  nop.i 0 ;;
}
{ .mmi
  st8 [r14]=r127,8
  nop.m 0
  nop.i 0 ;;
}
// 48 rotating registers
{ .mib
  nop.m 0
  nop.i 0
  clrrrb ;;
}
{ .mii
  alloc r20=ar.pfs,0,96,0,48
  nop.i 0
  nop.i 0 ;;
}
{ .mii
  adds r32=7,r0
  adds r127=106,r0
  mov.i ar.lc=2 ;;
}
{ .mib
  adds r39=56,r0
  nop.i 0
  br.ctop.sptk.few once6 ;;
}
once6:
{ .mib
  nop.m 0
  nop.i 0
  br.ctop.sptk.few twice6 ;;
}
twice6:
{ .mmi
  st8 [r14]=r32,8
  nop.m 0
  nop.i 0 ;;
}
{ .mmi
  st8 [r14]=r33,8
  nop.m 0
  nop.i 0 ;;
}
{ .mmi
  st8 [r14]=r34,8
  nop.m 0
  nop.i 0 ;;
}
{ .mmi
  st8 [r14]=r39,8
  nop.m 0
  nop.i 0 ;;
}
{ .mmi
  st8 [r14]=r40,8
  nop.m 0
  nop.i 0 ;;
}
{ .mmi
  st8 [r14]=r41,8
  nop.m 0
  nop.i 0 ;;
}
{ .mmi
  st8 [r14]=r127,8
  nop.m 0
  nop.i 0 ;;
}
// 56 rotating registers
{ .mib
  nop.m 0
  nop.i 0
  clrrrb ;;
}
{ .mii
  alloc r20=ar.pfs,0,96,0,56
  nop.i 0
  nop.i 0 ;;
}
{ .mii
  adds r32=8,r0
  adds r127=107,r0
  mov.i ar.lc=2 ;;
}
{ .mib
  adds r39=57,r0
  nop.i 0
  br.ctop.sptk.few once7 ;;
}
once7:
{ .mib
  nop.m 0
  nop.i 0
  br.ctop.sptk.few twice7 ;;
}
twice7:
{ .mmi
  st8 [r14]=r32,8
  nop.m 0
  nop.i 0 ;;
}
{ .mmi
  st8 [r14]=r33,8
  nop.m 0
  nop.i 0 ;;
}
{ .mmi
  st8 [r14]=r34,8
  nop.m 0
  nop.i 0 ;;
}
{ .mmi
  st8 [r14]=r39,8
  nop.m 0
  nop.i 0 ;;
}
{ .mmi
  st8 [r14]=r40,8
  nop.m 0
  nop.i 0 ;;
}
{ .mmi
  st8 [r14]=r41,8
  nop.m 0
  nop.i 0 ;;
}
{ .mmi
  st8 [r14]=r127,8
  nop.m 0
  nop.i 0 ;;
}
// 64 rotating registers
{ .mib
  nop.m 0
  nop.i 0
  clrrrb ;;
}
{ .mii
  alloc r20=ar.pfs,0,96,0,64
  nop.i 0
  nop.i 0 ;;
}
{ .mii
  adds r32=9,r0
  adds r127=108,r0
  mov.i ar.lc=2 ;;
}
{ .mib
  adds r39=58,r0
  nop.i 0
  br.ctop.sptk.few once8 ;;
}
once8:
{ .mib
  nop.m 0
  nop.i 0
  br.ctop.sptk.few twice8 ;;
}
twice8:
{ .mmi
  st8 [r14]=r32,8
  nop.m 0
  nop.i 0 ;;
}
{ .mmi
  st8 [r14]=r33,8
  nop.m 0
  nop.i 0 ;;
}
{ .mmi
  st8 [r14]=r34,8
  nop.m 0
  nop.i 0 ;;
}
{ .mmi
  st8 [r14]=r39,8
  nop.m 0
  nop.i 0 ;;
}
{ .mmi
  st8 [r14]=r40,8
  nop.m 0
  nop.i 0 ;;
}
{ .mmi
  st8 [r14]=r41,8
  nop.m 0
  nop.i 0 ;;
}
{ .mmi
  st8 [r14]=r127,8
  nop.m 0
  nop.i 0 ;;
}
// 72 rotating registers
{ .mib
  nop.m 0
  nop.i 0
  clrrrb ;;
}
{ .mii
  alloc r20=ar.pfs,0,96,0,72
  nop.i 0
  nop.i 0 ;;
}
{ .mii
  adds r32=10,r0
  adds r127=109,r0
  mov.i ar.lc=2 ;;
}
{ .mib
  adds r39=59,r0
  nop.i 0
  br.ctop.sptk.few once9 ;;
}
once9:
{ .mib
  nop.m 0
  nop.i 0
  br.ctop.sptk.few twice9 ;;
}
twice9:
{ .mmi
  st8 [r14]=r32,8
  nop.m 0
  nop.i 0 ;;
}
{ .mmi
  st8 [r14]=r33,8
  nop.m 0
  nop.i 0 ;;
}
{ .mmi
  st8 [r14]=r34,8
  nop.m 0
  nop.i 0 ;;
}
{ .mmi
  st8 [r14]=r39,8
  nop.m 0
  nop.i 0 ;;
}
{ .mmi
  st8 [r14]=r40,8
  nop.m 0
  nop.i 0 ;;
}
{ .mmi
  st8 [r14]=r41,8
  nop.m 0
  nop.i 0 ;;
}
{ .mmi
  st8 [r14]=r127,8
  nop.m 0
  nop.i 0 ;;
}
// 80 rotating registers
{ .mib
  nop.m 0
  nop.i 0
  clrrrb ;;
}
{ .mii
  alloc r20=ar.pfs,0,96,0,80
  nop.i 0
  nop.i 0 ;;
}
{ .mii
  adds r32=11,r0
  adds r127=110,r0
  mov.i ar.lc=2 ;;
}
{ .mib
  adds r39=60,r0
  nop.i 0
  br.ctop.sptk.few once10 ;;
}
once10:
{ .mib
  nop.m 0
  nop.i 0
  br.ctop.sptk.few twice10 ;;
}
twice10:
{ .mmi
  st8 [r14]=r32,8
  nop.m 0
  nop.i 0 ;;
}
{ .mmi
  st8 [r14]=r33,8
  nop.m 0
  nop.i 0 ;;
}
{ .mmi
  st8 [r14]=r34,8
  nop.m 0
  nop.i 0 ;;
}
{ .mmi
  st8 [r14]=r39,8
  nop.m 0
  nop.i 0 ;;
}
{ .mmi
  st8 [r14]=r40,8
  nop.m 0
  nop.i 0 ;;
}
{ .mmi
  st8 [r14]=r41,8
  nop.m 0
  nop.i 0 ;;
}
{ .mmi
  st8 [r14]=r127,8
  nop.m 0
  nop.i 0 ;;
}
// 88 rotating registers
{ .mib
  nop.m 0
  nop.i 0
  clrrrb ;;
}
{ .mii
  alloc r20=ar.pfs,0,96,0,88
  nop.i 0
  nop.i 0 ;;
}
{ .mii
  adds r32=12,r0
  adds r127=111,r0
  mov.i ar.lc=2 ;;
}
{ .mib
  adds r39=61,r0
  nop.i 0
  br.ctop.sptk.few once11 ;;
}
once11:
{ .mib
  nop.m 0
  nop.i 0
  br.ctop.sptk.few twice11 ;;
}
twice11:
{ .mmi
  st8 [r14]=r32,8
  nop.m 0
  nop.i 0 ;;
}
{ .mmi
  st8 [r14]=r33,8
  nop.m 0
  nop.i 0 ;;
}
{ .mmi
  st8 [r14]=r34,8
  nop.m 0
  nop.i 0 ;;
}
{ .mmi
  st8 [r14]=r39,8
  nop.m 0
  nop.i 0 ;;
}
{ .mmi
  st8 [r14]=r40,8
  nop.m 0
  nop.i 0 ;;
}
{ .mmi
  st8 [r14]=r41,8
  nop.m 0
  nop.i 0 ;;
}
{ .mmi
  st8 [r14]=r127,8
  nop.m 0
  nop.i 0 ;;
}
// 96 rotating registers
{ .mib
  nop.m 0
  nop.i 0
  clrrrb ;;
}
{ .mii
  alloc r20=ar.pfs,0,96,0,96
  nop.i 0
  nop.i 0 ;;
}
{ .mii
  adds r32=13,r0
  adds r127=112,r0
  mov.i ar.lc=2 ;;
}
{ .mib
  adds r39=62,r0
  nop.i 0
  br.ctop.sptk.few once12 ;;
}
once12:
{ .mib
  nop.m 0
  nop.i 0
  br.ctop.sptk.few twice12 ;;
}
twice12:
{ .mmi
  st8 [r14]=r32,8
  nop.m 0
  nop.i 0 ;;
}
{ .mmi
  st8 [r14]=r33,8
  nop.m 0
  nop.i 0 ;;
}
{ .mmi
  st8 [r14]=r34,8
  nop.m 0
  nop.i 0 ;;
}
{ .mmi
  st8 [r14]=r39,8
  nop.m 0
  nop.i 0 ;;
}
{ .mmi
  st8 [r14]=r40,8
  nop.m 0
  nop.i 0 ;;
}
{ .mmi
  st8 [r14]=r41,8
  nop.m 0
  nop.i 0 ;;
}
{ .mmi
  st8 [r14]=r127,8
  nop.m 0
  nop.i 0 ;;
}
{ .mib
  nop.m 0
  nop.i 0
  break.b 0 ;;
}
.data
results:
.skip 728
