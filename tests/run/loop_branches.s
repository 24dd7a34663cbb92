// run 10000, status 0: each loop branch at each state of LC, EC and its predicate. Of each, three words:
// the predicates by place; 1 where it was taken or 2 where not, with LC in bits 11:8 and EC from bit 12 on; and r33, which
// is r32 of before where the registers rotated.
{ .mlx
  alloc r32=ar.pfs,0,16,0,8
  movl r14=results ;;
}
// br.cloop with LC 2, EC 3
{ .mib
  adds r16=2,r0
  mov pr.rot=0
  clrrrb ;;
}
{ .mii
  nop.m 0
  mov.i ar.lc=2
  mov.i ar.ec=3 ;;
}
{ .mib
  adds r32=1,r0
  nop.i 0
  br.cloop.sptk.few taken0 ;;
}
{ .mib
  nop.m 0
  nop.i 0
  br.cond.sptk.few stored0 ;;
}
taken0:
{ .mii
  adds r16=1,r0
  nop.i 0
  nop.i 0 ;;
}
stored0:
{ .mii
  nop.m 0
  mov.i r17=ar.lc
  mov.i r18=ar.ec ;;
}
{ .mii
  shladd r17=r18,4,r17
  mov r19=pr
  nop.i 0 ;;
}
{ .mii
  st8 [r14]=r19,8
  dep r16=r17,r16,8,16
  nop.i 0 ;;
}
{ .mmi
  st8 [r14]=r16,8
  nop.m 0
  nop.i 0 ;;
}
{ .mmi
  st8 [r14]=r33,8
  nop.m 0
  nop.i 0 ;;
}
// br.cloop with LC 0, EC 3
{ .mib
  adds r16=2,r0
  mov pr.rot=0
  clrrrb ;;
}
{ .mii
  nop.m 0
  mov.i ar.lc=0
  mov.i ar.ec=3 ;;
}
{ .mib
  adds r32=2,r0
  nop.i 0
  br.cloop.sptk.few taken1 ;;
}
{ .mib
  nop.m 0
  nop.i 0
  br.cond.sptk.few stored1 ;;
}
taken1:
{ .mii
  adds r16=1,r0
  nop.i 0
  nop.i 0 ;;
}
stored1:
{ .mii
  nop.m 0
  mov.i r17=ar.lc
  mov.i r18=ar.ec ;;
}
{ .mii
  shladd r17=r18,4,r17
  mov r19=pr
  nop.i 0 ;;
}
{ .mii
  st8 [r14]=r19,8
  dep r16=r17,r16,8,16
  nop.i 0 ;;
}
{ .mmi
  st8 [r14]=r16,8
  nop.m 0
  nop.i 0 ;;
}
{ .mmi
  st8 [r14]=r33,8
  nop.m 0
  nop.i 0 ;;
}
// br.cloop with LC 0, EC 1
{ .mib
  adds r16=2,r0
  mov pr.rot=0
  clrrrb ;;
}
{ .mii
  nop.m 0
  mov.i ar.lc=0
  mov.i ar.ec=1 ;;
}
{ .mib
  adds r32=3,r0
  nop.i 0
  br.cloop.sptk.few taken2 ;;
}
{ .mib
  nop.m 0
  nop.i 0
  br.cond.sptk.few stored2 ;;
}
taken2:
{ .mii
  adds r16=1,r0
  nop.i 0
  nop.i 0 ;;
}
stored2:
{ .mii
  nop.m 0
  mov.i r17=ar.lc
  mov.i r18=ar.ec ;;
}
{ .mii
  shladd r17=r18,4,r17
  mov r19=pr
  nop.i 0 ;;
}
{ .mii
  st8 [r14]=r19,8
  dep r16=r17,r16,8,16
  nop.i 0 ;;
}
{ .mmi
  st8 [r14]=r16,8
  nop.m 0
  nop.i 0 ;;
}
{ .mmi
  st8 [r14]=r33,8
  nop.m 0
  nop.i 0 ;;
}
// br.cloop with LC 0, EC 0
{ .mib
  adds r16=2,r0
  mov pr.rot=0
  clrrrb ;;
}
{ .mii
  nop.m 0
  mov.i ar.lc=0
  mov.i ar.ec=0 ;;
}
{ .mib
  adds r32=4,r0
  nop.i 0
  br.cloop.sptk.few taken3 ;;
}
{ .mib
  nop.m 0
  nop.i 0
  br.cond.sptk.few stored3 ;;
}
taken3:
{ .mii
  adds r16=1,r0
  nop.i 0
  nop.i 0 ;;
}
stored3:
{ .mii
  nop.m 0
  mov.i r17=ar.lc
  mov.i r18=ar.ec ;;
}
{ .mii
  shladd r17=r18,4,r17
  mov r19=pr
  nop.i 0 ;;
}
{ .mii
  st8 [r14]=r19,8
  dep r16=r17,r16,8,16
  nop.i 0 ;;
}
{ .mmi
  st8 [r14]=r16,8
  nop.m 0
  nop.i 0 ;;
}
{ .mmi
  st8 [r14]=r33,8
  nop.m 0
  nop.i 0 ;;
}
// br.ctop with LC 2, EC 3
{ .mib
  adds r16=2,r0
  mov pr.rot=0
  clrrrb ;;
}
{ .mii
  nop.m 0
  mov.i ar.lc=2
  mov.i ar.ec=3 ;;
}
{ .mib
  adds r32=5,r0
  nop.i 0
  br.ctop.sptk.few taken4 ;;
}
{ .mib
  nop.m 0
  nop.i 0
  br.cond.sptk.few stored4 ;;
}
taken4:
{ .mii
  adds r16=1,r0
  nop.i 0
  nop.i 0 ;;
}
stored4:
{ .mii
  nop.m 0
  mov.i r17=ar.lc
  mov.i r18=ar.ec ;;
}
{ .mii
  shladd r17=r18,4,r17
  mov r19=pr
  nop.i 0 ;;
}
{ .mii
  st8 [r14]=r19,8
  dep r16=r17,r16,8,16
  nop.i 0 ;;
}
{ .mmi
  st8 [r14]=r16,8
  nop.m 0
  nop.i 0 ;;
}
{ .mmi
  st8 [r14]=r33,8
  nop.m 0
  nop.i 0 ;;
}
// br.ctop with LC 0, EC 3
{ .mib
  adds r16=2,r0
  mov pr.rot=0
  clrrrb ;;
}
{ .mii
  nop.m 0
  mov.i ar.lc=0
  mov.i ar.ec=3 ;;
}
{ .mib
  adds r32=6,r0
  nop.i 0
  br.ctop.sptk.few taken5 ;;
}
{ .mib
  nop.m 0
  nop.i 0
  br.cond.sptk.few stored5 ;;
}
taken5:
{ .mii
  adds r16=1,r0
  nop.i 0
  nop.i 0 ;;
}
stored5:
{ .mii
  nop.m 0
  mov.i r17=ar.lc
  mov.i r18=ar.ec ;;
}
{ .mii
  shladd r17=r18,4,r17
  mov r19=pr
  nop.i 0 ;;
}
{ .mii
  st8 [r14]=r19,8
  dep r16=r17,r16,8,16
  nop.i 0 ;;
}
{ .mmi
  st8 [r14]=r16,8
  nop.m 0
  nop.i 0 ;;
}
{ .mmi
  st8 [r14]=r33,8
  nop.m 0
  nop.i 0 ;;
}
// br.ctop with LC 0, EC 1
{ .mib
  adds r16=2,r0
  mov pr.rot=0
  clrrrb ;;
}
{ .mii
  nop.m 0
  mov.i ar.lc=0
  mov.i ar.ec=1 ;;
}
{ .mib
  adds r32=7,r0
  nop.i 0
  br.ctop.sptk.few taken6 ;;
}
{ .mib
  nop.m 0
  nop.i 0
  br.cond.sptk.few stored6 ;;
}
taken6:
{ .mii
  adds r16=1,r0
  nop.i 0
  nop.i 0 ;;
}
stored6:
{ .mii
  nop.m 0
  mov.i r17=ar.lc
  mov.i r18=ar.ec ;;
}
{ .mii
  shladd r17=r18,4,r17
  mov r19=pr
  nop.i 0 ;;
}
{ .mii
  st8 [r14]=r19,8
  dep r16=r17,r16,8,16
  nop.i 0 ;;
}
{ .mmi
  st8 [r14]=r16,8
  nop.m 0
  nop.i 0 ;;
}
{ .mmi
  st8 [r14]=r33,8
  nop.m 0
  nop.i 0 ;;
}
// br.ctop with LC 0, EC 0
{ .mib
  adds r16=2,r0
  mov pr.rot=0
  clrrrb ;;
}
{ .mii
  nop.m 0
  mov.i ar.lc=0
  mov.i ar.ec=0 ;;
}
{ .mib
  adds r32=8,r0
  nop.i 0
  br.ctop.sptk.few taken7 ;;
}
{ .mib
  nop.m 0
  nop.i 0
  br.cond.sptk.few stored7 ;;
}
taken7:
{ .mii
  adds r16=1,r0
  nop.i 0
  nop.i 0 ;;
}
stored7:
{ .mii
  nop.m 0
  mov.i r17=ar.lc
  mov.i r18=ar.ec ;;
}
{ .mii
  shladd r17=r18,4,r17
  mov r19=pr
  nop.i 0 ;;
}
{ .mii
  st8 [r14]=r19,8
  dep r16=r17,r16,8,16
  nop.i 0 ;;
}
{ .mmi
  st8 [r14]=r16,8
  nop.m 0
  nop.i 0 ;;
}
{ .mmi
  st8 [r14]=r33,8
  nop.m 0
  nop.i 0 ;;
}
// br.cexit with LC 2, EC 3
{ .mib
  adds r16=2,r0
  mov pr.rot=0
  clrrrb ;;
}
{ .mii
  nop.m 0
  mov.i ar.lc=2
  mov.i ar.ec=3 ;;
}
{ .mib
  adds r32=9,r0
  nop.i 0
  br.cexit.sptk.few taken8 ;;
}
{ .mib
  nop.m 0
  nop.i 0
  br.cond.sptk.few stored8 ;;
}
taken8:
{ .mii
  adds r16=1,r0
  nop.i 0
  nop.i 0 ;;
}
stored8:
{ .mii
  nop.m 0
  mov.i r17=ar.lc
  mov.i r18=ar.ec ;;
}
{ .mii
  shladd r17=r18,4,r17
  mov r19=pr
  nop.i 0 ;;
}
{ .mii
  st8 [r14]=r19,8
  dep r16=r17,r16,8,16
  nop.i 0 ;;
}
{ .mmi
  st8 [r14]=r16,8
  nop.m 0
  nop.i 0 ;;
}
{ .mmi
  st8 [r14]=r33,8
  nop.m 0
  nop.i 0 ;;
}
// br.cexit with LC 0, EC 3
{ .mib
  adds r16=2,r0
  mov pr.rot=0
  clrrrb ;;
}
{ .mii
  nop.m 0
  mov.i ar.lc=0
  mov.i ar.ec=3 ;;
}
{ .mib
  adds r32=10,r0
  nop.i 0
  br.cexit.sptk.few taken9 ;;
}
{ .mib
  nop.m 0
  nop.i 0
  br.cond.sptk.few stored9 ;;
}
taken9:
{ .mii
  adds r16=1,r0
  nop.i 0
  nop.i 0 ;;
}
stored9:
{ .mii
  nop.m 0
  mov.i r17=ar.lc
  mov.i r18=ar.ec ;;
}
{ .mii
  shladd r17=r18,4,r17
  mov r19=pr
  nop.i 0 ;;
}
{ .mii
  st8 [r14]=r19,8
  dep r16=r17,r16,8,16
  nop.i 0 ;;
}
{ .mmi
  st8 [r14]=r16,8
  nop.m 0
  nop.i 0 ;;
}
{ .mmi
  st8 [r14]=r33,8
  nop.m 0
  nop.i 0 ;;
}
// br.cexit with LC 0, EC 1
{ .mib
  adds r16=2,r0
  mov pr.rot=0
  clrrrb ;;
}
{ .mii
  nop.m 0
  mov.i ar.lc=0
  mov.i ar.ec=1 ;;
}
{ .mib
  adds r32=11,r0
  nop.i 0
  br.cexit.sptk.few taken10 ;;
}
{ .mib
  nop.m 0
  nop.i 0
  br.cond.sptk.few stored10 ;;
}
taken10:
{ .mii
  adds r16=1,r0
  nop.i 0
  nop.i 0 ;;
}
stored10:
{ .mii
  nop.m 0
  mov.i r17=ar.lc
  mov.i r18=ar.ec ;;
}
{ .mii
  shladd r17=r18,4,r17
  mov r19=pr
  nop.i 0 ;;
}
{ .mii
  st8 [r14]=r19,8
  dep r16=r17,r16,8,16
  nop.i 0 ;;
}
{ .mmi
  st8 [r14]=r16,8
  nop.m 0
  nop.i 0 ;;
}
{ .mmi
  st8 [r14]=r33,8
  nop.m 0
  nop.i 0 ;;
}
// br.cexit with LC 0, EC 0
{ .mib
  adds r16=2,r0
  mov pr.rot=0
  clrrrb ;;
}
{ .mii
  nop.m 0
  mov.i ar.lc=0
  mov.i ar.ec=0 ;;
}
{ .mib
  adds r32=12,r0
  nop.i 0
  br.cexit.sptk.few taken11 ;;
}
{ .mib
  nop.m 0
  nop.i 0
  br.cond.sptk.few stored11 ;;
}
taken11:
{ .mii
  adds r16=1,r0
  nop.i 0
  nop.i 0 ;;
}
stored11:
{ .mii
  nop.m 0
  mov.i r17=ar.lc
  mov.i r18=ar.ec ;;
}
{ .mii
  shladd r17=r18,4,r17
  mov r19=pr
  nop.i 0 ;;
}
{ .mii
  st8 [r14]=r19,8
  dep r16=r17,r16,8,16
  nop.i 0 ;;
}
{ .mmi
  st8 [r14]=r16,8
  nop.m 0
  nop.i 0 ;;
}
{ .mmi
  st8 [r14]=r33,8
  nop.m 0
  nop.i 0 ;;
}
// br.wtop with LC 2, EC 3, p17 0
{ .mib
  adds r16=2,r0
  mov pr.rot=0
  clrrrb ;;
}
{ .mii
  nop.m 0
  mov.i ar.lc=2
  mov.i ar.ec=3 ;;
}
{ .mib
  adds r32=13,r0
  nop.i 0
  (p17) br.wtop.sptk.few taken12 ;;
}
{ .mib
  nop.m 0
  nop.i 0
  br.cond.sptk.few stored12 ;;
}
taken12:
{ .mii
  adds r16=1,r0
  nop.i 0
  nop.i 0 ;;
}
stored12:
{ .mii
  nop.m 0
  mov.i r17=ar.lc
  mov.i r18=ar.ec ;;
}
{ .mii
  shladd r17=r18,4,r17
  mov r19=pr
  nop.i 0 ;;
}
{ .mii
  st8 [r14]=r19,8
  dep r16=r17,r16,8,16
  nop.i 0 ;;
}
{ .mmi
  st8 [r14]=r16,8
  nop.m 0
  nop.i 0 ;;
}
{ .mmi
  st8 [r14]=r33,8
  nop.m 0
  nop.i 0 ;;
}
// br.wtop with LC 0, EC 3, p17 0
{ .mib
  adds r16=2,r0
  mov pr.rot=0
  clrrrb ;;
}
{ .mii
  nop.m 0
  mov.i ar.lc=0
  mov.i ar.ec=3 ;;
}
{ .mib
  adds r32=14,r0
  nop.i 0
  (p17) br.wtop.sptk.few taken13 ;;
}
{ .mib
  nop.m 0
  nop.i 0
  br.cond.sptk.few stored13 ;;
}
taken13:
{ .mii
  adds r16=1,r0
  nop.i 0
  nop.i 0 ;;
}
stored13:
{ .mii
  nop.m 0
  mov.i r17=ar.lc
  mov.i r18=ar.ec ;;
}
{ .mii
  shladd r17=r18,4,r17
  mov r19=pr
  nop.i 0 ;;
}
{ .mii
  st8 [r14]=r19,8
  dep r16=r17,r16,8,16
  nop.i 0 ;;
}
{ .mmi
  st8 [r14]=r16,8
  nop.m 0
  nop.i 0 ;;
}
{ .mmi
  st8 [r14]=r33,8
  nop.m 0
  nop.i 0 ;;
}
// br.wtop with LC 0, EC 1, p17 0
{ .mib
  adds r16=2,r0
  mov pr.rot=0
  clrrrb ;;
}
{ .mii
  nop.m 0
  mov.i ar.lc=0
  mov.i ar.ec=1 ;;
}
{ .mib
  adds r32=15,r0
  nop.i 0
  (p17) br.wtop.sptk.few taken14 ;;
}
{ .mib
  nop.m 0
  nop.i 0
  br.cond.sptk.few stored14 ;;
}
taken14:
{ .mii
  adds r16=1,r0
  nop.i 0
  nop.i 0 ;;
}
stored14:
{ .mii
  nop.m 0
  mov.i r17=ar.lc
  mov.i r18=ar.ec ;;
}
{ .mii
  shladd r17=r18,4,r17
  mov r19=pr
  nop.i 0 ;;
}
{ .mii
  st8 [r14]=r19,8
  dep r16=r17,r16,8,16
  nop.i 0 ;;
}
{ .mmi
  st8 [r14]=r16,8
  nop.m 0
  nop.i 0 ;;
}
{ .mmi
  st8 [r14]=r33,8
  nop.m 0
  nop.i 0 ;;
}
// br.wtop with LC 0, EC 0, p17 0
{ .mib
  adds r16=2,r0
  mov pr.rot=0
  clrrrb ;;
}
{ .mii
  nop.m 0
  mov.i ar.lc=0
  mov.i ar.ec=0 ;;
}
{ .mib
  adds r32=16,r0
  nop.i 0
  (p17) br.wtop.sptk.few taken15 ;;
}
{ .mib
  nop.m 0
  nop.i 0
  br.cond.sptk.few stored15 ;;
}
taken15:
{ .mii
  adds r16=1,r0
  nop.i 0
  nop.i 0 ;;
}
stored15:
{ .mii
  nop.m 0
  mov.i r17=ar.lc
  mov.i r18=ar.ec ;;
}
{ .mii
  shladd r17=r18,4,r17
  mov r19=pr
  nop.i 0 ;;
}
{ .mii
  st8 [r14]=r19,8
  dep r16=r17,r16,8,16
  nop.i 0 ;;
}
{ .mmi
  st8 [r14]=r16,8
  nop.m 0
  nop.i 0 ;;
}
{ .mmi
  st8 [r14]=r33,8
  nop.m 0
  nop.i 0 ;;
}
// br.wtop with LC 2, EC 3, p17 1
{ .mib
  adds r16=2,r0
  mov pr.rot=131072
  clrrrb ;;
}
{ .mii
  nop.m 0
  mov.i ar.lc=2
  mov.i ar.ec=3 ;;
}
{ .mib
  adds r32=17,r0
  nop.i 0
  (p17) br.wtop.sptk.few taken16 ;;
}
{ .mib
  nop.m 0
  nop.i 0
  br.cond.sptk.few stored16 ;;
}
taken16:
{ .mii
  adds r16=1,r0
  nop.i 0
  nop.i 0 ;;
}
stored16:
{ .mii
  nop.m 0
  mov.i r17=ar.lc
  mov.i r18=ar.ec ;;
}
{ .mii
  shladd r17=r18,4,r17
  mov r19=pr
  nop.i 0 ;;
}
{ .mii
  st8 [r14]=r19,8
  dep r16=r17,r16,8,16
  nop.i 0 ;;
}
{ .mmi
  st8 [r14]=r16,8
  nop.m 0
  nop.i 0 ;;
}
{ .mmi
  st8 [r14]=r33,8
  nop.m 0
  nop.i 0 ;;
}
// br.wtop with LC 0, EC 3, p17 1
{ .mib
  adds r16=2,r0
  mov pr.rot=131072
  clrrrb ;;
}
{ .mii
  nop.m 0
  mov.i ar.lc=0
  mov.i ar.ec=3 ;;
}
{ .mib
  adds r32=18,r0
  nop.i 0
  (p17) br.wtop.sptk.few taken17 ;;
}
{ .mib
  nop.m 0
  nop.i 0
  br.cond.sptk.few stored17 ;;
}
taken17:
{ .mii
  adds r16=1,r0
  nop.i 0
  nop.i 0 ;;
}
stored17:
{ .mii
  nop.m 0
  mov.i r17=ar.lc
  mov.i r18=ar.ec ;;
}
{ .mii
  shladd r17=r18,4,r17
  mov r19=pr
  nop.i 0 ;;
}
{ .mii
  st8 [r14]=r19,8
  dep r16=r17,r16,8,16
  nop.i 0 ;;
}
{ .mmi
  st8 [r14]=r16,8
  nop.m 0
  nop.i 0 ;;
}
{ .mmi
  st8 [r14]=r33,8
  nop.m 0
  nop.i 0 ;;
}
// br.wtop with LC 0, EC 1, p17 1
{ .mib
  adds r16=2,r0
  mov pr.rot=131072
  clrrrb ;;
}
{ .mii
  nop.m 0
  mov.i ar.lc=0
  mov.i ar.ec=1 ;;
}
{ .mib
  adds r32=19,r0
  nop.i 0
  (p17) br.wtop.sptk.few taken18 ;;
}
{ .mib
  nop.m 0
  nop.i 0
  br.cond.sptk.few stored18 ;;
}
taken18:
{ .mii
  adds r16=1,r0
  nop.i 0
  nop.i 0 ;;
}
stored18:
{ .mii
  nop.m 0
  mov.i r17=ar.lc
  mov.i r18=ar.ec ;;
}
{ .mii
  shladd r17=r18,4,r17
  mov r19=pr
  nop.i 0 ;;
}
{ .mii
  st8 [r14]=r19,8
  dep r16=r17,r16,8,16
  nop.i 0 ;;
}
{ .mmi
  st8 [r14]=r16,8
  nop.m 0
  nop.i 0 ;;
}
{ .mmi
  st8 [r14]=r33,8
  nop.m 0
  nop.i 0 ;;
}
// br.wtop with LC 0, EC 0, p17 1
{ .mib
  adds r16=2,r0
  mov pr.rot=131072
  clrrrb ;;
}
{ .mii
  nop.m 0
  mov.i ar.lc=0
  mov.i ar.ec=0 ;;
}
{ .mib
  adds r32=20,r0
  nop.i 0
  (p17) br.wtop.sptk.few taken19 ;;
}
{ .mib
  nop.m 0
  nop.i 0
  br.cond.sptk.few stored19 ;;
}
taken19:
{ .mii
  adds r16=1,r0
  nop.i 0
  nop.i 0 ;;
}
stored19:
{ .mii
  nop.m 0
  mov.i r17=ar.lc
  mov.i r18=ar.ec ;;
}
{ .mii
  shladd r17=r18,4,r17
  mov r19=pr
  nop.i 0 ;;
}
{ .mii
  st8 [r14]=r19,8
  dep r16=r17,r16,8,16
  nop.i 0 ;;
}
{ .mmi
  st8 [r14]=r16,8
  nop.m 0
  nop.i 0 ;;
}
{ .mmi
  st8 [r14]=r33,8
  nop.m 0
  nop.i 0 ;;
}
// br.wexit with LC 2, EC 3, p17 0
{ .mib
  adds r16=2,r0
  mov pr.rot=0
  clrrrb ;;
}
{ .mii
  nop.m 0
  mov.i ar.lc=2
  mov.i ar.ec=3 ;;
}
{ .mib
  adds r32=21,r0
  nop.i 0
  (p17) br.wexit.sptk.few taken20 ;;
}
{ .mib
  nop.m 0
  nop.i 0
  br.cond.sptk.few stored20 ;;
}
taken20:
{ .mii
  adds r16=1,r0
  nop.i 0
  nop.i 0 ;;
}
stored20:
{ .mii
  nop.m 0
  mov.i r17=ar.lc
  mov.i r18=ar.ec ;;
}
{ .mii
  shladd r17=r18,4,r17
  mov r19=pr
  nop.i 0 ;;
}
{ .mii
  st8 [r14]=r19,8
  dep r16=r17,r16,8,16
  nop.i 0 ;;
}
{ .mmi
  st8 [r14]=r16,8
  nop.m 0
  nop.i 0 ;;
}
{ .mmi
  st8 [r14]=r33,8
  nop.m 0
  nop.i 0 ;;
}
// br.wexit with LC 0, EC 3, p17 0
{ .mib
  adds r16=2,r0
  mov pr.rot=0
  clrrrb ;;
}
{ .mii
  nop.m 0
  mov.i ar.lc=0
  mov.i ar.ec=3 ;;
}
{ .mib
  adds r32=22,r0
  nop.i 0
  (p17) br.wexit.sptk.few taken21 ;;
}
{ .mib
  nop.m 0
  nop.i 0
  br.cond.sptk.few stored21 ;;
}
taken21:
{ .mii
  adds r16=1,r0
  nop.i 0
  nop.i 0 ;;
}
stored21:
{ .mii
  nop.m 0
  mov.i r17=ar.lc
  mov.i r18=ar.ec ;;
}
{ .mii
  shladd r17=r18,4,r17
  mov r19=pr
  nop.i 0 ;;
}
{ .mii
  st8 [r14]=r19,8
  dep r16=r17,r16,8,16
  nop.i 0 ;;
}
{ .mmi
  st8 [r14]=r16,8
  nop.m 0
  nop.i 0 ;;
}
{ .mmi
  st8 [r14]=r33,8
  nop.m 0
  nop.i 0 ;;
}
// br.wexit with LC 0, EC 1, p17 0
{ .mib
  adds r16=2,r0
  mov pr.rot=0
  clrrrb ;;
}
{ .mii
  nop.m 0
  mov.i ar.lc=0
  mov.i ar.ec=1 ;;
}
{ .mib
  adds r32=23,r0
  nop.i 0
  (p17) br.wexit.sptk.few taken22 ;;
}
{ .mib
  nop.m 0
  nop.i 0
  br.cond.sptk.few stored22 ;;
}
taken22:
{ .mii
  adds r16=1,r0
  nop.i 0
  nop.i 0 ;;
}
stored22:
{ .mii
  nop.m 0
  mov.i r17=ar.lc
  mov.i r18=ar.ec ;;
}
{ .mii
  shladd r17=r18,4,r17
  mov r19=pr
  nop.i 0 ;;
}
{ .mii
  st8 [r14]=r19,8
  dep r16=r17,r16,8,16
  nop.i 0 ;;
}
{ .mmi
  st8 [r14]=r16,8
  nop.m 0
  nop.i 0 ;;
}
{ .mmi
  st8 [r14]=r33,8
  nop.m 0
  nop.i 0 ;;
}
// br.wexit with LC 0, EC 0, p17 0
{ .mib
  adds r16=2,r0
  mov pr.rot=0
  clrrrb ;;
}
{ .mii
  nop.m 0
  mov.i ar.lc=0
  mov.i ar.ec=0 ;;
}
{ .mib
  adds r32=24,r0
  nop.i 0
  (p17) br.wexit.sptk.few taken23 ;;
}
{ .mib
  nop.m 0
  nop.i 0
  br.cond.sptk.few stored23 ;;
}
taken23:
{ .mii
  adds r16=1,r0
  nop.i 0
  nop.i 0 ;;
}
stored23:
{ .mii
  nop.m 0
  mov.i r17=ar.lc
  mov.i r18=ar.ec ;;
}
{ .mii
  shladd r17=r18,4,r17
  mov r19=pr
  nop.i 0 ;;
}
{ .mii
  st8 [r14]=r19,8
  dep r16=r17,r16,8,16
  nop.i 0 ;;
}
{ .mmi
  st8 [r14]=r16,8
  nop.m 0
  nop.i 0 ;;
}
{ .mmi
  st8 [r14]=r33,8
  nop.m 0
  nop.i 0 ;;
}
// br.wexit with LC 2, EC 3, p17 1
{ .mib
  adds r16=2,r0
  mov pr.rot=131072
  clrrrb ;;
}
{ .mii
  nop.m 0
  mov.i ar.lc=2
  mov.i ar.ec=3 ;;
}
{ .mib
  adds r32=25,r0
  nop.i 0
  (p17) br.wexit.sptk.few taken24 ;;
}
{ .mib
  nop.m 0
  nop.i 0
  br.cond.sptk.few stored24 ;;
}
taken24:
{ .mii
  adds r16=1,r0
  nop.i 0
  nop.i 0 ;;
}
stored24:
{ .mii
  nop.m 0
  mov.i r17=ar.lc
  mov.i r18=ar.ec ;;
}
{ .mii
  shladd r17=r18,4,r17
  mov r19=pr
  nop.i 0 ;;
}
{ .mii
  st8 [r14]=r19,8
  dep r16=r17,r16,8,16
  nop.i 0 ;;
}
{ .mmi
  st8 [r14]=r16,8
  nop.m 0
  nop.i 0 ;;
}
{ .mmi
  st8 [r14]=r33,8
  nop.m 0
  nop.i 0 ;;
}
// br.wexit with LC 0, EC 3, p17 1
{ .mib
  adds r16=2,r0
  mov pr.rot=131072
  clrrrb ;;
}
{ .mii
  nop.m 0
  mov.i ar.lc=0
  mov.i ar.ec=3 ;;
}
{ .mib
  adds r32=26,r0
  nop.i 0
  (p17) br.wexit.sptk.few taken25 ;;
}
{ .mib
  nop.m 0
  nop.i 0
  br.cond.sptk.few stored25 ;;
}
taken25:
{ .mii
  adds r16=1,r0
  nop.i 0
  nop.i 0 ;;
}
stored25:
{ .mii
  nop.m 0
  mov.i r17=ar.lc
  mov.i r18=ar.ec ;;
}
{ .mii
  shladd r17=r18,4,r17
  mov r19=pr
  nop.i 0 ;;
}
{ .mii
  st8 [r14]=r19,8
  dep r16=r17,r16,8,16
  nop.i 0 ;;
}
{ .mmi
  st8 [r14]=r16,8
  nop.m 0
  nop.i 0 ;;
}
{ .mmi
  st8 [r14]=r33,8
  nop.m 0
  nop.i 0 ;;
}
// br.wexit with LC 0, EC 1, p17 1
{ .mib
  adds r16=2,r0
  mov pr.rot=131072
  clrrrb ;;
}
{ .mii
  nop.m 0
  mov.i ar.lc=0
  mov.i ar.ec=1 ;;
}
{ .mib
  adds r32=27,r0
  nop.i 0
  (p17) br.wexit.sptk.few taken26 ;;
}
{ .mib
  nop.m 0
  nop.i 0
  br.cond.sptk.few stored26 ;;
}
taken26:
{ .mii
  adds r16=1,r0
  nop.i 0
  nop.i 0 ;;
}
stored26:
{ .mii
  nop.m 0
  mov.i r17=ar.lc
  mov.i r18=ar.ec ;;
}
{ .mii
  shladd r17=r18,4,r17
  mov r19=pr
  nop.i 0 ;;
}
{ .mii
  st8 [r14]=r19,8
  dep r16=r17,r16,8,16
  nop.i 0 ;;
}
{ .mmi
  st8 [r14]=r16,8
  nop.m 0
  nop.i 0 ;;
}
{ .mmi
  st8 [r14]=r33,8
  nop.m 0
  nop.i 0 ;;
}
// br.wexit with LC 0, EC 0, p17 1
{ .mib
  adds r16=2,r0
  mov pr.rot=131072
  clrrrb ;;
}
{ .mii
  nop.m 0
  mov.i ar.lc=0
  mov.i ar.ec=0 ;;
}
{ .mib
  adds r32=28,r0
  nop.i 0
  (p17) br.wexit.sptk.few taken27 ;;
}
{ .mib
  nop.m 0
  nop.i 0
  br.cond.sptk.few stored27 ;;
}
taken27:
{ .mii
  adds r16=1,r0
  nop.i 0
  nop.i 0 ;;
}
stored27:
{ .mii
  nop.m 0
  mov.i r17=ar.lc
  mov.i r18=ar.ec ;;
}
{ .mii
  shladd r17=r18,4,r17
  mov r19=pr
  nop.i 0 ;;
}
{ .mii
  st8 [r14]=r19,8
  dep r16=r17,r16,8,16
  nop.i 0 ;;
}
{ .mmi
  st8 [r14]=r16,8
  nop.m 0
  nop.i 0 ;;
}
{ .mmi
  st8 [r14]=r33,8
  nop.m 0
  nop.i 0 ;;
}
{ .mib
  nop.m 0
  nop.i 0
  break.b 0 ;;
}
.data
results:
.skip 672
