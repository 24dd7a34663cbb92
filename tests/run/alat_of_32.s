// run 99, status 0: 32 advanced loads, all of whose entries stay. r8 counts the checks that hit, r9 the others.
{ .mlx
  alloc r32=ar.pfs,0,40,0,0
  movl r14=words ;;
}
{ .mmi
  ld4.a r34=[r14],4
  nop.m 0
  nop.i 0 ;;
}
{ .mmi
  ld4.a r35=[r14],4
  nop.m 0
  nop.i 0 ;;
}
{ .mmi
  ld4.a r36=[r14],4
  nop.m 0
  nop.i 0 ;;
}
{ .mmi
  ld4.a r37=[r14],4
  nop.m 0
  nop.i 0 ;;
}
{ .mmi
  ld4.a r38=[r14],4
  nop.m 0
  nop.i 0 ;;
}
{ .mmi
  ld4.a r39=[r14],4
  nop.m 0
  nop.i 0 ;;
}
{ .mmi
  ld4.a r40=[r14],4
  nop.m 0
  nop.i 0 ;;
}
{ .mmi
  ld4.a r41=[r14],4
  nop.m 0
  nop.i 0 ;;
}
{ .mmi
  ld4.a r42=[r14],4
  nop.m 0
  nop.i 0 ;;
}
{ .mmi
  ld4.a r43=[r14],4
  nop.m 0
  nop.i 0 ;;
}
{ .mmi
  ld4.a r44=[r14],4
  nop.m 0
  nop.i 0 ;;
}
{ .mmi
  ld4.a r45=[r14],4
  nop.m 0
  nop.i 0 ;;
}
{ .mmi
  ld4.a r46=[r14],4
  nop.m 0
  nop.i 0 ;;
}
{ .mmi
  ld4.a r47=[r14],4
  nop.m 0
  nop.i 0 ;;
}
{ .mmi
  ld4.a r48=[r14],4
  nop.m 0
  nop.i 0 ;;
}
{ .mmi
  ld4.a r49=[r14],4
  nop.m 0
  nop.i 0 ;;
}
{ .mmi
  ld4.a r50=[r14],4
  nop.m 0
  nop.i 0 ;;
}
{ .mmi
  ld4.a r51=[r14],4
  nop.m 0
  nop.i 0 ;;
}
{ .mmi
  ld4.a r52=[r14],4
  nop.m 0
  nop.i 0 ;;
}
{ .mmi
  ld4.a r53=[r14],4
  nop.m 0
  nop.i 0 ;;
}
{ .mmi
  ld4.a r54=[r14],4
  nop.m 0
  nop.i 0 ;;
}
{ .mmi
  ld4.a r55=[r14],4
  nop.m 0
  nop.i 0 ;;
}
{ .mmi
  ld4.a r56=[r14],4
  nop.m 0
  nop.i 0 ;;
}
{ .mmi
  ld4.a r57=[r14],4
  nop.m 0
  nop.i 0 ;;
}
{ .mmi
  ld4.a r58=[r14],4
  nop.m 0
  nop.i 0 ;;
}
{ .mmi
  ld4.a r59=[r14],4
  nop.m 0
  nop.i 0 ;;
}
{ .mmi
  ld4.a r60=[r14],4
  nop.m 0
  nop.i 0 ;;
}
{ .mmi
  ld4.a r61=[r14],4
  nop.m 0
  nop.i 0 ;;
}
{ .mmi
  ld4.a r62=[r14],4
  nop.m 0
  nop.i 0 ;;
}
{ .mmi
  ld4.a r63=[r14],4
  nop.m 0
  nop.i 0 ;;
}
{ .mmi
  ld4.a r64=[r14],4
  nop.m 0
  nop.i 0 ;;
}
{ .mmi
  ld4.a r65=[r14],4
  nop.m 0
  nop.i 0 ;;
}
{ .mii
  chk.a.nc r34,gone_first
  adds r8=1,r8
  nop.i 0 ;;
}
back_first:
{ .mii
  chk.a.nc r35,gone_second
  adds r8=1,r8
  nop.i 0 ;;
}
back_second:
{ .mii
  chk.a.nc r65,gone_last
  adds r8=1,r8
  nop.i 0 ;;
}
back_last:
{ .mib
  nop.m 0
  nop.i 0
  break.b 0 ;;
}
gone_first:
{ .mib
  adds r9=1,r9
  nop.i 0
  br.cond.sptk.few back_first ;;
}
gone_second:
{ .mib
  adds r9=1,r9
  nop.i 0
  br.cond.sptk.few back_second ;;
}
gone_last:
{ .mib
  adds r9=1,r9
  nop.i 0
  br.cond.sptk.few back_last ;;
}
.data
words:
.skip 136
