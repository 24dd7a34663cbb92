// Each rule, and each sort of resource.
start:
{ .mii
  cmp.eq p6,p7=r0,r0
  (p6) adds r8=1,r0
  (p7) adds r8=2,r0
}
{ .mii
  alloc r32=ar.pfs,0,1,0,0
  mov b6=r8
  mov r9=b6 ;;
}
{ .mmi
  mov.m ar.unat=r10
  mov.m r11=ar.unat
  mov.i ar.pfs=r10
}
{ .mii
  nop.m 0
  mov.i ar.pfs=r10
  mov.i ar.ec=r10
}
{ .mii
  nop.m 0
  mov.i ar.ec=r10
  mov.i ar.lc=r10
}
{ .mbb
  nop.m 0
  (p63) nop.b 0
  br.ctop.sptk.few start
}
{ .mib
  nop.m 0
  nop.i 0
  clrrrb
}
{ .mib
  nop.m 0
  nop.i 0
  break.b 0 ;;
}
