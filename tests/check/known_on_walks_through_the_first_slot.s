// Of a pair of slots only the walks through its first slot count: the walk that begins at mid knows nothing of p6 and p7,
// and has no slot of bundle 1.
.entry mid
{ .mii
  cmp.eq p6,p7=r0,r0
  nop.i 0
  nop.i 0 ;;
}
{ .mib
  (p6) mov r8=1
  nop.i 0
  nop.b 0
}
mid:
{ .mib
  (p7) mov r8=2
  nop.i 0
  br.cond mid ;;
}
