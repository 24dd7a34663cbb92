// run 9, status 9: a deferred load, whose check goes to the recovery code; that loads past the data.
{ .mii
ld8.s r8=[r0]
nop.i 0
nop.i 0 ;;
}
{ .mii
nop.m 0
chk.s.i r8,fix
nop.i 0 ;;
}
{ .mib
nop.m 0
nop.i 0
break.b 0 ;;
}
fix:
{ .mlx
nop.m 0
movl r14=0x100008 ;;
}
{ .mmi
ld8 r15=[r14],8 ;;
ld8 r16=[r14]
nop.i 0 ;;
}
.data
data8 1,-1
