// run 9, status 0: an advanced load, a store of one byte inside it, and a check load that has to load again.
{ .mlx
nop.m 0
movl r14=0x100000 ;;
}
{ .mii
ld8.a r8=[r14]
adds r15=3,r14
adds r9=7,r0 ;;
}
{ .mii
st1 [r15]=r9
nop.i 0
nop.i 0 ;;
}
{ .mii
ld8.c.clr r8=[r14]
nop.i 0
nop.i 0 ;;
}
{ .mib
nop.m 0
nop.i 0
break.b 0 ;;
}
.data
data8 5
