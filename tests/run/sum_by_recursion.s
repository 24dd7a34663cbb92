// run 2000, status 0: the sum of 1 to 200 by calls, each with a frame of 40 registers, so that cells are spilled and filled; each frame keeps
// a NaT.
{ .mii
nop.m 0
adds r9=200,r0
nop.i 0 ;;
}
{ .mib
nop.m 0
nop.i 0
br.call b0=f ;;
}
{ .mib
nop.m 0
nop.i 0
break.b 0 ;;
}
f:
{ .mii
alloc r32=ar.pfs,0,40,0,0
mov r33=b0
adds r9=-1,r9 ;;
}
{ .mii
ld8.s r34=[r0]
cmp.eq p6,p7=r0,r9
adds r35=0,r9 ;;
}
{ .mib
nop.m 0
nop.i 0
(p7) br.call b0=f ;;
}
{ .mii
add r10=r10,r35
tnat.z p8,p9=r34
mov.i ar.pfs=r32 ;;
}
{ .mib
(p9) adds r11=1,r11
mov b0=r33
br.ret b0 ;;
}
