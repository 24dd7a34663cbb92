// What the loop's end may write is not known at its beginning.
{ .mii
cmp.eq p6,p7=r0,r0
nop.i 0
nop.i 0 ;;
}
loop:
{ .mii
nop.m 0
(p6) mov r8=1
(p7) mov r8=2 ;;
}
{ .mib
cmp.eq.or p6,p0=r8,r9
nop.i 0
(p8) br.cond loop ;;
}
