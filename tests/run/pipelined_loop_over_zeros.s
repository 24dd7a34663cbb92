// run 100, status 0: the same loop with LC and EC at 0: one turn, and nothing rotates.
{ .mii
alloc r8=ar.pfs,0,8,0,8
mov.i ar.lc=0
mov.i ar.ec=0 ;;
}
{ .mii
nop.m 0
mov pr.rot=65536
nop.i 0 ;;
}
loop:
{ .mib
(p16) adds r32=1,r33
(p17) adds r10=1,r10
br.ctop loop ;;
}
{ .mib
nop.m 0
nop.i 0
break.b 0 ;;
}
