// Two writes under predicates that nothing in the loop writes: what is known of them holds on the way back.
{ .mii
cmp.eq p6,p7=r0,r0
nop.i 0
nop.i 0 ;;
}
loop:
{ .mii
nop.m 0
(p6) mov r8=1
(p7) mov r8=2 ;;
}
{ .mib
nop.m 0
nop.i 0
(p8) br.cond loop ;;
}
