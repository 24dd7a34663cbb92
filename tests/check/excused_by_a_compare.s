// Two writes under predicates that a compare leaves never both 1.
{ .mii
cmp.eq p6,p7=r0,r0
nop.i 0
nop.i 0 ;;
}
{ .mii
nop.m 0
(p6) mov r8=1
(p7) mov r8=2 ;;
}
