// Two writes under the targets of a compare, behind a declared entry: a walk begins there, and nothing is known.
{ .mii
cmp.eq p6,p7=r0,r0
nop.i 0
nop.i 0 ;;
}
.entry e
e:
{ .mii
nop.m 0
(p6) mov r8=1
(p7) mov r8=2 ;;
}
