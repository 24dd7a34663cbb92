// run 2000, status 9: calls without an end.
f:
{ .mib
alloc r32=ar.pfs,0,96,0,0
nop.i 0
nop.b 0 ;;
}
{ .mib
nop.m 0
nop.i 0
br.call b0=f ;;
}
{ .mib
nop.m 0
nop.i 0
break.b 0 ;;
}
