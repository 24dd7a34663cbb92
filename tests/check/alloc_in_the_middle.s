// An alloc that isn't first in its group.
{ .mii
nop.m 0
nop.i 0
nop.i 0
}
f:
{ .mii
alloc r32=ar.pfs,0,1,0,0
nop.i 0
nop.i 0 ;;
}
{ .mib
nop.m 0
nop.i 0
br.cond f ;;
}
