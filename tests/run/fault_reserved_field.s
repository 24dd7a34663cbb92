// run 9, status 9: a previous function state whose reserved bits are not zero.
{ .mlx
nop.m 0
movl r9=0x4000000000 ;;
}
{ .mii
nop.m 0
mov.i ar.pfs=r9
nop.i 0 ;;
}
