// run 9, status 9: a load from an address that is no multiple of its size.
{ .mlx
nop.m 0
movl r9=0x100006 ;;
}
{ .mii
st4 [r9]=r0
nop.i 0
nop.i 0 ;;
}
.data
data8 0
