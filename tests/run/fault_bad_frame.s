// run 10, status 9: a return by what is no frame.
{ .mii
nop.m 0
adds r9=640,r0
nop.i 0 ;;
}
{ .mib
nop.m 0
mov.i ar.pfs=r9
br.ret b0 ;;
}
