// run 9, status 9: a NaT is used.
{ .mii
ld8.s r8=[r0]
nop.i 0
nop.i 0 ;;
}
{ .mii
ld8 r9=[r8]
nop.i 0
nop.i 0 ;;
}
