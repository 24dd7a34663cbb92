// run 9, status 9: a register outside the frame.
{ .mii
adds r32=1,r0
nop.i 0
nop.i 0 ;;
}
