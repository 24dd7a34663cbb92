// Two writes of one register.
{ .mii
  adds r14=1,r0
  adds r14=2,r0
  nop.i 0 ;;
}
