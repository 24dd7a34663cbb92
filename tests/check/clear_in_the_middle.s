// A clrrrb is the last of its group: just the slot behind it makes a pair with it.
{ .bbb
  clrrrb
  nop.b 0
  nop.b 0 ;;
}
