// check: RAW r6; GNU as: nothing
// A read of the target of a check load sees the old value or the loaded one; Intel's manual excuses it, for where the load hits, and `check` asks for a stop.
{ .mmi
  ld8.c.clr r6=[r9]
  adds r10=1,r6
  nop.i 0 ;;
}
