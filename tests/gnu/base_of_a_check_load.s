// check: RAW r9; GNU as: nothing
// The load writes its base anew whether it hits or not; GNU as takes the base for the target, which Intel's manual excuses.
{ .mmi
  ld8.c.clr r6=[r9],8
  adds r10=1,r9
  nop.i 0 ;;
}
