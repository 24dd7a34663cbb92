// check: ALLOC cfm; GNU as: nothing
// GNU as puts a stop before the `alloc` and says nothing: another program than the text.
{ .mii
  mov r8=1
  nop.i 0
  nop.i 0
}
{ .mii
  alloc r32=ar.pfs,0,1,0,0
  nop.i 0
  nop.i 0 ;;
}
