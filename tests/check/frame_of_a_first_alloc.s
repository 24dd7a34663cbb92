// The slots after an alloc that is first in its group see its frame: the second one writes a register of it.
{ .mii
  alloc r32=ar.pfs,0,2,0,0
  mov r33=b0
  nop.i 0 ;;
}
