// check: WAW pfs; GNU as: nothing
// Both moves write all of ar.pfs; GNU as finds it of the other application registers.
{ .mii
  nop.m 0
  mov.i ar.pfs=r8
  mov.i ar.pfs=r9 ;;
}
