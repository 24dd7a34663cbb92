// check: WAW cfm; GNU as: WAW cfm, RAW rse, WAW rse
// Both find the two writes of the frame; GNU as names the register stack engine as a resource of its own.
{ .mib
  alloc r32=ar.pfs,0,1,0,0
  nop.i 0
  br.ret.sptk.few b0 ;;
}
