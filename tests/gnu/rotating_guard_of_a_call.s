// check: RAW cfm, WAW b0, WAW pfs, WAW cfm; GNU as: nothing
// Where the first call falls through p16 is 0, and there is no clash; `check` takes the call for one that may have renamed p16.
{ .mib
  nop.m 0
  nop.i 0
  (p16) br.call.sptk.few b0=b6
}
{ .mib
  nop.m 0
  nop.i 0
  br.call.sptk.few b0=b7 ;;
}
