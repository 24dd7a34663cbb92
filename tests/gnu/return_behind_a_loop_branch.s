// check: WAW ec, WAW cfm; GNU as: RAW cfm, WAW ec, WAW cfm
// Both find the two writes of the frame; for GNU as a return also reads it.
loop:
{ .mib
  nop.m 0
  nop.i 0
  br.ctop.sptk.few loop
}
{ .mib
  nop.m 0
  nop.i 0
  br.ret.sptk.few b0 ;;
}
