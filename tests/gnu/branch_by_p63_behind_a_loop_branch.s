// check: RAW cfm; GNU as: may be RAW cfm, may be RAW p63
// Both find the read of the renamed p63, as one of the frame; GNU as also takes it for a read of p63, which branches may see as it was written.
loop:
{ .mib
  nop.m 0
  nop.i 0
  br.ctop.sptk.few loop
}
{ .mib
  nop.m 0
  nop.i 0
  (p63) br.cond.sptk.few b6 ;;
}
