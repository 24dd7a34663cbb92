// check: accepted; GNU as: may be RAW unat
// A fill reaches UNAT in program order, with its word of memory; Intel's letter, which GNU as follows, asks for other bits of UNAT, and so for other addresses.
{ .mmi
  st8.spill [r14]=r8
  ld8.fill r9=[r15]
  nop.i 0 ;;
}
