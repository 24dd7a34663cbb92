// check: accepted; GNU as: may be WAW unat
// Spills reach UNAT in program order, with their words of memory; Intel's letter, which GNU as follows, asks for other bits of UNAT, and so for other addresses.
{ .mmi
  st8.spill [r14]=r8
  st8.spill [r15]=r9
  nop.i 0 ;;
}
