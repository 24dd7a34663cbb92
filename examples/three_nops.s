// Three instructions that do nothing, and a stop. One bundle, with the template MII and a stop at its end.
// `ia64 check` prints `accepted`.
//
// `ia64 build` makes three_nops.image of this text. The GNU assembler for ia64 makes the bundle (its
// option -xexplicit leaves the stops to the writer), and `ia64 wrap` the same image of the bundle:
//
//   ia64-linux-gnu-as -xexplicit -o three_nops.o three_nops.s
//   ia64-linux-gnu-objcopy -O binary -j .text three_nops.o three_nops.bundles
//   ./ia64 wrap < three_nops.bundles > three_nops.image
{ .mii
  nop.m 0
  nop.i 0
  nop.i 0 ;;
}
