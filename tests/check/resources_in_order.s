// Two slots that break one rule on several resources: these stand in the order of the verdict's lines. Each br.cexit
// reads and writes the loop count, the epilog count and the frame's rename bases.
{ .mib
  nop.m 0
  nop.i 0
  br.cexit.sptk.few a
}
a:
{ .mib
  nop.m 0
  nop.i 0
  br.cexit.sptk.few a ;;
}
