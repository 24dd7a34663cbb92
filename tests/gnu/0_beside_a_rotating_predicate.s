// check: WAW r8, RAW cfm; GNU as: may be RAW cfm
// Both find the read of the renamed p16; behind the loop branch `check` knows no more that p6 at 0 is never 1 together with p16.
loop:
{ .mib
  (p6) mov r8=1
  nop.i 0
  (p6) br.cond.sptk.few b6
}
{ .mib
  nop.m 0
  nop.i 0
  br.ctop.sptk.few loop
}
{ .mii
  (p16) mov r8=2
  nop.i 0
  nop.i 0 ;;
}
