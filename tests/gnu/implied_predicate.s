// check: WAW r10; GNU as: nothing
// Where the branch falls through p6 is 0, and so is p8, which the compare sets under p6 alone; `check` doesn't know what one predicate says of another.
{ .mii
  (p6) cmp.eq.unc p8,p9=r8,r9
  nop.i 0
  nop.i 0 ;;
}
{ .mib
  (p8) mov r10=1
  nop.i 0
  (p6) br.cond.sptk.few b6
}
{ .mii
  mov r10=2
  nop.i 0
  nop.i 0 ;;
}
