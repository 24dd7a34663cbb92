// check: RAW p6; GNU as: nothing
// Where p7 is 1 p6 is 0 and the and-compare leaves it so; `check` looks at no value, and a predicate counts as read in any case.
{ .mii
  cmp.eq p6,p7=r8,r9
  nop.i 0
  nop.i 0 ;;
}
{ .mii
  (p7) cmp.eq.and p6,p0=r8,r9
  (p6) mov r10=1
  nop.i 0 ;;
}
