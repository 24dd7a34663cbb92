// check: accepted; GNU as: WAW p6
// Each of the two can only set p6, so any order leaves the same; GNU as takes `or` with `or` and `or.andcm` with `or.andcm`, but not the two beside each other.
{ .mii
  nop.m 0
  cmp.eq.or p6,p0=r8,r9
  cmp.eq.or.andcm p6,p7=r8,r10 ;;
}
