// check: WAW p63; GNU as: nothing
// Both compares write p63; GNU as overlooks it of those that stand for another with the targets swapped (`ne`, `ge`, `le`, `tbit.nz` ..) and have `unc`.
{ .mii
  nop.m 0
  cmp.ne.unc p6,p63=r8,r9
  cmp.eq p63,p0=r8,r10 ;;
}
