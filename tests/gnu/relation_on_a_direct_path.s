// check: WAW r10; GNU as: nothing
// The relation speaks of landings on the entry, and the branch brings nothing of p6 and p7; GNU as takes it for known wherever control comes from.
.entry e
{ .mib
  nop.m 0
  nop.i 0
  (p8) br.cond.sptk.few e ;;
}
e:
.pred.rel "mutex",p6,p7
{ .mii
  nop.m 0
  (p6) mov r10=1
  (p7) mov r10=2 ;;
}
