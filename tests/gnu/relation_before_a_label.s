// check: accepted; GNU as: may be WAW r10 at label e
// The relation is one of the bundle behind it, which `e` names; at each label GNU as takes nothing for known, and a relation before it neither.
.pred.rel "mutex",p6,p7
e:
{ .mii
  nop.m 0
  (p6) mov r10=1
  (p7) mov r10=2 ;;
}
