// check: RAW p6; GNU as: nothing
// A `nop.b` is no branch, nor is a `break.b` or a `hint.b`: the exception for branches isn't made for them; GNU as makes it for the whole unit.
{ .mib
  cmp.eq p6,p7=r8,r9
  nop.i 0
  (p6) nop.b 0 ;;
}
