// check: WAW ec; GNU as: nothing
// Where p7 is 1 p6 is 0, and then the loop branch counts ar.ec down; GNU as takes it for one that does nothing under p6 at 0.
loop:
{ .mii
  cmp.eq p6,p7=r8,r9
  nop.i 0
  nop.i 0 ;;
}
{ .mib
  nop.m 0
  nop.i 0
  (p6) br.wtop.sptk.few loop
}
{ .mii
  nop.m 0
  (p7) mov.i ar.ec=r8
  nop.i 0 ;;
}
