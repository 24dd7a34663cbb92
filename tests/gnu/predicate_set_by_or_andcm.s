// check: WAW r10; GNU as: nothing
// The second compare may set p7 beside p6, and then r10 is written twice; GNU as goes on taking them for never both 1.
{ .mii
  cmp.eq p6,p7=r8,r9
  nop.i 0
  nop.i 0 ;;
}
{ .mii
  cmp.eq.or.andcm p7,p8=r8,r10
  nop.i 0
  nop.i 0 ;;
}
{ .mii
  nop.m 0
  (p6) mov r10=1
  (p7) mov r10=2 ;;
}
