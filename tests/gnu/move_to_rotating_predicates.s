// check: WAW r10; GNU as: nothing
// The move sets p16 and p17, and then r10 is written twice; GNU as goes on taking them for never both 1.
{ .mii
  cmp.eq p16,p17=r8,r9
  nop.i 0
  nop.i 0 ;;
}
{ .mii
  nop.m 0
  mov pr.rot=0x30000
  nop.i 0 ;;
}
{ .mii
  nop.m 0
  (p16) mov r10=1
  (p17) mov r10=2 ;;
}
