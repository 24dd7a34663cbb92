// check: accepted; GNU as: may be WAW r10 at label loop
// Nothing in the loop writes p6 or p7, so they are never both 1 on the way back either; at each label GNU as takes nothing for known.
{ .mii
  cmp.eq p6,p7=r8,r9
  nop.i 0
  nop.i 0 ;;
}
loop:
{ .mib
  (p6) mov r10=1
  (p7) mov r10=2
  br.cloop.sptk.few loop ;;
}
