// A branch reads its branch register as earlier slots of its group wrote it.
{ .mib
  nop.m 0
  mov b6=r8
  br.cond.sptk.few b6 ;;
}
