// A chk.s isn't read as a branch is: it reads its register as any other instruction does.
{ .mlx
  nop.m 0
  movl r14=word ;;
}
{ .mii
  ld8.s r8=[r14]
  chk.s.i r8,mend
  nop.i 0 ;;
}
mend:
{ .mib
  nop.m 0
  nop.i 0
  br.cond.sptk.few mend ;;
}
.data
word:
  data8 1
