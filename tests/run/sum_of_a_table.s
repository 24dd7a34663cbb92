// run 1000, status 0: a call with two arguments that adds the words of a table, as a compiler writes it.
.global main#
.proc main#
main:
{ .mlx
  alloc r32 = ar.pfs, 0, 1, 2, 0
  movl r33 = table ;;
}
{ .mib
  mov r34 = 4
  nop.i 0
  br.call.sptk.many b0 = sum# ;;
}
{ .mib
  nop.m 0
  nop.i 0
  break.b 0 ;;
}
sum:
{ .mii
  alloc r34 = ar.pfs, 2, 3, 0, 0
  mov r35 = b0
  mov r8 = 0 ;;
}
{ .mii
  adds r36 = -1, r33
  nop.i 0
  nop.i 0 ;;
}
{ .mii
  nop.m 0
  mov ar.lc = r36
  nop.i 0 ;;
}
loop:
{ .mii
  ld8 r14 = [r32], 8
  nop.i 0
  nop.i 0 ;;
}
{ .mib
  add r8 = r8, r14
  nop.i 0
  br.cloop.sptk.few loop ;;
}
{ .mii
  nop.m 0
  mov ar.pfs = r34
  mov b0 = r35 ;;
}
{ .mib
  nop.m 0
  nop.i 0
  br.ret.sptk.many b0 ;;
}
.data
table:
  data8 10, 20, 30, 40
