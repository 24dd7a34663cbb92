// check: RAW cfm; GNU as: nothing
// The loop branch renames r32 where it falls through too; GNU as finds it of predicates and not of registers.
loop:
{ .mib
  nop.m 0
  nop.i 0
  br.ctop.sptk.few loop
}
{ .mii
  adds r32=1,r0
  nop.i 0
  nop.i 0 ;;
}
