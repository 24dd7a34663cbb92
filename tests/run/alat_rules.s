// run 99, status 0: stores, rotation and checks on the entries of the ALAT. r10 counts a check under the old name,
// which misses, and r11 one under the new name, which hits.
{ .mlx
  alloc r32=ar.pfs,0,16,0,8
  movl r14=words ;;
}
{ .mii
  adds r15=3,r14
  adds r16=8,r14
  nop.i 0 ;;
}
// a store of one byte inside the eight takes the entry away; one beside them leaves it
{ .mmi
  ld8.a r8=[r14]
  ld8.a r9=[r16]
  nop.i 0 ;;
}
{ .mmi
  st1 [r15]=r16
  nop.m 0
  nop.i 0 ;;
}
{ .mmi
  ld8.c.nc r8=[r14]
  ld8.c.clr r9=[r16]
  nop.i 0 ;;
}
// the entry belongs to the place of a register: after a rotation it is found under the next name
{ .mii
  ld8.a r33=[r14]
  mov.i ar.lc=1
  nop.i 0 ;;
}
{ .mib
  nop.m 0
  nop.i 0
  br.ctop.sptk.few rotated ;;
}
rotated:
{ .mii
  chk.a.nc r33,missed
  adds r10=1,r10
  nop.i 0 ;;
}
missed:
{ .mii
  chk.a.clr r34,end
  adds r11=1,r11
  nop.i 0 ;;
}
end:
{ .mmi
  invala.e r8
  nop.m 0
  nop.i 0 ;;
}
{ .mmi
  ld4.sa r12=[r15]
  ld8.a r13=[r14]
  nop.i 0 ;;
}
{ .mib
  nop.m 0
  nop.i 0
  break.b 0 ;;
}
.data
words:
data8 0x1122334455667788,0x99
