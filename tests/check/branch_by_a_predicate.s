// A branch sees the predicate that its group writes.
{ .mib
cmp.eq p6,p7=r0,r0
nop.i 0
(p6) br.cond next ;;
}
next:
{ .mib
nop.m 0
nop.i 0
break.b 0 ;;
}
