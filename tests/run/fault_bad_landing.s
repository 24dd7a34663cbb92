// run 1, status 9: a branch to an address that is no entry.
{ .mib
nop.m 0
nop.i 0
br.ret b0 ;;
}
