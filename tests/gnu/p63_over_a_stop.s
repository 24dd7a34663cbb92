// check: accepted; GNU as: WAR p63
// The stop parts the two slots; GNU as keeps this one rule over stops.
{ .mib
  nop.m 0
  nop.i 0
  (p63) br.cond.sptk.few b6 ;;
}
loop:
{ .mib
  nop.m 0
  nop.i 0
  br.ctop.sptk.few loop ;;
}
