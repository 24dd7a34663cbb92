// check: accepted; GNU as: may be WAW r8
// Where the `break` falls through p6 is 0, so neither move is made; GNU as takes it for a `nop`.
{ .mii
  mov r8=1
  (p6) break.i 0
  (p6) mov r8=2 ;;
}
