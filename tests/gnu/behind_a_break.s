// check: accepted; GNU as: WAW r8
// No walk goes on behind a `break` under p0; GNU as goes on, which is right where the system comes back from it.
{ .mii
  mov r8=1
  break.i 0
  mov r8=2 ;;
}
