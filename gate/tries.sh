# What the scripts that try something share: each sources it, and is then at the root of the repository.
#
#   here     the root
#   dir      a folder for what is written, which is removed at the end
#   note     STATUS WHAT: counts a try, and says what failed where the status isn't 0
#   counted  says how many tries passed and failed, with status 1 where one failed
here=$(cd "$(dirname "$0")/.." && pwd)
cd "$here" || exit 1
dir=$(mktemp -d)
trap 'rm -rf "$dir"' EXIT
tried=$(basename "$0" .sh) passed=0 failed=0
unset IA64_PROVED IA64_PROGRAM

note() { if [ "$1" = 0 ]; then passed=$((passed + 1)); else failed=$((failed + 1)); echo "$tried: $2"; fi; }

counted() {
  echo "$tried: $passed passed, $failed failed"
  [ "$failed" = 0 ]
}
