#!/bin/bash
# Tries ./ia64 and ./build.
#
#   gate/try_wrapper.sh
#
# First it tries ./ia64 on the program that `rt ci` has built. Then it makes an outline of the repository with a stand-in for the
# kit, and tries there what ./ia64 does without a program, and ./build. It prints a line for each try that fails, and a count.
. "$(dirname "$0")/tries.sh"
program=$here/crates/ia64_cli/out/ia64_cli
export TMPDIR=$dir/temporary XDG_CACHE_HOME=$dir/cache
mkdir "$TMPDIR" "$XDG_CACHE_HOME"

# NAME STATUS OUTPUT SAYS INPUT CALL..: the call ends with the status, prints just the file OUTPUT, and says SAYS, an extended
# regular expression, on standard error: nothing there at all where SAYS is empty.
try() {
  local name=$1 status=$2 output=$3 says=$4 input=$5 got
  shift 5
  "$@" < "$input" > "$dir/out" 2> "$dir/err"
  got=$?
  [ "$got" = "$status" ] && cmp -s "$dir/out" "$output" && if [ -n "$says" ]; then grep -Eq "$says" "$dir/err"; else [ ! -s "$dir/err" ]; fi
  note $? "$name: status $got in place of $status, or other words"
}

: > "$dir/nothing"
printf 'accepted\n' > "$dir/accepted"
printf 'violations 1\nRAW r8 0.1 0.2\n' > "$dir/raw"
printf 'image: magic\n' > "$dir/magic"
for name in count call pipelined_loop equal_bytes lock counter loop_edge; do sed -n 's|^//   ||p' "examples/$name.s" > "$dir/$name"; done
{
  printf 'watch 0\n1 0.0 0.2 falls\n2 1.0 1.2 falls\n3 2.0 2.2 taken\n4 1.0 1.2 falls\n5 2.0 2.2 taken\n'
  printf '6 1.0 1.2 falls\n7 2.0 2.2 taken\n8 1.0 1.2 falls\nwatch 1\ngroups 22 slots 66 taken 9\n'
  cat "$dir/count"
} > "$dir/watched"

{
  sed 's/^end .*/end limit at 3.0/; s/^groups .*/groups 21/' "$dir/count"
  echo '22 3.0 3.2 ends'
  cat "$dir/count"
} > "$dir/traced"

# The calls of the README, on the proved program: nothing is said beside the answer.
try 'a hazard' 1 "$dir/raw" '' examples/read_after_write.s ./ia64 check
try 'a hazard of an image' 1 "$dir/raw" '' examples/read_after_write.image ./ia64 check
try 'a mended hazard' 0 "$dir/accepted" '' examples/read_after_write_mended.s ./ia64 check
try 'an image' 0 "$dir/accepted" '' examples/three_nops.image ./ia64 check
try 'a run' 0 "$dir/count" '' examples/count.s ./ia64 run 100
try 'a run that is watched' 0 "$dir/watched" '' examples/count.s ./ia64 watch 100
try 'a hazard that is watched' 1 "$dir/raw" '' examples/read_after_write.s ./ia64 watch 100
try 'a run all at once' 0 "$dir/count" '' examples/count.s ./ia64 groups 100 1
try 'a run group by group' 0 "$dir/traced" '' examples/count.s ./ia64 trace 21 100
try 'a run group by group, behind its end' 0 "$dir/count" '' examples/count.s ./ia64 trace 10000000 1
try 'a hazard group by group' 1 "$dir/raw" '' examples/read_after_write.s ./ia64 trace 0 1
try 'two predicates' 0 "$dir/accepted" '' examples/predicated.s ./ia64 check
try 'two predicates behind a call' 0 "$dir/accepted" '' examples/behind_a_call.s ./ia64 check
try 'a run of a pipelined loop' 0 "$dir/pipelined_loop" '' examples/pipelined_loop.s ./ia64 run 100
try 'a run of operations on lanes' 0 "$dir/equal_bytes" '' examples/equal_bytes.s ./ia64 run 100
try 'a run with a lock' 0 "$dir/lock" '' examples/lock.s ./ia64 run 100
try 'a run of several fetch-and-adds, all at once' 0 "$dir/counter" '' examples/counter.s ./ia64 groups 100 1
try 'a violation on the way back' 1 "$dir/loop_edge" '' examples/loop_edge.s ./ia64 check
try 'a run with register frames' 0 "$dir/call" '' examples/call.s ./ia64 run 100
try 'build' 0 examples/read_after_write.image '' examples/read_after_write.s ./ia64 build
try 'wrap' 0 examples/three_nops.image '' examples/three_nops.bundles ./ia64 wrap
try 'stops' 0 tests/loose/example.packed '' examples/loose.s ./ia64 stops
(printf IA64IMG2; tail -c +9 examples/three_nops.image) > "$dir/lifted"
try 'lift' 0 "$dir/lifted" '' examples/three_nops.image ./ia64 lift
[ "$(./ia64 build < examples/call.s | ./ia64 list | grep -c '^[0-9]')" = 6 ]
note $? 'a text as a listing'
[ "$(./ia64 trial 1 4096 | sed -n 2p)" = accepted ]
note $? 'a trial'
./ia64 build < examples/call.s | ./ia64 show | grep -q 'br.call.sptk.few b0=L3 ;;'
note $? 'a text as its canonical text'

# Files as arguments: the answers of the proved program on them, in its own words or in those of compilers.
for words in 'run 100' 'watch 100' 'groups 100 1' build; do
  ./ia64 $words < examples/count.s > "$dir/answer"
  try "a file: $words" $? "$dir/answer" '' /dev/null ./ia64 $words examples/count.s
done
try 'a file before its number' 0 "$dir/count" '' /dev/null ./ia64 run examples/count.s 100
printf '%s\n' 'examples/read_after_write.s:12:3: error: RAW r8: '"'add r11=r8,r9' reads what 'add r8=r9,r10'"' writes in the same group' \
  "examples/read_after_write.s:11:3: note: 'add r8=r9,r10' is here" '1 accepted, 1 violated, 0 not judged' > "$dir/files"
try 'two texts' 1 "$dir/files" '' /dev/null ./ia64 check examples/read_after_write.s examples/count.s
try 'standard input as a file' 1 "$dir/raw" '' examples/read_after_write.s ./ia64 run 100 -
printf '%s\n' 'group 22: 3.0 to 3.2, then break 0x0' '  3.2  line 40  break.b 0' '    nothing changes' \
  'the run ended at 3.2 with break 0x0, after 22 groups' > "$dir/told"
try 'the groups of a file' 0 "$dir/told" '' /dev/null ./ia64 trace examples/count.s --from 22
try 'no such file' 2 "$dir/nothing" 'ia64: nowhere: No such file or directory' /dev/null ./ia64 run 100 nowhere
./ia64 stops < examples/loose.s > "$dir/answer"
try 'stops of a file' $? "$dir/answer" '' /dev/null ./ia64 stops examples/loose.s
./ia64 loosen examples/count.s | ./ia64 stops > "$dir/answer"
try 'stops of a text with bundles' $? "$dir/answer" '' /dev/null ./ia64 stops examples/count.s

# The object file of the README and the manual. The lines of the source stand in front where GNU addr2line is installed.
./ia64 check examples/functions.o > "$dir/out" 2> "$dir/err"
[ $? = 1 ] && [ ! -s "$dir/err" ] && grep -q "error: .*swap: RAW r9: written by 'adds r9=0,r8' (+0x10 slot 1) and read by 'st8 \[r33\]=r9' (+0x20 slot 0)" "$dir/out" && tail -n 1 "$dir/out" | grep -q '^2 accepted, 1 violated, 0 not judged'
note $? 'an object file'

# Words that are no command, refusals, and statuses that print nothing.
try 'no words' 2 "$dir/nothing" 'a command is missing' /dev/null ./ia64
try 'run without a number' 2 "$dir/nothing" 'ia64 run 100 FILE' /dev/null ./ia64 run
try 'run of too many groups' 2 "$dir/nothing" 'ia64 run 10000000 FILE' /dev/null ./ia64 run 99999999999999999999
try 'watch without a number' 2 "$dir/nothing" 'watch: it takes one number.*: ia64 watch 100 FILE' /dev/null ./ia64 watch
try 'watch of too many groups' 2 "$dir/nothing" 'ia64 watch 10000000 FILE' /dev/null ./ia64 watch 10000001
try 'a trial without bundles' 2 "$dir/nothing" 'ia64 trial 1 100' /dev/null ./ia64 trial 7 0
try 'groups without an order' 2 "$dir/nothing" 'groups: it takes two numbers.*: ia64 groups 7 0 FILE' /dev/null ./ia64 groups 7
try 'groups with too large an order' 2 "$dir/nothing" ': ia64 groups 100 0 FILE' /dev/null ./ia64 groups 100 18446744073709551616
try 'too many groups, with the last order' 2 "$dir/nothing" 'ia64 groups 10000000 18446744073709551615 FILE' /dev/null ./ia64 groups 10000001 18446744073709551615
try 'no groups, with an order' 2 "$dir/nothing" 'ia64 groups 100 7 FILE' /dev/null ./ia64 groups 0 7
try 'a third number' 2 "$dir/nothing" 'ia64 groups 5 6 FILE' /dev/null ./ia64 groups 5 6 7
try 'too many groups to trace' 2 "$dir/nothing" 'trace: it takes a file.*: ia64 trace FILE 20, or ia64 trace 0 20 < FILE' /dev/null ./ia64 trace 0 101
try 'upper case' 2 "$dir/nothing" 'perhaps: ia64 check examples/count.s' /dev/null ./ia64 Check examples/count.s
try 'stops in upper case' 2 "$dir/nothing" 'perhaps: ia64 stops FILE' /dev/null ./ia64 Stops
try 'upper case before a number' 2 "$dir/nothing" 'perhaps: ia64 watch 7 examples/count.s' /dev/null ./ia64 --Watch 7 examples/count.s
try 'upper case before two numbers' 2 "$dir/nothing" 'perhaps: ia64 groups 100 3 examples/swap.s' /dev/null ./ia64 Groups 100 3 examples/swap.s
try 'upper case before a seed' 2 "$dir/nothing" 'perhaps: ia64 trial 1 100$' /dev/null ./ia64 Trial 7 100
try 'an unknown word' 2 "$dir/nothing" "no command 'assemble'" /dev/null ./ia64 assemble
./ia64 --help > "$dir/help"
try 'help' 0 "$dir/help" '' /dev/null ./ia64 --help
for command in 'check FILE..' 'list FILE' 'show FILE' 'stops FILE' 'loosen FILE' 'orders FILE' 'trace FILE' check 'run N' 'watch N' 'groups N' 'trace FIRST' build stops show list wrap lift 'trial SEED'; do grep -q "^  $command " "$dir/help"; note $? "--help has no $command"; done
try 'a refusal' 3 "$dir/magic" "'list' refused its input; the reason went to standard output" examples/call.s ./ia64 list
head -c 16777217 /dev/zero > "$dir/too_long"
try 'a long input' 4 "$dir/nothing" 'longer than 16,777,216 bytes' "$dir/too_long" ./ia64 check
try 'a folder' 5 "$dir/nothing" 'reading standard input failed' "$dir" ./ia64 check
./ia64 check < examples/count.s > /dev/full 2> "$dir/err"
[ $? = 6 ] && grep -q 'writing standard output failed' "$dir/err"
note $? 'a full output'
printf '#!/bin/sh\necho "other $*"\nexit 9\n' > "$dir/other" && chmod +x "$dir/other" && echo 'other run 7' > "$dir/of_other"
try 'another program' 9 "$dir/of_other" '' examples/count.s env IA64_PROGRAM="$dir/other" ./ia64 run 7
try 'another program, and a proved one' 125 "$dir/nothing" 'IA64_PROVED wants a proved one' examples/count.s env IA64_PROGRAM="$dir/other" IA64_PROVED=1 ./ia64 run 7
try 'another program, and a proved one, on a file' 125 "$dir/nothing" 'IA64_PROVED wants a proved one' /dev/null env IA64_PROGRAM="$dir/other" IA64_PROVED=1 ./ia64 run 7 examples/count.s
try 'no other program' 125 "$dir/nothing" "IA64_PROGRAM names no program that can be called: $dir/none" examples/count.s env IA64_PROGRAM="$dir/none" ./ia64 check
mkdir "$dir/links" && ln -s "$here/ia64" "$dir/links/first" && ln -s first "$dir/links/ia64"
try 'a symbolic link' 0 "$dir/accepted" '' examples/count.s "$dir/links/ia64" check

# The outline: the crates' folders, with a source in each, and a stand-in for the kit, whose `rt` notes when each call begins
# and ends. Its `try` compiles as the kit's does: it calls a compiler and a linker of the kit that it lies in, without its
# environment, and the linker makes a file `program`.
outline="$dir/it's an outline" kit=$dir/kit
export CALLS=$dir/calls BUILT=$program FAILS='' ANSWERS=ended NAP=0 REFUSED=''
mkdir -p "$outline/tools" "$outline/docs/build" "$dir/bin" "$kit/bin" "$kit/toolchain/bin"
cp -r ia64 build crates.txt examples front "$outline"
cp tools/sources_sum tools/kit_mirror tools/compile_unproved "$outline/tools"
cp docs/build/gate.md "$outline/docs/build"
for crate in crates/*/; do mkdir -p "$outline/${crate}src" && : > "$outline/${crate}src/lib.rt"; done
cat > "$kit/bin/rt" <<'END'
#!/bin/bash
if [ "$1" = version ]; then cat "$(dirname "$(readlink -f "$0")")/../KIT-ID"; exit; fi
crate=$(basename "$PWD")
echo "begin $crate $*" >> "$CALLS"
if [ "$crate" = "$FAILS" ]; then echo "rt: $crate is not proved"; exit 1; fi
sleep "$NAP"
case $1 in
  lib)
    for below in $(sed -n "s/^$crate: *//p" ../../crates.txt); do
      if [ -d "../$below" ] && [ ! -e "../$below/out/rlib/stamp" ]; then echo "no library $below"; exit 1; fi
    done
    if [ -e out/rlib/stamp ]; then echo "kept $crate" >> "$CALLS"; else mkdir -p out/rlib out/incremental && : > out/rlib/stamp; fi ;;
  run) mkdir -p out && cp "$BUILT" out/ ;;
  try)
    shift 2
    if [ -n "$REFUSED" ]; then echo "$REFUSED" >&2; exit 1; fi
    tools=$(dirname "$(readlink -f "$0")")/../toolchain/bin folder=$(mktemp -d)
    trap 'rm -rf "$folder"' EXIT
    cd "$folder" || exit 2
    env -i CALLS="$CALLS" "$tools/clang" -O0 -fsanitize=address
    env -i BUILT="$BUILT" "$tools/ld.lld" || exit 2
    ./program "$@"
    status=$?
    echo "run=$ANSWERS status=$status runners=1 proved=no" >&2
    exit "$status" ;;
esac
echo "end $crate" >> "$CALLS"
END
: > "$kit/bin/rtlib.py"
echo one > "$kit/KIT-ID"
printf '#!/bin/bash\necho "compile $*" >> "$CALLS"\n' > "$kit/toolchain/bin/clang"
printf '#!/bin/bash\ncp "$BUILT" program\n' > "$kit/toolchain/bin/ld.lld"
cp "$kit/toolchain/bin/clang" "$kit/bin/rattle"
chmod +x "$kit"/bin/r* "$kit"/toolchain/bin/*
ln -s "$kit/bin/rt" "$dir/bin/rt"
export PATH=$dir/bin:$PATH
unproved='not built from .*: nothing is proved of this answer. ./build'

# COUNT WHAT: so many times something was compiled so since the calls were last cleared, and nothing lies about.
compiled() {
  [ "$(grep -c '^compile -O1$' "$CALLS")" = "$1" ] && ! grep -q 'sanitize' "$CALLS" && [ -z "$(ls "$TMPDIR")" ] && ! ls "$outline"/out/unproved/*.[0-9]* > /dev/null 2>&1
  note $? "$2: compiled otherwise, or a file is left behind"
  : > "$CALLS"
}

# Without a program: it is compiled once, and answers from then on.
: > "$CALLS"
try 'a first answer' 1 "$dir/raw" 'compiling the program without a proof, once' examples/read_after_write.s "$outline/ia64" check
compiled 1 'a first answer'
try 'a second answer' 1 "$dir/raw" "$unproved" examples/read_after_write.s "$outline/ia64" check
cd "$dir" || exit 1
try 'an unproved answer from elsewhere' 1 "$dir/raw" "$unproved" "$here/examples/read_after_write.s" env CDPATH="$dir" "it's an outline/ia64" check
cd "$here" || exit 1
try 'an unproved answer with a number' 0 "$dir/count" "$unproved" examples/count.s "$outline/ia64" run 100
try 'an unproved answer that is watched' 0 "$dir/watched" "$unproved" examples/count.s "$outline/ia64" watch 100
try 'an unproved answer all at once' 0 "$dir/count" "$unproved" examples/count.s "$outline/ia64" groups 100 18446744073709551615
try 'a long input without a proof' 4 "$dir/nothing" 'longer than 16,777,216 bytes' "$dir/too_long" "$outline/ia64" check
try 'no unproved answer' 125 "$dir/nothing" 'wants a proved one: call ./build' examples/count.s env IA64_PROVED=1 "$outline/ia64" check
for value in 1 yes; do try "IA64_PROVED=$value" 125 "$dir/nothing" 'wants a proved one' examples/count.s env IA64_PROVED=$value "$outline/ia64" check; done
try 'no words and no program' 2 "$dir/nothing" 'a command is missing' /dev/null "$outline/ia64"
try 'an unproved answer on a file' 0 "$dir/count" "$unproved" /dev/null "$outline/ia64" run 100 examples/count.s
try 'no unproved answer on a file' 125 "$dir/nothing" 'wants a proved one: call ./build' /dev/null env IA64_PROVED=1 "$outline/ia64" run 100 examples/count.s
compiled 0 'later answers'

# It is seen what the sources are, not when they were written; and what the kit is.
source=$outline/crates/rotation/src/lib.rt
again() { try "$1" 0 "$dir/accepted" "$unproved" examples/count.s "${@:3}" "$outline/ia64" check; compiled "$2" "$1"; }
echo '// more' > "$source" && touch -d '1 day ago' "$source"
again 'an older source' 1
again 'the same source' 0
: > "$source"
again 'the source as it was' 0
rm "$source"
again 'a source that is gone' 1
: > "$source"
echo two > "$kit/KIT-ID"
again 'another kit' 1
echo one > "$kit/KIT-ID"
again 'the first kit' 0

# What can't be compiled, and what can't be kept.
echo '// wrong' > "$source"
try 'sources that are wrong' 125 "$dir/nothing" 'rt: no such word' examples/count.s env REFUSED='no such word' "$outline/ia64" check
compiled 0 'sources that are wrong'
mv "$kit/toolchain/bin" "$kit/toolchain/tools"
cp -r "$kit/toolchain/tools" "$kit/toolchain/bin" && rm "$kit/toolchain/bin/clang" && echo '// kit' > "$source"
try 'a kit laid out otherwise' 0 "$dir/accepted" "kit .*laid out" examples/count.s "$outline/ia64" check
try 'no answer in time' 125 "$dir/accepted" 'gave no answer.*: call ./build' examples/count.s env ANSWERS=no-answer "$outline/ia64" check
rm -r "$kit/toolchain/bin" && mv "$kit/toolchain/tools" "$kit/toolchain/bin"
: > "$CALLS"
printf '#!/bin/bash\nif [ "$*" = check ] && [ "$(head -c 4)" = IA64 ]; then echo accepted; else exit 134; fi\n' > "$dir/broken"
chmod +x "$dir/broken" && echo '// broken' > "$source"
try 'a program that fails' 125 "$dir/nothing" 'unproved program ended with status 134' examples/count.s env BUILT="$dir/broken" "$outline/ia64" check
echo '// two' > "$source"
: > "$CALLS"
(NAP=1 "$outline/ia64" check < examples/count.s > "$dir/first" 2> /dev/null) &
sleep 0.5
try 'a second call at once' 0 "$dir/accepted" 'waiting for it' examples/count.s env NAP=1 "$outline/ia64" check
wait $!
cmp -s "$dir/first" "$dir/accepted"
note $? 'the first of two calls at once'
compiled 1 'two calls at once'
echo '// stopped' > "$source"
for signal in TERM HUP; do
  NAP=30 "$outline/ia64" check < examples/count.s > /dev/null 2>&1 &
  for _ in {1..200}; do grep -q '^begin' "$CALLS" && break; sleep 0.1; done
  kill -s "$signal" $!
  wait $!
  [ $? -gt 128 ] && ! pgrep -f "$dir/bin/rt try" > /dev/null
  note $? "a first call, stopped by $signal"
  compiled 0 "a first call, stopped by $signal"
done

# A checkout in which nothing can be written: the program is kept in the user's cache.
rm -r "$outline/out"
if [ "$(id -u)" = 0 ]; then other=(setpriv --reuid=65534 --clear-groups --); else other=(); chmod -R a-w "$outline"; fi
chmod -R a+rX "$dir" && chmod a+rwx "$TMPDIR" "$XDG_CACHE_HOME" && chmod a+w "$CALLS"
again 'a checkout to be read only' 1 "${other[@]}"
again 'a checkout to be read only, again' 0 "${other[@]}"
[ ! -e "$outline/out/unproved" ]
note $? 'a checkout to be read only has a new file'
chmod a-w "$XDG_CACHE_HOME" "$XDG_CACHE_HOME/ia64" && echo '// none' > "$source"
try 'nowhere to keep it' 0 "$dir/accepted" "can't be kept: nothing can be written in .*/out/unproved .*/cache/ia64" examples/count.s "${other[@]}" "$outline/ia64" check
if [ "$(id -u)" != 0 ]; then chmod -R u+w "$outline"; fi

# A crate that isn't proved: build names it, nothing that stands on it begins, and no program is made.
: > "$CALLS"
try 'a crate that fails' 1 "$dir/nothing" 'flow_facts is not proved: see .*/flow_facts.log' /dev/null env FAILS=flow_facts "$outline/build"
grep -q 'flow_facts is not proved' "$outline/out/build/flow_facts.log"
note $? 'the log of a crate that fails'
! grep -Eq 'begin (group_checker|ia64_top|ia64_cli) ' "$CALLS" && [ ! -e "$outline/crates/ia64_cli/out/ia64_cli" ]
note $? 'a crate began that stands on one that failed'

# All crates: each begins once, in a copy that has the libraries of those that it stands on, as the stand-in asks; those that
# the program doesn't need never begin, and what was proved before is not proved again.
kept=$(grep -c '^end' "$CALLS")
: > "$CALLS"
try 'build' 0 "$dir/nothing" 'the program is proved and built' /dev/null "$outline/build"
awk 'FILENAME == ARGV[1] { if (/^[a-z]/) { split($0, parts, ":"); below[parts[1]] = parts[2] } next }
  $1 == "end" { ended[$2] = 1 }
  $1 == "begin" { began[$2]++; n = split(below[$2], low, " "); for (i = 1; i <= n; i++) if (low[i] in below && !(low[i] in ended)) { print $2 " before " low[i]; bad = 1 } }
  END { exit bad || began["ia64_cli"] != 1 || began["first_fault"] != 1 || began["vectors"] }' crates.txt "$CALLS"
note $? 'the order in which build proves'
[ "$(grep -c '^kept' "$CALLS")" = "$kept" ]
note $? 'a crate that was proved is proved again'
try 'a built program' 0 "$dir/accepted" '' examples/count.s "$outline/ia64" check

# Of two calls at once the second waits.
NAP=0.01 "$outline/build" 2> /dev/null &
sleep 0.5
try 'a second build at once' 0 "$dir/nothing" 'another call is at work' /dev/null "$outline/build"
wait $!
note $? 'the first of two builds at once'

# A call that is stopped leaves neither a copy nor a proof that goes on.
for signal in TERM HUP; do
  : > "$CALLS"
  NAP=30 "$outline/build" > /dev/null 2>&1 &
  for _ in {1..200}; do grep -q '^begin' "$CALLS" && break; sleep 0.1; done
  sleep 1
  kill -s "$signal" $!
  wait $!
  [ $? = 1 ] && ! pgrep -f "$dir/bin/rt" > /dev/null && [ -z "$(ls "$TMPDIR")" ]
  note $? "build, stopped by $signal"
done

# The built program is fresh as long as the sources, the kit and its own bytes are what they were, whatever their dates.
built() { try "$1" "${@:2}" examples/count.s "$outline/ia64" check; }
built 'a built program, after a call that was stopped' 0 "$dir/accepted" ''
mkdir -p "$outline/crates/rotation/specs" "$outline/crates/rotation/proofs"
for name in specs/Lib.antt proofs/Lib.antt ../../crates.txt src/lib.rt; do
  cp "$outline/crates/rotation/$name" "$dir/as_it_was" 2> /dev/null || rm -f "$dir/as_it_was"
  echo '# more' >> "$outline/crates/rotation/$name" && touch -d '1 day ago' "$outline/crates/rotation/$name"
  export IA64_PROVED=1
  built "another $name" 125 "$dir/nothing" 'not built from the sources as they are'
  if [ -e "$dir/as_it_was" ]; then cp "$dir/as_it_was" "$outline/crates/rotation/$name"; else rm "$outline/crates/rotation/$name"; fi
  built "$name as it was" 0 "$dir/accepted" ''
done
echo two > "$kit/KIT-ID"
built 'a program of another kit' 125 "$dir/nothing" 'not built from the sources as they are'
echo one > "$kit/KIT-ID"
mkdir "$dir/script" && printf '#!/bin/bash\nexec %s "$@"\n' "$kit/bin/rt" > "$dir/script/rt" && chmod +x "$dir/script/rt"
PATH=$dir/script:$PATH built 'a kit behind a script' 0 "$dir/accepted" ''
echo two > "$kit/KIT-ID"
PATH=$dir/script:$PATH built 'another kit behind a script' 125 "$dir/nothing" 'not built from the sources as they are'
echo one > "$kit/KIT-ID"
mkdir "$dir/no_rt" && for tool in bash cat cmp cut dirname find mkdir mv readlink rm sha256sum sort xargs; do ln -s "$(type -P "$tool")" "$dir/no_rt"; done
PATH=$dir/no_rt built 'a built program without the kit' 0 "$dir/accepted" ''
truncate -s -1 "$outline/crates/ia64_cli/out/ia64_cli"
built 'half a program' 125 "$dir/nothing" 'not built from the sources as they are'

counted
