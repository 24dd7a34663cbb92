#!/bin/bash
# Runs the built program as a user does, and compares bytes and statuses.
#
#   gate/try_program.sh
#
# `rt ci` builds the program. It prints a line for each try that fails, and a count.
. "$(dirname "$0")/tries.sh"
program=$here/crates/ia64_cli/out/ia64_cli

# NAME STATUS WANTED INPUT WORD..: the program on the input ends with the status and writes just these bytes.
try() {
  local name=$1 status=$2 wanted=$3 input=$4 got
  shift 4
  "$program" "$@" < "$input" > "$dir/out" 2> "$dir/err"
  got=$?
  [ "$got" = "$status" ] && cmp -s "$dir/out" "$wanted" && [ ! -s "$dir/err" ]
  note $? "$name: status $got in place of $status, or other bytes"
}

printf 'accepted\n' > "$dir/accepted"
printf 'violations 1\nRAW r8 0.1 0.2\n' > "$dir/raw"
printf 'image: length\n' > "$dir/length"
printf 'image: counts\n' > "$dir/counts"
: > "$dir/nothing"
head -c 39 examples/three_nops.image > "$dir/cut"
head -c 16777217 /dev/zero > "$dir/too_long"
head -c 100 /dev/zero > "$dir/no_image"

try accepted 0 "$dir/accepted" examples/three_nops.image check
try wrap 0 examples/three_nops.image examples/three_nops.bundles wrap
(printf IA64IMG2; tail -c +9 examples/three_nops.image) > "$dir/lifted"
try lift 0 "$dir/lifted" examples/three_nops.image lift
try lift_again 0 "$dir/lifted" "$dir/lifted" lift
printf '{ .mii\n  nop.m 0x0\n  nop.i 0x0\n  nop.i 0x0 ;;\n}\n' > "$dir/text"
try show 0 "$dir/text" examples/three_nops.image show
printf '{ .mii\n  nop.m 0x0\n  add r8=r9,r10\n  add r11=r8,r9 ;;\n}\n' > "$dir/adds"
try show_adds 0 "$dir/adds" examples/read_after_write.image show
try violated 1 "$dir/raw" examples/read_after_write.image check
printf '0 01000000010000000002000000000400 mii\n  nop.m 0x0\n  nop.i 0x0\n  nop.i 0x0 ;;\n' > "$dir/listing"
try list 0 "$dir/listing" examples/three_nops.image list
try build 0 examples/three_nops.image examples/three_nops.s build
try build_shown 0 examples/three_nops.image "$dir/text" build
try build_hazard 0 examples/read_after_write.image examples/read_after_write.s build
try check_text 0 "$dir/accepted" examples/three_nops.s check
try check_hazard 1 "$dir/raw" examples/read_after_write.s check
try check_mended 0 "$dir/accepted" examples/read_after_write_mended.s check
for command in run watch; do
  try "$command hazard" 1 "$dir/raw" examples/read_after_write.s "$command" 100
  try "$command hazard, an image" 1 "$dir/raw" examples/read_after_write.image "$command" 100
done
try no_words 2 "$dir/nothing" examples/three_nops.image
try unknown_word 2 "$dir/nothing" examples/three_nops.image Check
try two_words 2 "$dir/nothing" examples/three_nops.image check now
try cut_image 3 "$dir/length" "$dir/cut" check
try no_bundles 3 "$dir/counts" /dev/null wrap
try too_long 4 "$dir/nothing" "$dir/too_long" wrap
try read_fault 5 "$dir/nothing" "$dir" check
printf 'line 1: char\n' > "$dir/char"
try no_text 3 "$dir/char" "$dir/no_image" check

# GROUPS SLOTS TAKEN LINE..: what the two watchers report: the lines that the first keeps, each without its number, and the
# counts of the second.
reports() {
  local groups=$1 slots=$2 taken=$3 number=0 line
  shift 3
  echo 'watch 0'
  for line in "$@"; do number=$((number + 1)); echo "$number $line"; done
  printf 'watch 1\ngroups %s slots %s taken %s\n' "$groups" "$slots" "$taken"
}

# NAME STATUS STATE INPUT N: `watch N` ends with the status, and prints a line of each of the first eight groups, as many
# groups as the state says, and then just the bytes of the file STATE, which are those that `run N` prints.
try_watch() {
  local name=$1 status=$2 state=$3 input=$4 groups traced got
  groups=$(sed -n 's/^groups //p' "$state")
  traced=$((groups < 8 ? groups : 8))
  "$program" watch "$5" < "$input" > "$dir/out" 2> "$dir/err"
  got=$?
  {
    echo 'watch 0'
    for number in $(seq "$traced"); do echo "$number P P falls"; done
    printf 'watch 1\ngroups %s slots S taken T\n' "$groups"
  } > "$dir/reports"
  [ "$got" = "$status" ] && [ ! -s "$dir/err" ] && tail -n +$((traced + 4)) "$dir/out" | cmp -s - "$state" &&
    head -n $((traced + 3)) "$dir/out" |
    sed -E 's/ [0-9]+\.[012] [0-9]+\.[012] (falls|taken|ends)$/ P P falls/; s/ slots [0-9]+ taken [0-9]+$/ slots S taken T/' |
      cmp -s - "$dir/reports"
  note $? "$name, watched: status $got in place of $status, or other bytes"
}

# NAME STATUS STATE INPUT N: `groups N K` ends with the status and prints the file STATE, whatever K: each program here is
# accepted.
try_groups() {
  local number
  for number in 0 1 7 18446744073709551615; do try "$1, order $number" "$2" "$3" "$4" groups "$5" "$number"; done
}

# NAME STATUS INPUT LAST: `trace` of the groups from 2 to the last, at most the eighth, ends with the status and prints the states
# of `run 1` and on, and of each group the line that `watch` prints.
try_trace() {
  local name=$1 status=$2 input=$3 last=$4 number got
  "$program" trace 1 $((last - 1)) < "$input" > "$dir/out" 2> "$dir/err"
  got=$?
  for number in $(seq "$last"); do "$program" run "$number" < "$input"; done > "$dir/states"
  "$program" watch "$last" < "$input" | sed -n "3,$((last + 1))p" > "$dir/lines"
  [ "$got" = "$status" ] && [ ! -s "$dir/err" ] && grep -v '^[0-9]' "$dir/out" | cmp -s - "$dir/states" &&
    grep '^[0-9]' "$dir/out" | cmp -s - "$dir/lines"
  note $? "$name, traced: status $got in place of $status, or other bytes"
}

# What the comment of an example says that `run` prints.
for name in count counted_loop pipelined_loop predicated behind_a_call call speculation equal_bytes lock counter; do
  sed -n 's|^//   ||p' "examples/$name.s" > "$dir/$name"
  try "$name, as it says" 0 "$dir/$name" "examples/$name.s" run 100
  try_watch "$name" 0 "$dir/$name" "examples/$name.s" 100
  try_groups "$name" 0 "$dir/$name" "examples/$name.s" 100
done
sed -n 's|^//   ||p' examples/deep_recursion.s > "$dir/deep"
try 'deep_recursion, as it says' 0 "$dir/deep" examples/deep_recursion.s run 1000
try_watch deep_recursion 0 "$dir/deep" examples/deep_recursion.s 1000
try_groups deep_recursion 0 "$dir/deep" examples/deep_recursion.s 1000

# NAME GROUPS SLOTS TAKEN LINE..: `watch` prints these reports on an example, and then what `run` prints.
watched() {
  local name=$1
  shift
  { reports "$@"; cat "$dir/$name"; } > "$dir/watched"
  try "$name, watched" 0 "$dir/watched" "examples/$name.s" watch 100
}
one='1.0 1.2 falls' two='2.0 2.2 taken'
watched count 22 66 9 '0.0 0.2 falls' "$one" "$two" "$one" "$two" "$one" "$two" "$one"
try 'count, watched for long' 0 "$dir/watched" examples/count.s watch 10000000
"$program" build < examples/count.s > "$dir/image"
try 'count, an image that is watched' 0 "$dir/watched" "$dir/image" watch 22
turn='1.0 1.2 taken'
watched counted_loop 12 36 9 '0.0 0.2 falls' "$turn" "$turn" "$turn" "$turn" "$turn" "$turn" "$turn"
turn='3.0 3.2 taken'
watched pipelined_loop 8 26 4 '0.0 0.1 falls' '1.0 2.2 falls' "$turn" "$turn" "$turn" "$turn" '3.0 3.2 falls' '4.0 4.2 ends'
watched predicated 3 9 0 '0.0 0.2 falls' '1.0 1.2 falls' '2.0 2.2 ends'
watched call 6 18 2 '0.0 0.2 falls' '1.0 1.2 taken' '3.0 3.2 falls' '4.0 4.2 falls' '5.0 5.2 taken' '2.0 2.2 ends'
watched speculation 14 41 3 '0.0 0.1 falls' '1.0 1.2 falls' '2.0 2.2 falls' '3.0 3.2 falls' '4.0 4.2 falls' '5.0 5.2 taken' \
  '1.0 1.2 falls' '2.0 2.2 falls'

try_trace count 8 examples/count.s 8
try_trace pipelined_loop 0 examples/pipelined_loop.s 8
try_trace call 0 examples/call.s 6
try_trace speculation 8 examples/speculation.s 8
try_trace deep_recursion 8 examples/deep_recursion.s 8
for words in '22 1' '10000000 100'; do
  # shellcheck disable=SC2086
  try "count, traced from its end: $words" 0 "$dir/count" examples/count.s trace $words
done

for name in loop_edge swap override late_alloc; do
  sed -n 's|^//   ||p' "examples/$name.s" > "$dir/$name"
  try "$name, as it says" 1 "$dir/$name" "examples/$name.s" check
  for command in run watch 'trace 0'; do
    # shellcheck disable=SC2086
    try "$name, $command, as it says" 1 "$dir/$name" "examples/$name.s" $command 100
  done
done

# A text of tests/run/ says in its first line for how many groups it is run and with which status that ends. All are accepted.
for text in tests/run/*.s; do
  read -r _ _ groups _ status _ < <(tr -d ',:' < "$text")
  try "$text" "$status" "${text%.s}.state" "$text" run "$groups"
  try_watch "$text" "$status" "${text%.s}.state" "$text" "$groups"
  try_groups "$text" "$status" "${text%.s}.state" "$text" "$groups"
  try "$text, checked" 0 "$dir/accepted" "$text" check
done

# COUNT: a text of so many bundles, three `nop` and a stop each.
all_nops() { yes $'{ .mii\nnop 0\nnop 0\nnop 0 ;;\n}' | head -n "$((5 * $1))"; }

# The largest program: 32,768 bundles and 1,048,576 bytes of data, whose last word is loaded.
{
  printf '{ .mlx\n  nop.m 0\n  movl r8=0x1ffff8 ;;\n}\n{ .mii\n  ld8 r9=[r8]\n  nop 0\n  nop 0 ;;\n}\n'
  all_nops 32766
  printf '.data\n.skip 1048568\ndata8 7\n'
} > "$dir/largest"
printf 'end fault FellOff at 32767.2\ngroups 32768\nframe 0 sof 0 sol 0 sor 0 rrb 0 0 0\nrse 0 0 0 0\nr8 00000000001ffff8\nr9 0000000000000007\npr 0000000000000001\nm 00000000001ffff8 0000000000000007\n' > "$dir/largest_state"
try 'the largest program' 9 "$dir/largest_state" "$dir/largest" run 100000
try_watch 'the largest program' 9 "$dir/largest_state" "$dir/largest" 100000
try_groups 'the largest program' 9 "$dir/largest_state" "$dir/largest" 100000

# The longest state but for registers: 131,072 words of data.
{
  printf '{ .mib\n  nop 0\n  nop 0\n  break.b 0\n}\n.data\n'
  for _ in {1..4096}; do printf 'data8 1,1,1,1,1,1,1,1,1,1,1,1,1,1,1,1,1,1,1,1,1,1,1,1,1,1,1,1,1,1,1,1\n'; done
} > "$dir/words"
{
  printf 'end break 0x0 at 0.2\ngroups 1\nframe 0 sof 0 sol 0 sor 0 rrb 0 0 0\nrse 0 0 0 0\npr 0000000000000001\n'
  awk 'BEGIN { for (n = 0; n < 131072; n++) printf "m %016x 0000000000000001\n", 1048576 + 8 * n }'
} > "$dir/words_state"
try 'the longest state' 0 "$dir/words_state" "$dir/words" run 1
try_groups 'the longest state' 0 "$dir/words_state" "$dir/words" 1

# What `run` prints of a state in which the machine has no register frame, after the end and the groups.
state() { printf 'end %s\ngroups %s\nframe 0 sof 0 sol 0 sor 0 rrb 0 0 0\nrse 0 0 0 0\n' "$1" "$2"; }
{ state 'fault FellOff at 0.2' 1; echo 'pr 0000000000000001'; } > "$dir/fell_off"
try fell_off 9 "$dir/fell_off" examples/three_nops.image run 1
{ state 'limit at 2.0' 4; printf 'r8 0000000000000001\nr9 0000000000000002\npr 0000000000000001\nar.lc 0000000000000008\n'; } > "$dir/limited"
try limited 8 "$dir/limited" examples/count.s run 4
{ reports 4 12 1 '0.0 0.2 falls' '1.0 1.2 falls' '2.0 2.2 taken' '1.0 1.2 falls'; cat "$dir/limited"; } > "$dir/watched"
try 'limited, watched' 8 "$dir/watched" examples/count.s watch 4
{ reports 1 3 0 '0.0 0.2 ends'; cat "$dir/fell_off"; } > "$dir/watched"
try 'fell_off, watched' 9 "$dir/watched" examples/three_nops.image watch 1

# A loop without an end, of one group a turn: the limit ends it. The first watcher is full with the eighth group.
printf 'loop:\n{ .mib\nadds r8=1,r8\nnop 0\nbr.cond.sptk.few loop ;;\n}\n' > "$dir/endless"
for groups in 1 7 8 9 2000; do
  { state 'limit at 0.0' "$groups"; printf 'r8 %016x\npr 0000000000000001\n' "$groups"; } > "$dir/state"
  lines=()
  for _ in $(seq $((groups < 8 ? groups : 8))); do lines+=('0.0 0.2 taken'); done
  { reports "$groups" $((3 * groups)) "$groups" "${lines[@]}"; cat "$dir/state"; } > "$dir/watched"
  try "a loop without an end, $groups groups" 8 "$dir/state" "$dir/endless" run "$groups"
  try "a loop without an end, $groups groups, watched" 8 "$dir/watched" "$dir/endless" watch "$groups"
done

# A fault ends a group within it: the slots up to the faulty one count. One in a group of two bundles.
printf '{ .mii\nnop 0\nnop 0\nnop 0\n}\n{ .mii\nnop 0\nadd r8=r32,r0\nnop 0 ;;\n}\n' > "$dir/faulty"
{ reports 1 5 0 '0.0 1.1 ends'; state 'fault OutOfFrame at 1.1' 1; echo 'pr 0000000000000001'; } > "$dir/watched"
try 'a fault within a group, watched' 9 "$dir/watched" "$dir/faulty" watch 100

# Two writes of one register leave what the number of their order says, as text and as image. No verdict is made.
writes=tests/check/two_writes_of_a_register.s
"$program" build < "$writes" > "$dir/image"
for row in '0 2' '1 1' '2 2' '18446744073709551615 1'; do
  read -r number value <<< "$row"
  { state 'fault FellOff at 0.2' 1; printf 'r14 %016x\npr 0000000000000001\n' "$value"; } > "$dir/state"
  try "two writes, order $number" 9 "$dir/state" "$writes" groups 5 "$number"
  try "two writes, order $number, an image" 9 "$dir/state" "$dir/image" groups 5 "$number"
done

# What isn't run has no reports.
printf 'line 1: empty\n' > "$dir/empty"
for command in run watch; do
  try "$command of nothing" 3 "$dir/empty" /dev/null "$command" 1
  try "$command of no text" 3 "$dir/char" "$dir/no_image" "$command" 1
  try "$command of a cut image" 3 "$dir/length" "$dir/cut" "$command" 1
  try "$command of a long input" 4 "$dir/nothing" "$dir/too_long" "$command" 1
  try "$command of a folder" 5 "$dir/nothing" "$dir" "$command" 1
  for word in '' 0 01 +5 -5 ' 5' 10000001 5x 99999999999999999999; do
    try "$command '$word'" 2 "$dir/nothing" examples/count.s "$command" "$word"
  done
  try "$command alone" 2 "$dir/nothing" examples/count.s "$command"
  try "$command 5 6" 2 "$dir/nothing" examples/count.s "$command" 5 6
done
try 'Watch 5' 2 "$dir/nothing" examples/count.s Watch 5
try 'groups of nothing' 3 "$dir/empty" /dev/null groups 1 0
try 'groups of no text' 3 "$dir/char" "$dir/no_image" groups 1 0
try 'groups of a cut image' 3 "$dir/length" "$dir/cut" groups 1 0
try 'groups of a long input' 4 "$dir/nothing" "$dir/too_long" groups 1 0
try 'groups of a folder' 5 "$dir/nothing" "$dir" groups 1 0
for words in '' 5 '5 00' '5 01' '5 +1' '5 -1' '5 1x' '5 18446744073709551616' '0 0' '01 0' '10000001 0' '5 0 0'; do
  # shellcheck disable=SC2086
  try "groups $words" 2 "$dir/nothing" examples/count.s groups $words
done

try 'trace of nothing' 3 "$dir/empty" /dev/null trace 0 1
try 'trace of no text' 3 "$dir/char" "$dir/no_image" trace 0 1
try 'trace of a cut image' 3 "$dir/length" "$dir/cut" trace 0 1
try 'trace of a long input' 4 "$dir/nothing" "$dir/too_long" trace 0 1
try 'trace of a folder' 5 "$dir/nothing" "$dir" trace 0 1
for words in '' 5 '0 0' '0 01' '00 1' '01 1' '0 101' '10000001 1' '-1 1' '+1 1' '0 1x' '0 1 1'; do
  # shellcheck disable=SC2086
  try "trace $words" 2 "$dir/nothing" examples/count.s trace $words
done

# Trials, which read nothing, not even a folder. Every program of these seeds is accepted.
trial() { printf 'trial %s\naccepted\nend break 0x0 at %s.2\ngroups %s\nsum %s\n' "$1" "$(($2 - 1))" "$2" "$3"; }
trial '1 1' 1 0000000000000000 > "$dir/trial"
try 'trial 1 1' 0 "$dir/trial" "$dir" trial 1 1
trial '0 3' 3 0000000000000000 > "$dir/trial"
try 'trial 0 3' 0 "$dir/trial" "$dir" trial 0 3
# The sums are those of a model that was written apart.
trial '1 4096' 4096 9ffff3d2bf694f98 > "$dir/trial"
try 'trial 1 4096' 0 "$dir/trial" /dev/null trial 1 4096
trial '18446744073709551615 4096' 4096 80001c0a6adf165c > "$dir/trial"
try 'trial of the last seed' 0 "$dir/trial" /dev/null trial 18446744073709551615 4096
for seed in {2..40}; do "$program" trial "$seed" 256 < /dev/null | grep -q '^accepted$'; note $? "trial $seed 256"; done
for words in '1 4097' '1 0' '1 01' '-1 1' '01 1' '18446744073709551616 1' '1' '1 1 1'; do
  # shellcheck disable=SC2086
  try "trial $words" 2 "$dir/nothing" /dev/null trial $words
done

# The examples that are right: accepted, as text and as image. Built, shown and built again they give one image.
for name in count predicated behind_a_call counted_loop pipelined_loop call deep_recursion speculation equal_bytes lock counter; do
  try "$name" 0 "$dir/accepted" "examples/$name.s" check
  "$program" build < "examples/$name.s" > "$dir/image" && "$program" show < "$dir/image" > "$dir/shown"
  note $? "$name: not built or not shown"
  try "$name, built again" 0 "$dir/image" "$dir/shown" build
  try "$name, an image" 0 "$dir/accepted" "$dir/image" check
done

# Each text of tests/check/ has its verdict beside it, and so has its image. Where that is violations, `run` and `watch`
# print it too, and nothing else.
for text in tests/check/*.s; do
  verdict=${text%.s}.verdict
  cmp -s "$verdict" "$dir/accepted"
  status=$?
  try "$text" "$status" "$verdict" "$text" check
  "$program" build < "$text" > "$dir/image"
  try "$text, an image" "$status" "$verdict" "$dir/image" check
  if [ "$status" = 1 ]; then
    for command in run watch; do try "$text, $command" 1 "$verdict" "$text" "$command" 100; done
  fi
done

# 32,768 bundles with two clashes each: all are counted, and the first hundred are shown.
yes $'{ .mii\nnop 0\nadd r8=r9,r10\nadd r8=r8,r9 ;;\n}' | head -n 163840 > "$dir/clashes"
{
  echo 'violations 65536'
  for n in {0..49}; do printf 'RAW r8 %d.1 %d.2\nWAW r8 %d.1 %d.2\n' "$n" "$n" "$n" "$n"; done
} > "$dir/hundred"
try 'the most bundles that clash' 1 "$dir/hundred" "$dir/clashes" check
try 'the most bundles that clash, run' 1 "$dir/hundred" "$dir/clashes" run 100

# The same number of bundles in groups of 192 slots, in which each slot is held against all before it.
awk 'BEGIN { for (n = 1; n <= 32768; n++) printf "{ .mii\nnop 0\nnop 0\nnop 0%s\n}\n", n % 64 ? "" : " ;;" }' > "$dir/long_groups"
try 'the longest groups' 0 "$dir/accepted" "$dir/long_groups" check

# Groups of 120 slots, in which each slot reads what the first writes under the other predicate of a compare.
{
  printf '{ .mii\ncmp.eq p6,p7=r8,r9\nnop 0\nnop 0 ;;\n}\n'
  for group in {1..102}; do
    for first in {8..125..3}; do
      [ "$first" = 8 ] && under=p6 || under=p7
      printf '{ .mii\n(%s) add r%s=r8,r8\n(p7) add r%s=r8,r8\n(p7) add r%s=r8,r8%s\n}\n' \
        "$under" "$first" "$((first + 1))" "$((first + 2))" "$([ "$first" = 125 ] && echo ' ;;')"
    done
  done
} > "$dir/excused_groups"
try 'the longest excused groups' 0 "$dir/accepted" "$dir/excused_groups" check

# A loop of branches back from bundle to bundle, in which two cycles of predicates, of 32 and of 31, go on by one
# each time: what is known at its start gets lost pair by pair, in many rounds.
branch() { printf '{ .mib\nnop.m 0\nnop.i 0\n%s ;;\n}\n' "$1"; }
copy() { printf '{ .mii\n(p%s) cmp.eq.unc p%s,p0=r0,r0\nnop.i 0\nnop.i 0 ;;\n}\n' "$1" "$2"; }
cycle() { copy "$1" 62; for n in $(seq "$1" $(($2 - 1))); do copy $((n + 1)) "$n"; done; copy 62 "$2"; }
{
  for n in {2..31} {33..61}; do branch "(p$n) br.cond end"; done
  branch 'br.cond back100'
  printf 'back0:\n'; branch 'br.cond turn'
  for n in {1..100}; do printf 'back%s:\n' "$n"; branch "br.cond back$((n - 1))"; done
  printf 'turn:\n'; cycle 1 31; cycle 32 61
  branch 'br.cloop back100'
  printf 'end:\n'; branch 'break.b 0'
} > "$dir/many_rounds"
try 'facts that are lost in many rounds' 0 "$dir/accepted" "$dir/many_rounds" check

# TEXT WORD BYTES: the command refuses these bytes, given as printf takes them, with this text.
refused() {
  printf 'image: %s\n' "$1" > "$dir/wanted"
  printf "$3" > "$dir/refused"
  try "$1" 3 "$dir/wanted" "$dir/refused" "$2"
}

# REASON LINE TEXT: `build` and `check` refuse this text, given as printf takes it, at this line.
refused_text() {
  printf 'line %s: %s\n' "$2" "$1" > "$dir/wanted"
  printf "$3" > "$dir/refused"
  try "$1 by build" 3 "$dir/wanted" "$dir/refused" build
  try "$1 by check" 3 "$dir/wanted" "$dir/refused" check
}

refused_text char 1 'nop.i 0 // d\303\251j\303\240 vu\n'
refused_text name 1 'ADD r8=r9,r10\n'
refused_text register 1 'add r8=in0,r10\n'
refused_text number 1 'adds r8=r9,r10\n'
refused_text range 1 'adds r8=8192,r9\n'
refused_text form 1 'add r8=r9\n'
refused_text template 5 '{ .mii\nnop 0 ;;\nnop 0\nnop 0\n}\n'
refused_text 'slot kind' 2 '{ .mii\nbr.ret.sptk.few b0\n'
refused_text twice 2 'x:\nx:\n'
refused_text 'no label' 4 '{ .mib\nnop 0\nnop 0\nbr.cond.sptk.few x\n}\n'
refused_text limit 3 '.data\n.skip 1048576\ndata1 0\n'
refused_text misplaced 1 'nop.i 0\n'
refused_text misplaced 2 '{ .mii\n'
refused_text empty 1 ''
refused_text relation 6 '{ .mii\nnop 0\nnop 0\nnop 0\n}\n.pred.rel "mutex",p6,p7\n'
long=
for _ in {1..65}; do long+='{ .mii\nnop 0\nnop 0\nnop 0\n}\n'; done
refused_text 'long run' 322 "$long"

# Three nop with a stop behind them, and without one.
nops='\x01\0\0\0\x01\0\0\0\0\x02\0\0\0\0\x04\0'
open='\0\0\0\0\x01\0\0\0\0\x02\0\0\0\0\x04\0'

refused 'short' check 'IA64IMG1'
refused 'short' show ''
refused 'short' list ''
refused 'magic' show 'IA64IMG3\x01\0\0\0\0\0\0\0\0\0\0\0\0\0\0\0'
refused 'entry 0' check 'IA64IMG1\x01\0\0\0\x01\0\0\0\0\0\0\0\0\0\0\0\x01\0\0\0'"$nops"
refused 'bundle 1: template' wrap "$nops"'\x06\0\0\0\0\0\0\0\0\0\0\0\0\0\0\0'
refused 'bundle 0 slot 2: unlisted' wrap '\x01\0\0\0\x01\0\0\0\0\x02\x80\xff\xff\xff\xff\xff'
refused 'bundle 0 slot 2: target' wrap '\x11\0\0\0\x01\0\0\0\0\x02\0\0\x10\0\0\x40'
long=
for _ in {1..65}; do long+=$open; done
refused 'bundle 64 slot 0: long run' wrap "$long"

# Images of version 2, as printf takes them: a head with so many bundles, entries and relations, and a relation.
number() { printf '\\x%02x\\x%02x\\0\\0' $(($1 & 255)) $(($1 >> 8)); }
front() { printf 'IA64IMG2%s%s\\0\\0\\0\\0%s' "$(number "$1")" "$(number "$2")" "$(number "$3")"; }
relation() { printf '%s\\x%02x\\x%02x\\0\\0' "$(number "$1")" "$2" "$3"; }

# NAME BYTES: a file with these bytes, given as printf takes them.
made() { printf "$2" > "$dir/$1"; }

# The most bundles, three `nop` and a stop each. With up to 4,096 of them an image is written in version 1, and with up to
# 32,768 in version 2.
made bundles "$nops"
for _ in {1..15}; do cat "$dir/bundles" "$dir/bundles" > "$dir/twice" && mv "$dir/twice" "$dir/bundles"; done
# NAME FRONT COUNT: a file with these bytes, given as printf takes them, and so many bundles.
many() {
  made "$1" "$2"
  head -c $((16 * $3)) "$dir/bundles" >> "$dir/$1"
}
zeros='\0\0\0\0\0\0\0\0\0\0\0\0'
many image_4096 "IA64IMG1$(number 4096)$zeros" 4096
many lifted_4096 "$(front 4096 0 0)" 4096
for count in 4097 32768; do many "image_$count" "$(front $count 0 0)" $count; done
for count in 4096 4097 32768; do
  many bare '' $count
  all_nops $count > "$dir/text"
  try "$count bundles, wrapped" 0 "$dir/image_$count" "$dir/bare" wrap
  try "$count bundles, built" 0 "$dir/image_$count" "$dir/text" build
  try "$count bundles, checked" 0 "$dir/accepted" "$dir/image_$count" check
  "$program" show < "$dir/image_$count" > "$dir/shown"
  try "$count bundles, shown and built again" 0 "$dir/image_$count" "$dir/shown" build
done
try '4096 bundles, lifted' 0 "$dir/lifted_4096" "$dir/image_4096" lift
try '4096 bundles, lifted and lifted again' 0 "$dir/lifted_4096" "$dir/lifted_4096" lift
try '4097 bundles, lifted' 0 "$dir/image_4097" "$dir/image_4097" lift
printf 'image: counts\n' > "$dir/counts"
{ cat "$dir/bundles"; printf "$nops"; } > "$dir/bare"
try '32769 bundles, wrapped' 3 "$dir/counts" "$dir/bare" wrap
{ printf "$(front 32769 0 0)"; cat "$dir/bare"; } > "$dir/refused"
try '32769 bundles in version 2' 3 "$dir/counts" "$dir/refused" check
many refused "IA64IMG1$(number 4097)$zeros" 4097
for command in check show lift; do try "4097 bundles in version 1, $command" 3 "$dir/counts" "$dir/refused" "$command"; done
all_nops 32769 > "$dir/text"
printf 'line 163841: limit\n' > "$dir/wanted"
try '32769 bundles, built' 3 "$dir/wanted" "$dir/text" build

# The most declared entries, 1,024, and one more.
entries=''
for n in {1..1024}; do entries+=$(number "$n"); done
many image "IA64IMG1$(number 1025)$(number 1024)${zeros:0:16}$entries" 1025
try 'the most entries' 0 "$dir/accepted" "$dir/image" check
"$program" show < "$dir/image" > "$dir/text"
try 'the most entries, shown and built again' 0 "$dir/image" "$dir/text" build
many refused "IA64IMG1$(number 1026)$(number 1025)${zeros:0:16}$entries$(number 1025)" 1026
try 'one entry more' 3 "$dir/counts" "$dir/refused" check
{ printf '.entry L1025\nL1025:\n'; all_nops 1; } >> "$dir/text"
printf 'line 7174: limit\n' > "$dir/wanted"
try 'one entry more, built' 3 "$dir/wanted" "$dir/text" build

# The farthest branches, from the first bundle to the last and from the last to the first.
{
  printf 'first:\n{ .mib\nnop 0\nnop 0\n(p6) br last ;;\n}\n'
  all_nops 32766
  printf 'last:\n{ .mib\nnop 0\nnop 0\nbr first ;;\n}\n'
} > "$dir/text"
"$program" build < "$dir/text" > "$dir/image" && "$program" show < "$dir/image" > "$dir/shown"
note $? 'the farthest branches: not built or not shown'
printf '  (p6) br.cond.sptk.few L32767 ;;\nL32767:\n' > "$dir/wanted"
grep -x '.*L32767.*' "$dir/shown" | cmp -s - "$dir/wanted"
note $? 'the farthest branches: other lines'
try 'the farthest branches, built again' 0 "$dir/image" "$dir/shown" build
try 'the farthest branches, checked' 0 "$dir/accepted" "$dir/image" check

entry='\x01\0\0\0'

# Two bundles: a compare with the targets p6 and p7, and two moves to r8, one under p6 and one under p7. The second one is an
# entry, which promises that p6 and p7 aren't both 1, or nothing.
compare='\x01\x30\0\0\x07\x38\0\0\0\x02\0\0\0\0\x04\0'
moves='\x01\0\0\0\x01\x80\x81\x08\0\0\xc8\x03\x21\0\0\x90'
printf 'violations 1\nWAW r8 1.1 1.2\n' > "$dir/waw"
promise=$(relation 1 6 7)
made promised "$(front 2 1 1)$entry$promise$compare$moves"
made plain "$(front 2 1 0)$entry$compare$moves"
made first 'IA64IMG1\x02\0\0\0\x01\0\0\0\0\0\0\0\0\0\0\0'"$entry$compare$moves"
try 'a relation' 0 "$dir/accepted" "$dir/promised" check
for image in plain first; do try "no relation, $image" 1 "$dir/waw" "$dir/$image" check; done
for command in run watch; do try "no relation, $command" 1 "$dir/waw" "$dir/plain" "$command" 9; done

# What is shown says the relation, and builds the image of version 2; without relations it builds that of version 1. What is
# listed doesn't say it.
shown() {
  printf '{ .mii\n  cmp.eq p6,p7=r0,r0\n  nop.i 0x0\n  nop.i 0x0 ;;\n}\n.entry L1\nL1:\n%s' "$1"
  printf '{ .mii\n  nop.m 0x0\n  (p6) addl r8=1,r0\n  (p7) addl r8=2,r0 ;;\n}\n'
}
shown $'.pred.rel "mutex",p6,p7\n' > "$dir/promised_text"
shown '' > "$dir/text"
"$program" list < "$dir/first" > "$dir/listing"
note $? "no relation, list: another status than 0"
for image in promised plain first; do try "$image, listed" 0 "$dir/listing" "$dir/$image" list; done
for image in plain first; do try "$image, shown" 0 "$dir/text" "$dir/$image" show; done
try 'a relation, shown' 0 "$dir/promised_text" "$dir/promised" show
try 'a relation that was shown' 0 "$dir/promised" "$dir/promised_text" build
try 'a relation that was shown, checked' 0 "$dir/accepted" "$dir/promised_text" check
try 'no relation that was shown' 0 "$dir/first" "$dir/text" build
try 'no relation that was shown, checked' 1 "$dir/waw" "$dir/text" check

# The same program as a text, with the line at each place where it speaks of bundle 1, spelled in some ways.
first_bundle='{ .mii\ncmp.eq p6,p7=r0,r0\nnop.i 0\nnop.i 0 ;;\n}\n'
second_bundle='{ .mii\nnop.m 0\n(p6) mov r8=1\n(p7) mov r8=2 ;;\n}\n'
line='.pred.rel "mutex",p6,p7\n'
for between in ".entry e\ne:\n$line" ".entry e\n${line}e:\n" "$line.entry e\ne:\n" ".entry e\ne:\n$line$line" \
  "$line.data\n.skip 0\n.text\n\n// a comment\ne:\n.entry e\n" 'e:\n\t.pred.rel\t"mutex" , p7,p6 // p8\n.entry e\n'; do
  printf "$first_bundle$between$second_bundle" > "$dir/related"
  try "a relation of a text, $between" 0 "$dir/promised" "$dir/related" build
  try "a relation of a text, $between, checked" 0 "$dir/accepted" "$dir/related" check
done
printf "$first_bundle.entry e\ne:\n.pred.rel \"mutex\",p8,p7,p6\n$second_bundle" > "$dir/related"
made three "$(front 2 1 3)$entry$promise$(relation 1 6 8)$(relation 1 7 8)$compare$moves"
try 'three predicates' 0 "$dir/three" "$dir/related" build
shown "$(printf '.pred.rel "mutex",p%s,p%s\n' 6 7 6 8 7 8)"$'\n' > "$dir/three_text"
try 'three predicates, shown' 0 "$dir/three_text" "$dir/three" show

# Before the first bundle, which is an entry, and faults of the line by itself.
printf '.pred.rel "mutex",p6,p7\n{ .mii\nnop.m 0\nnop.i 0\nnop.i 0 ;;\n}\n' > "$dir/related"
made wanted "$(front 1 0 1)$(relation 0 6 7)$nops"
try 'a relation before bundle 0' 0 "$dir/wanted" "$dir/related" build
refused_text range 1 '.pred.rel "mutex",p6,p16\n'
refused_text range 1 '.pred.rel "mutex",p0,p7\n'
refused_text register 1 '.pred.rel "mutex",p6,r7\n'
for wrong in '' ' "mutex"' ' "mutex",p6' ' "mutex",p6,' ' "mutex",p6,p6' ' "mutex" p6,p7' ' "imply",p6,p7' ' "clear"' ' mutex,p6,p7' \
  ' "mutex,p6,p7' ' "mutex//",p6,p7' ' "mutex",p6,p7 ;;' ' "mutex",p6-p9'; do
  refused_text form 1 ".pred.rel$wrong\n"
done
refused_text form 1 '(p6) .pred.rel "mutex",p6,p7\n'
refused_text name 1 '.pred.rel.mutex p6,p7\n'
refused_text misplaced 2 '{ .mii\n.pred.rel "mutex",p6,p7\n'
refused_text misplaced 2 '.data\n.pred.rel "mutex",p6,p7\n'

# Of the whole text: after missing labels and before long runs, at the first line that has one.
other='.pred.rel "mutex",p1,p2\n'
refused_text relation 6 "$first_bundle$line$second_bundle$other"
refused_text relation 14 "$first_bundle.entry e\ne:\n$line$second_bundle$other$second_bundle$line"
refused_text relation 12 "$line$first_bundle$second_bundle$other"
refused_text 'no label' 12 "$first_bundle$line$second_bundle.entry e\n"
refused_text empty 2 "$line"
refused_text misplaced 8 "$first_bundle$line{ .mii\n"
long=
for _ in {1..65}; do long+='{ .mii\nnop 0\nnop 0\nnop 0\n}\n'; done
refused_text relation 326 "$long$line"
refused_text 'long run' 323 "$line$long"

# A walk that comes from a bundle that sets neither predicate doesn't know what the entry promises.
made direct "$(front 2 1 1)$entry$promise$nops$moves"
try 'a relation and a direct path' 1 "$dir/waw" "$dir/direct" check

# A relation of bundle 0, and one of a bundle behind a call, which are entries without being declared.
made promised_start "$(front 1 0 1)$(relation 0 6 7)$moves"
try 'a relation of bundle 0' 0 "$dir/accepted" "$dir/promised_start" check
call='\x11\0\0\0\x01\0\0\0\0\x02\0\0\0\0\0\x50'
made promised_return "$(front 2 0 1)$promise$call$moves"
try 'a relation behind a call' 0 "$dir/accepted" "$dir/promised_return" check
made return "$(front 2 0 0)$call$moves"
try 'no relation behind a call' 1 "$dir/waw" "$dir/return" check

# A branch to bundle 3, behind an `or` compare that sets p6 and p7: movl r9=0x10030; mov b6=r9 and cmp.eq.or p6,p7=r8,r10;
# br.cond b6; break.b 0. The entry promises that the two aren't both 1. Where it promises it of p6 and p8, or nothing, the run
# goes on.
landing='\x05\0\0\0\x01\0\0\0\0\0\0\x20\x01\x23\0\x60\x01\0\0\0\x01\0\x60\x48\x04\x80\x03\xc0\x80\x50\x1c\xd1'
landing+='\x11\0\0\0\x01\0\0\0\0\x02\0\0\x60\0\x80\0\x11\0\0\0\x01\0\0\0\0\x02\0\0\0\0\0\0'
rest() { printf 'r9 0000000000010030\npr 00000000000000c1\nb6 0000000000010030\n'; }
third='\x03\0\0\0'
made broken "$(front 4 1 1)$third$(relation 3 6 7)$landing"
try 'a broken relation, checked' 0 "$dir/accepted" "$dir/broken" check
{ state 'fault BadRelation at 2.2' 3; rest; } > "$dir/state"
try 'a broken relation' 9 "$dir/state" "$dir/broken" run 9
try_watch 'a broken relation' 9 "$dir/state" "$dir/broken" 9
{ reports 3 8 0 '0.0 0.1 falls' '1.0 1.2 falls' '2.0 2.2 ends'; cat "$dir/state"; } > "$dir/watched"
try 'a broken relation, watched' 9 "$dir/watched" "$dir/broken" watch 9
{ state 'limit at 2.0' 2; rest; } > "$dir/state"
try 'a relation before it is broken' 8 "$dir/state" "$dir/broken" run 2
{ state 'break 0x0 at 3.2' 4; rest; } > "$dir/state"
made kept "$(front 4 1 1)$third$(relation 3 6 8)$landing"
made plain_landing "$(front 4 1 0)$third$landing"
for image in kept plain_landing; do try "a landing, $image" 0 "$dir/state" "$dir/$image" run 9; done

# Each part of the rule of relations, and the first relation that breaks one.
two=$(front 2 1 2)$entry
for wrong in "$(relation 1 6 5)" "$(relation 1 6 6)" "$(relation 1 0 7)" "$(relation 1 6 16)" "$(relation 2 6 7)" \
  '\x01\0\0\0\x06\x07\x01\0' '\x01\0\0\0\x06\x07\0\x01' '\x01\0\0\x01\x06\x07\0\0'; do
  for command in show list check; do refused 'relation 0' "$command" "$(front 2 1 1)$entry$wrong$compare$moves"; done
  for command in run watch; do try "relation 0, $command" 3 "$dir/wanted" "$dir/refused" "$command" 9; done
  refused 'relation 0' check "$two$wrong$promise$compare$moves"
  refused 'relation 1' check "$two$(relation 0 1 2)$wrong$compare$moves"
done
refused 'relation 0' check "$(front 2 0 1)$promise$compare$moves"
for before in "$promise" "$(relation 1 6 8)" "$(relation 1 7 8)"; do
  refused 'relation 1' check "$two$before$promise$compare$moves"
done
refused 'relation 1' check "$two$promise$(relation 0 8 9)$compare$moves"

# Every other fault stands before those of relations.
wrong=$(relation 1 7 6)
refused 'counts' check 'IA64IMG1\x02\0\0\0\x01\0\0\0\0\0\0\0\x01\0\0\0'"$entry$promise$compare$moves"
refused 'entry 0' check "$(front 2 1 1)"'\x02\0\0\0'"$wrong$compare$moves"
refused 'bundle 1: template' check "$(front 2 1 1)$entry$wrong$compare"'\x06\0\0\0\0\0\0\0\0\0\0\0\0\0\0\0'
refused 'bundle 1 slot 2: target' check "$(front 2 1 1)$entry$wrong$compare"'\x11\0\0\0\x01\0\0\0\0\x02\0\0\x10\0\0\x40'

# One byte less and one more.
printf 'image: length\n' > "$dir/length"
head -c 67 "$dir/promised" > "$dir/refused"
try 'a relation, one byte less' 3 "$dir/length" "$dir/refused" check
made refused "$(front 2 1 1)$entry$promise$compare$moves\0"
try 'a relation, one byte more' 3 "$dir/length" "$dir/refused" check
refused 'length' show "$(front 2 1 2)$entry$promise$compare$moves"

# The most relations: all 105 of each of 39 entries, and one of another.
entries='' code=$nops pairs='' all=''
for p in {1..14}; do for q in $(seq $((p + 1)) 15); do pairs+="_$(printf '\\x%02x\\x%02x\\0\\0' "$p" "$q")"; done; done
for n in {1..39}; do entries+=$(number "$n") code+=$nops; done
for n in {0..38}; do all+=${pairs//_/"$(number "$n")"}; done
first=$(relation 39 1 2) second=$(relation 39 1 3)
made most "$(front 40 39 4096)$entries$all$first$code"
lines=$(for p in {1..14}; do for q in $(seq $((p + 1)) 15); do echo ".pred.rel \"mutex\",p$p,p$q"; done; done)
one='.pred.rel "mutex",p1,p2'
bundle=$'{ .mii\n  nop.m 0x0\n  nop.i 0x0\n  nop.i 0x0 ;;\n}'
# LINES LAST: the text of these bundles, with these lines before each but the last, and these before the last.
all_related() {
  printf '%s\n%s\n' "$1" "$bundle"
  for n in {1..38}; do printf '.entry L%s\nL%s:\n%s\n%s\n' "$n" "$n" "$1" "$bundle"; done
  printf '.entry L39\nL39:\n%s\n%s\n' "$2" "$bundle"
}
all_related "$lines" "$one" > "$dir/text"
try 'the most relations' 0 "$dir/accepted" "$dir/most" check
try 'the most relations, shown' 0 "$dir/text" "$dir/most" show
try 'the most relations, built' 0 "$dir/most" "$dir/text" build
every=.pred.rel$(printf ' "mutex"'; printf ',p%s' {1..15})
all_related "$every" "$one"$'\n'"$one" > "$dir/text"
try 'the most relations on few lines, built' 0 "$dir/most" "$dir/text" build
# One more: the third line before the last bundle, which is line 315.
all_related "$every" "$one"$'\n'"$one"$'\n.pred.rel "mutex",p1,p3' > "$dir/text"
printf 'line 315: limit\n' > "$dir/wanted"
try 'one relation more' 3 "$dir/wanted" "$dir/text" build
refused 'counts' check "$(front 40 39 4097)$entries$all$first$second$code"
refused 'relation 4095' check "$(front 40 39 4096)$entries$all$(relation 38 1 2)$code"

# NAME TEXT WANTED: `stops` packs the loose text, given as printf takes it, into just these bytes, given so too; and what it
# prints keeps what docs/use/text.md says: `check` accepts it, `build` takes it, and `show` of that is the text without the
# lines of stops.
try_stops() {
  printf "$2" > "$dir/loose"
  printf "$3" > "$dir/wanted"
  try "$1" 0 "$dir/wanted" "$dir/loose" stops
  kept_by_stops "$1"
}

# NAME: the file `out` has what `stops` printed. Where a stop of a pair is taken out, `check` prints its violation first.
kept_by_stops() {
  local number=0 why
  cp "$dir/out" "$dir/packed"
  grep -v '^//' "$dir/packed" > "$dir/text"
  try "$1, packed and checked" 0 "$dir/accepted" "$dir/packed" check
  "$program" build < "$dir/packed" > "$dir/image"
  note $? "$1, packed: not built"
  try "$1, packed, built and shown" 0 "$dir/text" "$dir/image" show
  while read -r _ _ why; do
    number=$((number + 1))
    case $why in written | long) continue ;; esac
    awk -v n="$number" '/ ;;$/ && ++count == n { sub(/ ;;$/, "") } { print }' "$dir/packed" > "$dir/text"
    [ "$("$program" check < "$dir/text" | sed -n 2p)" = "$why" ]
    note $? "$1, without stop $number"
  done < <(grep '^//' "$dir/packed")
}

# REASON LINE TEXT: `stops` refuses this text, given as printf takes it, at this line.
refused_stops() {
  printf 'line %s: %s\n' "$2" "$1" > "$dir/wanted"
  printf "$3" > "$dir/loose"
  try "$1 by stops, line $2" 3 "$dir/wanted" "$dir/loose" stops
}

# The example, whose comment has the lines of its stops.
try 'a loose text' 0 tests/loose/example.packed examples/loose.s stops
kept_by_stops 'a loose text'
sed -n 's|^//   ||p' examples/loose.s > "$dir/wanted"
grep '^//' "$dir/packed" | cmp -s - "$dir/wanted"
note $? 'a loose text: other stops than it says'
{ state 'break 0x0 at 3.1' 5; printf 'r8 %016x\nr9 %016x\nr10 %016x\nr14 0000000000100000\n' 5 7 7
  printf 'pr 0000000000000041\nm 0000000000100000 0000000000000007\n'; } > "$dir/state"
try 'a loose text, packed and run' 0 "$dir/state" "$dir/packed" run 100

# A pair; two moves of which one predicate is 0; and no text.
try_stops 'a pair of additions' 'add r8=r9,r10\nadd r11=r8,r9\nbreak.i 0\n' \
  '{ .mmi\n  add r8=r9,r10 ;;\n  add r11=r8,r9\n  break.i 0x0\n}\n// 0.0 RAW r8 0.0 0.1\n'
compare='{ .mmi\n  cmp.eq p6,p7=r0,r0 ;;\n  (p6) addl r8=1,r0\n  (p7) addl r8=2,r0\n}\n'
nop_mi='  nop.m 0x0\n  nop.i 0x0\n' mii_nops='{ .mii\n  nop.m 0x0\n  nop.i 0x0\n  nop.i 0x0\n}\n'
try_stops 'two predicates' 'cmp.eq p6,p7=r0,r0\n(p6) mov r8=1\n(p7) mov r8=2\nbr.ret b0\n' \
  "$compare{ .mib\n$nop_mi  br.ret.sptk.few b0\n}\n// 0.0 RAW p6 0.0 0.1\n"
refused_stops empty 1 ''
refused_stops misplaced 1 '{ .mii'

# The second place of a violation that a stop prevents may be that of a nop.
try_stops 'a violation of a nop' 'clrrrb\nshl r8=r9,r10\n' \
  "{ .mib\n$nop_mi  clrrrb ;;\n}\n{ .mii\n  nop.m 0x0\n  shl r8=r9,r10\n  nop.i 0x0\n}\n// 0.2 CLEAR cfm 0.2 1.0\n"
# A stop may follow a nop.
try_stops 'a stop behind a nop' 'adds r8=1,r9\nadds r10=1,r8\n' \
  '{ .mii\n  adds r8=1,r9\n  nop.i 0x0 ;;\n  adds r10=1,r8\n}\n// 0.1 RAW r8 0.0 0.2\n'
try_stops 'a stop before an alloc' 'shl r8=r9,r10\n;;\nshl r8=r9,r10\nalloc r32=ar.pfs,0,1,0,0\n' \
  '{ .mii\n  nop.m 0x0\n  shl r8=r9,r10 ;;\n  shl r8=r9,r10 ;;\n}\n{ .mii\n  alloc r32=ar.pfs,0,1,0,0\n  nop.i 0x0\n  nop.i 0x0\n}\n// 0.1 written\n// 0.2 ALLOC cfm 0.2 1.0\n'
# An .entry line begins no bundle, and the label that it names does.
try_stops 'an entry' 'add r8=r9,r10\n.entry b\nadd r11=r9,r10\nb:\nnop\n' \
  "{ .mii\n  add r8=r9,r10\n  add r11=r9,r10\n  nop.i 0x0\n}\n.entry L1\nL1:\n$mii_nops"
try_stops 'a stop at the end' 'add r8=r9,r10\n;;\n;;\n' '{ .mii\n  add r8=r9,r10\n  nop.i 0x0\n  nop.i 0x0 ;;\n}\n// 0.2 written\n'
try_stops 'a call under a predicate' 'x:\n(p6) br.call b0=x\nadd r8=r9,r10\n' \
  "L0:\n{ .mib\n$nop_mi  (p6) br.call.sptk.few b0=L0\n}\n{ .mii\n  add r8=r9,r10\n  nop.i 0x0\n  nop.i 0x0\n}\n"
# A written stop is named as one, though the pair would want it too.
try_stops 'a stop that both want' 'add r8=r9,r10 ;;\nadd r11=r8,r9\n' \
  '{ .mii\n  add r8=r9,r10\n  nop.i 0x0 ;;\n  add r11=r8,r9\n}\n// 0.1 written\n'
# An instruction that brings a stop with it on the way back to its loop.
try_stops 'a loop' 'x:\nadds r8=1,r8\n(p6) br x\n' \
  'L0:\n{ .mib\n  adds r8=1,r8\n  nop.i 0x0\n  (p6) br.cond.sptk.few L0\n}\n'
try_stops 'bare letters' 'x:\nchk.s r8,x\nhint\nbreak 1\n' \
  'L0:\n{ .mii\n  chk.s.m r8,L0\n  hint.i 0x0\n  break.i 0x1\n}\n'
try_stops 'a relation' '.pred.rel "mutex",p6,p7\n(p6) mov r8=1\n(p7) mov r8=2\n' \
  '.pred.rel "mutex",p6,p7\n{ .mii\n  (p6) addl r8=1,r0\n  (p7) addl r8=2,r0\n  nop.i 0x0\n}\n'
try_stops 'data and a number' '.data\nx:\ndata8 1\n.text\nmovl r8=x\nmovl r9=7\n' \
  '{ .mlx\n  nop.m 0x0\n  movl r8=0x100000\n}\n{ .mlx\n  nop.m 0x0\n  movl r9=0x7\n}\n.data\ndata8 0x1\n'

# Sixty-four bundles want a stop, behind the sixty-third: there are no more than 63 without one.
{ for _ in {1..64}; do echo 'nop.x'; done; } > "$dir/loose"
{
  for n in {1..64}; do printf '{ .mlx\n  nop.m 0x0\n  nop.x 0x0%s\n}\n' "$([ "$n" = 63 ] && echo ' ;;')"; done
  echo '// 62.1 long'
} > "$dir/wanted"
try 'a long stretch' 0 "$dir/wanted" "$dir/loose" stops
kept_by_stops 'a long stretch'

# Faults, in their order.
for text in '}' '{ .mii' ';;' 'x:\n;;' '.data\n;;' 'nop\n.data\n;;' '.data\nnop 0x1fffff' '.data\n.pred.rel "mutex",p6,p7' 'data1 0' \
  'nop\nx:' 'x:\n.data' '.skip 0'; do
  line=$(printf "$text\n" | wc -l)
  case $text in 'nop\nx:' | 'x:\n.data') line=$((line + 1)) ;; esac
  refused_stops misplaced "$line" "$text\n"
done
for text in '{' '{ 5' '{ .xyz' 'ADD r8=r9,r10'; do refused_stops name 1 "$text\n"; done
for text in 'nop 0x200000' 'break 0x200000' '(p6) nop 0x3fffffffffffffff' '.data\nnop 0x200000' 'hint 0x200000'; do
  refused_stops range "$(printf "$text\n" | wc -l)" "$text\n"
done
try_stops 'a number of unit X' 'nop.x 0x200000\n' '{ .mlx\n  nop.m 0x0\n  nop.x 0x200000\n}\n'
refused_stops twice 3 'x:\nnop\nx:\n'
refused_stops empty 3 '.data\ndata1 0\n'
refused_stops 'no label' 1 'br x\n.data\nx:\n'
refused_stops 'no label' 2 'nop\n.entry x\n'
refused_stops 'no label' 3 '.pred.rel "mutex",p6,p7\nnop\nbr x\n.pred.rel "mutex",p6,p7\n'
refused_stops relation 2 'nop\n.pred.rel "mutex",p6,p7\n'
refused_stops relation 2 'nop\n.pred.rel "mutex",p6,p7\nnop\n'
refused_stops limit 3 '.data\n.skip 1048576\ndata1 0\n'
refused_stops char 1 'nop // d\303\251j\303\240 vu\n'
printf 'line 1: char\n' > "$dir/wanted"
try 'stops of an image' 3 "$dir/wanted" examples/three_nops.image stops
try 'stops of a text with bundles' 3 <(printf 'line 10: misplaced\n') examples/three_nops.s stops

# The most bundles: as if no stop were wanted, in the order of lines; and of the packing, behind all other faults.
yes 'nop.x' | head -n 32769 > "$dir/loose"
printf 'line 32769: limit\n' > "$dir/limit"
try '32769 long instructions' 3 "$dir/limit" "$dir/loose" stops
head -n 32768 "$dir/loose" > "$dir/most"
"$program" stops < "$dir/most" > "$dir/out"
note $? '32768 long instructions: not packed'
[ "$(grep -c '^{' "$dir/out")" = 32768 ] && [ "$(grep -c '^// .* long$' "$dir/out")" = 520 ]
note $? '32768 long instructions: other bundles or stops'
kept_by_stops '32768 long instructions'
yes clrrrb | head -n 40000 > "$dir/loose"
try '40000 times clrrrb' 3 "$dir/limit" "$dir/loose" stops
echo 'br x' >> "$dir/loose"
printf 'line 40001: no label\n' > "$dir/wanted"
try '40000 times clrrrb and a missing label' 3 "$dir/wanted" "$dir/loose" stops

try 'stops of a long input' 4 "$dir/nothing" "$dir/too_long" stops
try 'stops of a folder' 5 "$dir/nothing" "$dir" stops
for words in 'stops now' 'stops 5' Stops stop; do
  # shellcheck disable=SC2086
  try "$words" 2 "$dir/nothing" examples/loose.s $words
done

"$program" check < examples/three_nops.image > /dev/full 2> /dev/null
note $(($? != 6)) "write_fault: another status than 6"
"$program" watch 100 < examples/count.s > /dev/full 2> /dev/null
note $(($? != 6)) "write_fault, watched: another status than 6"
"$program" stops < examples/loose.s > /dev/full 2> /dev/null
note $(($? != 6)) "write_fault, stops: another status than 6"

counted
