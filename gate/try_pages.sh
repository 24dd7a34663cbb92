#!/bin/bash
# Compares what the documents quote with the built program, by try_page.py.
#
#   gate/try_pages.sh             in an outline of the repository
#   gate/try_pages.sh FOLDER      in FOLDER, an unpacked release, as its pages say
#
# What needs the GNU tools is tried where they are installed.
here=$(cd "$(dirname "$0")/.." && pwd)
root=${1:-$here} standing=() status=0
if [ $# != 0 ]; then standing=(--root "$1"); fi
try() { python3 -B "$here/gate/try_page.py" "${standing[@]}" "$@" || status=1; }
use=$root/docs/use
try "$use/check.md" "$use/stops.md" "$use/wrong_groups.md" "$root/examples/lessons/README.md"
try --section 'Running a program' --section 'Following a run' --section 'Where does a program spend its groups?' "$use/run.md"
try --section 'See it' "$use/teach.md"
try --section 'Exit statuses' "$use/commands.md"
try --answers --section 'Programs of a stated size' "$use/run.md"
try --answers --section 'A tour of the examples' "$use/teach.md"
if type -P ia64-linux-gnu-objcopy > /dev/null; then
  try "$use/README.md" "$use/objects.md" "$use/calls.md"
  try --section 'In the first minute' "$root/README.md"
fi
exit $status
