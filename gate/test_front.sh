#!/bin/bash
# Runs the tests of the front on the built program.
#
#   gate/test_front.sh [PROGRAM]     PROGRAM is the built one of this repository where none is named
#
# They run twice. First with python3, and with the GNU tools for ia64 where they are installed. Then without these, with Python
# 3.8, the oldest that the front takes, where that is installed. It says with what each ran.
cd "$(dirname "$0")/.." || exit 1
export IA64_PROGRAM=${1:-$PWD/crates/ia64_cli/out/ia64_cli} PYTHONDONTWRITEBYTECODE=1
if [ ! -x "$IA64_PROGRAM" ]; then echo "test_front: $IA64_PROGRAM is not built"; exit 1; fi
folder=$(mktemp -d)
trap 'rm -rf "$folder"' EXIT
status=0

# PATH PYTHON WHAT: the tests with this path of commands.
tests() {
  if ! PATH=$1 "$2" -m unittest discover -s front/tests -t . > "$folder/log" 2>&1; then status=1; cat "$folder/log"; fi
  echo "test_front: $(grep '^Ran ' "$folder/log") with $("$2" --version), $3: $(tail -n 1 "$folder/log")"
}

python=$(python3 -c 'import sys; print(sys.executable)')
oldest=
for candidate in $(type -P python3.8) ~/.pyenv/versions/3.8.*/bin/python3.8; do
  if "$candidate" -c '' 2> /dev/null; then oldest=$candidate; fi
done
if [ -z "$oldest" ]; then echo "test_front: Python 3.8 isn't installed, and isn't tried"; fi
mkdir "$folder/bin"
for tool in bash cat chmod dirname head rm sed sh; do ln -s "$(type -P $tool)" "$folder/bin/$tool"; done
if type -P ia64-linux-gnu-as > /dev/null; then gnu='with the GNU tools'; else gnu='without the GNU tools'; fi
tests "$PATH" "$python" "$gnu"
tests "$folder/bin" "${oldest:-$python}" 'without the GNU tools'
exit $status
