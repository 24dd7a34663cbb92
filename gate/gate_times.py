#!/usr/bin/env python3
"""Measures where the time of the gate goes, by crate, in processor seconds.

  gate/gate_times.py watch LOG COMMAND..   runs a command, as `bash .ci/run`, and writes LOG
  gate/gate_times.py table LOG             prints the table of such a log, as docs/build/gate.md has it

LOG has a line for each check of a crate that the command began: the crate, what was checked, and the seconds that it took. The
last line is `whole`: the seconds of all that the command began, and those on the clock.

What is checked is `proof`, `edits` (must-fail edits, and the check that they begin with) or `tests` (the proof of tests). All
that isn't a check of a crate (compilers, programs, the repository's own tools) is `other` in the table.

The seconds are those of a check and of what it begins, read off /proc twice a second. So the last half second of a check is not
in them. A log speaks of what its run did, and not of what an earlier one had kept. The status of `watch` is the command's. It
needs Linux.
"""
import collections
import os
import pathlib
import subprocess
import sys
import time
from typing import NamedTuple

PAUSE = 0.5
TICK = os.sysconf("SC_CLK_TCK")
KINDS = ("proof", "edits", "tests")


class Process(NamedTuple):
    """A process: its parent, when it started, and its ticks with those of what it has waited for."""

    parent: int
    start: int
    ticks: int


def processes():
    """Each process by its number."""
    found = {}
    for name in os.listdir("/proc"):
        if name.isdigit():
            try:
                text = pathlib.Path("/proc", name, "stat").read_text()
            except OSError:
                continue
            fields = text.rpartition(")")[2].split()
            found[int(name)] = Process(int(fields[1]), int(fields[19]), sum(map(int, fields[11:15])))
    return found


def check_of(number):
    """The crate and the kind of the check that a process makes, or None."""
    try:
        words = pathlib.Path("/proc", str(number), "cmdline").read_bytes().decode(errors="replace").split("\0")
        folder = os.readlink(f"/proc/{number}/cwd")
    except OSError:
        return None
    if os.path.basename(words[0]) != "rattle" or "--crate-name" not in words:
        return None
    crate = words[words.index("--crate-name") + 1]
    is_edit = os.path.basename(folder).startswith("rt-edit")
    return crate, "edits" if is_edit else "tests" if "--test" in words else "proof"


def descendants(found, top):
    """The processes that a process has begun, itself first."""
    children = collections.defaultdict(list)
    for number, process in found.items():
        children[process.parent].append(number)
    waiting, reached = [top], []
    while waiting:
        number = waiting.pop()
        reached.append(number)
        waiting += children[number]
    return [number for number in reached if number in found]


class Watch:
    """What was seen of the checks of a run: of each, by its process and when that started, the crate, the kind and the ticks."""

    def __init__(self):
        self.checks, self.ticks = {}, {}

    def look(self, top):
        found = processes()
        for number in descendants(found, top):
            key = number, found[number].start
            # A process is asked again until it is a check, since it may not have begun it yet.
            check = self.checks.get(key) or check_of(number)
            if check and not self.is_part(found, number):
                self.checks[key] = check
                ticks = sum(found[it].ticks for it in descendants(found, number))
                self.ticks[key] = max(ticks, self.ticks.get(key, 0))

    def is_part(self, found, number):
        """Whether a process was begun by a check."""
        parent = found[number].parent
        return parent in found and (parent, found[parent].start) in self.checks

    def lines(self):
        for key, ticks in self.ticks.items():
            crate, kind = self.checks[key]
            yield f"{crate} {kind} {ticks / TICK:.1f}"


def children_seconds():
    """The processor seconds of all that has been begun and waited for."""
    times = os.times()
    return times.children_user + times.children_system


def watch(log, words):
    """Runs a command and writes what is seen of its checks."""
    began, before, seen = time.time(), children_seconds(), Watch()
    call = subprocess.Popen(words)
    while call.poll() is None:
        seen.look(call.pid)
        time.sleep(PAUSE)
    whole = f"whole {children_seconds() - before:.1f} {time.time() - began:.1f}"
    pathlib.Path(log).write_text("".join(f"{line}\n" for line in [*seen.lines(), whole]))
    return call.returncode


def table(log):
    """Prints the table of a log."""
    sums, whole, wall = collections.defaultdict(lambda: dict.fromkeys(KINDS, 0.0)), 0.0, 0.0
    for line in pathlib.Path(log).read_text().splitlines():
        crate, kind, seconds = line.split()
        if crate == "whole":
            whole, wall = float(kind), float(seconds)
        else:
            sums[crate][kind] += float(seconds)
    print("| Crate | Proof | Edits | Tests | All |\n|---|---|---|---|---|")
    for crate, row in sorted(sums.items(), key=lambda it: -sum(it[1].values())):
        print(f"| `{crate}` | " + " | ".join(f"{row[kind]:.0f}" for kind in KINDS) + f" | {sum(row.values()):.0f} |")
    each = {kind: sum(row[kind] for row in sums.values()) for kind in KINDS}
    print("| all crates | " + " | ".join(f"{each[kind]:.0f}" for kind in KINDS) + f" | {sum(each.values()):.0f} |")
    print(f"| other | | | | {whole - sum(each.values()):.0f} |")
    print(f"| the gate | | | | {whole:.0f} |")
    print(f"\n{whole / 60:.0f} processor minutes, {wall / 60:.0f} minutes of wall")
    return 0


def main(words):
    if len(words) > 2 and words[0] == "watch":
        return watch(words[1], words[2:])
    if len(words) == 2 and words[0] == "table":
        return table(words[1])
    print(__doc__, file=sys.stderr)
    return 2


if __name__ == "__main__":
    sys.exit(main(sys.argv[1:]))
