#!/usr/bin/env python3
"""Times the commands, and prints five tables.

  bench/run.py              all five
  bench/run.py --worst      the last table alone
  bench/run.py --count      adds millions of instructions, as valgrind counts them: they are the same on every machine, and take
                            fifty times as long

It is called by hand, after the program was built. The tables are: build, show and list beside the GNU tools on the same work;
trials; run, watch and groups on loops; stops beside build and check of what it prints; and every command on the inputs that take
it longest.

The inputs of the first table are programs of so many bundles, each with a label, a load, an addition and a branch to another
bundle. A trial makes its own program, checks it and runs it. A time is the best of five, with the start of the program. All
outputs go to files.

The GNU assembler looks for violated dependencies under -xexplicit and not under -xnone. `build` doesn't, as `check` does that.
`objdump -d` and `list` print bytes and instructions, `show` a text that builds again. A loop is run to its `break`; of its speed
the slots of its turns are counted alone. `watch` shows each group to two watchers; on a counted loop a group is one bundle. The
loose text is that of the first table without bundles and stops. It is packed into another program, as each label begins a bundle.

The last table has the worst inputs within the limits (`inputs.py`). Its seconds are those of the processor, the best of three. Its
megabytes are the greatest peak, at least that of this script, about 15. It ends with status 1 where an input takes longer than is
allowed, or more than 640 MB, or isn't answered at all.
"""

import os
import pathlib
import re
import shutil
import subprocess
import sys
import tempfile
import time

import inputs

ROOT = pathlib.Path(__file__).resolve().parent.parent
PROGRAM = ROOT / "crates" / "ia64_cli" / "out" / "ia64_cli"
SIZES = (1024, 4096, 32768)
TRIALS = (256, 1024, 4096)
RUNS = 5
AS, OBJDUMP, OBJCOPY = (f"ia64-linux-gnu-{name}" for name in ("as", "objdump", "objcopy"))


def text_of(count):
    """The program of so many bundles."""
    lines = []
    for n in range(count):
        k = n % 8
        lines += [
            f"L{n}:",
            "{ .mib",
            f"  ld8 r{64 + n % 32}=[r{40 + k}]",
            f"  add r{8 + k}=r{16 + k},r{24 + k}",
            f"  (p6) br.cond.sptk.few L{(n * 7 + 3) % count} ;;",
            "}",
        ]
    return "\n".join(lines) + "\n"


def seconds(command, source, output):
    """The best time of a command that reads one file and prints into another."""
    best = None
    for _ in range(RUNS):
        with open(source, "rb") as stdin, open(output, "wb") as stdout:
            start = time.perf_counter()
            subprocess.run(command, stdin=stdin, stdout=stdout, check=True)
            taken = time.perf_counter() - start
        best = taken if best is None else min(best, taken)
    return best


def has_gnu():
    return all(shutil.which(name) for name in (AS, OBJDUMP, OBJCOPY))


def ours(folder):
    """Our commands, in an order in which each finds its input: what it is, the command, what it reads,
    and what it makes."""
    text, image = folder / "text.s", folder / "image"
    return [
        ("build", [PROGRAM, "build"], text, image),
        ("show", [PROGRAM, "show"], image, folder / "shown.s"),
        ("list", [PROGRAM, "list"], image, folder / "listing"),
    ]


def theirs(folder):
    """The GNU tools' commands for the same work. The assembler names the file that it makes."""
    text, made = folder / "text.s", folder / "made.o"
    return [
        ("as -xexplicit", [AS, "-xexplicit", "-o", made, text], text, made),
        ("as -xnone", [AS, "-xnone", "-o", made, text], text, made),
        ("objdump -d", [OBJDUMP, "-d", made], made, folder / "dump"),
    ]


def require_same(folder):
    """Stops unless `build` and the GNU assembler made the same bundles."""
    bundles = folder / "bundles"
    subprocess.run([OBJCOPY, "-O", "binary", "-j", ".text", folder / "made.o", bundles], check=True)
    if (folder / "image").read_bytes()[24:] != bundles.read_bytes():
        sys.exit("build and the GNU assembler made different bundles")


def measure(count, folder):
    """Prints the lines of the table for so many bundles."""
    (folder / "text.s").write_text(text_of(count))
    for name, command, source, made in ours(folder) + (theirs(folder) if has_gnu() else []):
        output = folder / "printed" if made in command else made
        milliseconds = 1000 * seconds(command, source, output)
        print(f"| {count} | {name} | {milliseconds:.1f} | {made.stat().st_size} |", flush=True)
    if has_gnu():
        require_same(folder)


# Turns, the slots of each, and the text before, in and after the loop.
TURNS = 1000000
LOOPS = {
    "a counted loop": (3, "{ .mlx\n  nop.m 0\n  movl r9=%d ;;\n}\n{ .mii\n  nop.m 0\n  mov.i ar.lc=r9\n  nop.i 0 ;;\n}\n"
        "loop:\n{ .mib\n  add r8=r8,r9\n  adds r10=1,r10\n  br.cloop.sptk.few loop ;;\n}\n"
        "{ .mib\n  nop.m 0\n  nop.i 0\n  break.b 0 ;;\n}\n"),
    "a load, a store and a rotation": (6, "{ .mlx\n  alloc r8=ar.pfs,8,8,0,8\n  movl r9=0x100000 ;;\n}\n"
        "{ .mlx\n  nop.m 0\n  movl r10=%d ;;\n}\n{ .mii\n  nop.m 0\n  mov.i ar.lc=r10\n  mov.i ar.ec=1 ;;\n}\n"
        "loop:\n{ .mmi\n  ld8 r32=[r9]\n  st8 [r9]=r33\n  adds r11=1,r11 ;;\n}\n"
        "{ .mib\n  nop.m 0\n  add r34=r33,r11\n  br.ctop.sptk.few loop ;;\n}\n"
        "{ .mib\n  nop.m 0\n  nop.i 0\n  break.b 0 ;;\n}\n.data\ndata8 1\n"),
}


def measure_trial(count, folder):
    """Prints the line of a trial of so many bundles."""
    taken = seconds([PROGRAM, "trial", "1", str(count)], os.devnull, folder / "trial")
    print(f"| {count} | {1000 * taken:.1f} |", flush=True)


def measure_loop(name, folder):
    """Prints the line of a loop: how many million slots a second `run` makes, `watch`, and `groups`."""
    slots, text = LOOPS[name]
    source = folder / "loop.s"
    source.write_text(text % (TURNS - 1))
    commands = (["run", "10000000"], ["watch", "10000000"], ["groups", "10000000", "0"])
    times = (seconds([PROGRAM] + command, source, folder / "state") for command in commands)
    run, watch, groups = (slots * TURNS / taken / 1e6 for taken in times)
    print(f"| {name} | {run:.1f} | {watch:.1f} | {watch / run:.2f} | {groups:.1f} |", flush=True)


INSTRUCTIONS = 60000


def measure_loose(folder):
    """Prints the lines of a loose text: what `stops` takes, and `build` and `check` of what it prints."""
    loose, packed = folder / "loose.s", folder / "packed.s"
    loose.write_bytes(inputs.loose(text_of(INSTRUCTIONS // 3).replace(" ;;", ";;").encode()))
    for name, source, output in (("stops", loose, packed), ("build", packed, folder / "image"), ("check", packed, folder / "verdict")):
        print(f"| {name} | {1000 * seconds([PROGRAM, name], source, output):.1f} | {output.stat().st_size} |", flush=True)


# The worst inputs: the words of a command, what makes its input, and how many seconds it may take at most.
# To `run`, `watch` and `groups` time isn't limited.
MEGABYTES = 640
BUILDS = (
    inputs.empty_lines, inputs.stop_lines, inputs.section_lines, inputs.ignored_lines, inputs.skip_lines,
    inputs.comment_lines, inputs.blank_lines, inputs.numbers, inputs.number_lines, inputs.long_numbers,
    inputs.short_slots, inputs.long_slots, inputs.rising_labels, inputs.scattered_labels, inputs.long_labels,
    inputs.late_labels, inputs.relation_lines, inputs.relation_pairs,
)
CHECKS = (
    inputs.largest_program, inputs.most_violations, inputs.most_excuses, inputs.losses_past_nops,
    inputs.losses_past_compares, inputs.losses_past_branches, inputs.losses_in_zigzag, inputs.losses_past_violations,
)
LOOSE = (inputs.long_stretches, inputs.most_pairs, inputs.loose_excuses, inputs.loose_losses, inputs.late_limit)
WORST = [("build", make, 12) for make in BUILDS]
WORST += [(words, inputs.largest_program, 1) for words in ("show", "list")]
WORST += [("wrap", inputs.most_bundles, 1)]
WORST += [("check", make, 60) for make in CHECKS]
WORST += [("stops", make, 120) for make in LOOSE]
WORST += [
    ("trial 1 4096", inputs.nothing, 10),
    ("run 1", inputs.largest_state, None),
    ("run 10000000", inputs.endless_calls, None),
    ("watch 10000000", inputs.endless_calls, None),
    ("run 1000000", inputs.endless_stores, None),
    ("groups 10000000 0", inputs.endless_calls, None),
    ("groups 1000000 0", inputs.endless_stores, None),
    ("groups 10000 0", inputs.endless_writes, None),
    # The order with this number brings the farthest write forward, as often as there is a digit left.
    ("groups 10000 18443771615816063999", inputs.endless_writes, None),
]


def prepare(words, make, source):
    """Writes the input of a command: a text, or what `build` makes of it, for `wrap` without the head. The
    text is made by a process of its own, since what a process has had in memory counts in the peak of those
    that it starts."""
    with source.open("wb") as made:
        subprocess.run([sys.executable, inputs.__file__, make.__name__], stdout=made, check=True)
    if words in ("show", "list", "wrap"):
        built = subprocess.run([PROGRAM, "build"], stdin=source.open("rb"), stdout=subprocess.PIPE, check=True)
        source.write_bytes(built.stdout[24:] if words == "wrap" else built.stdout)


def cost(command, source, output):
    """The processor's seconds and the peak megabytes of a command, and its status."""
    with open(source, "rb") as stdin, open(output, "wb") as stdout:
        child = subprocess.Popen(command, stdin=stdin, stdout=stdout)
        _, status, usage = os.wait4(child.pid, 0)
    child.returncode = os.WEXITSTATUS(status) if os.WIFEXITED(status) else 128
    return usage.ru_utime + usage.ru_stime, usage.ru_maxrss / 1024, child.returncode


def instructions(command, source, output):
    """How many million instructions a command takes."""
    counter = ["valgrind", "--tool=callgrind", "--callgrind-out-file=/dev/null"]
    with open(source, "rb") as stdin, open(output, "wb") as stdout:
        counted = subprocess.run(counter + command, stdin=stdin, stdout=stdout, stderr=subprocess.PIPE)
    return int(re.search(rb"Collected : (\d+)", counted.stderr).group(1)) / 1e6


def measure_worst(words, make, allowed, folder, counts):
    """Prints the line of a worst input, and says whether it was answered within its limits."""
    source, output, command = folder / "input", folder / "output", [PROGRAM] + words.split()
    prepare(words, make, source)
    runs = [cost(command, source, output) for _ in range(3)]
    taken, peak = min(run[0] for run in runs), max(run[1] for run in runs)
    within = taken <= (allowed or taken) and peak <= MEGABYTES and runs[0][2] in (0, 1, 3, 8, 9)
    count = f" {instructions(command, source, output):.0f} |" if counts else ""
    limit, verdict = allowed or "none", "" if within else " exceeded"
    print(f"| {words} | {make.__name__} | {taken:.2f} | {limit}{verdict} | {peak:.0f} |{count}", flush=True)
    return within


def worst_within(folder, counts):
    """Prints the table of the worst inputs, and says whether all are within their limits."""
    more, line = (" Million instructions |", "---|") if counts else ("", "")
    print(f"| Command | Input | Seconds, best of 3 | Limit | MB |{more}\n|---|---|---|---|---|{line}")
    return all([measure_worst(*row, folder, counts) for row in WORST])


def print_tables():
    """Prints the tables beside the GNU tools, of trials, of loops and of a loose text."""
    if not has_gnu():
        print("Without the GNU tools for ia64, which are not installed.")
    one, five, fifteen = os.getloadavg()
    print(f"{os.cpu_count()} processors, load {one:.1f} {five:.1f} {fifteen:.1f}")
    print("| Bundles | Command | Milliseconds, best of 5 | Bytes made |\n|---|---|---|---|")
    with tempfile.TemporaryDirectory() as folder:
        for count in SIZES:
            measure(count, pathlib.Path(folder))
        print("\n| Bundles | trial, milliseconds, best of 5 |\n|---|---|")
        for count in TRIALS:
            measure_trial(count, pathlib.Path(folder))
        print("\n| Loop | run, million slots a second, best of 5 | watch | watch by run | groups |\n|---|---|---|---|---|")
        for name in LOOPS:
            measure_loop(name, pathlib.Path(folder))
        print(f"\n| {INSTRUCTIONS} loose instructions | Milliseconds, best of 5 | Bytes made |\n|---|---|---|")
        measure_loose(pathlib.Path(folder))


def main():
    if not PROGRAM.exists():
        sys.exit(f"{PROGRAM} is not there: call ./build, which proves and builds it")
    if "--worst" not in sys.argv:
        print_tables()
        print()
    with tempfile.TemporaryDirectory() as folder:
        sys.exit(not worst_within(pathlib.Path(folder), "--count" in sys.argv))


if __name__ == "__main__":
    main()
