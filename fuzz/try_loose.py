#!/usr/bin/env python3
"""Takes bundles and stops out of programs with `ia64 loosen`, and looks at what `stops` makes of what is left.

  fuzz/try_loose.py [--program FILE] [--seed S] [--texts N] [--real]

It is called by hand.

- Each program of `examples/` and `tests/` that is accepted, and with --real each of `../shared/real` beside the repository, where
  that is there. `stops` packs it, `build` takes what that prints, `check` accepts it, and it runs to the end and the results that
  the program had before. Registers that hold addresses of bundles aren't compared, since the bundles are others. Where data have
  such addresses, those of declared entries, they are put right in the image.
- N random loose texts, which the seed fixes. What `stops` prints is what the model of `loose_model.py` says, line by line.

It prints what differs, and a count. The status is 1 where something does.
"""

import argparse
import json
import lzma
import random as randoms
import re
import shutil
import struct
import subprocess
import sys
from pathlib import Path

from places import PROGRAM, ROOT

from gnu_as import stop
from loose_model import Model, Unknown
from printed_forms import HEAD, Layout
from random_texts import Shape, random_lines
from front import loosen

REAL = ROOT.parent / "shared" / "real"
CODE_START = 0x10000
GROUPS = "10000000"


class Wrong(Exception):
    """What a program does otherwise than it should."""


def call(options, words, data):
    done = subprocess.run([options.program, *words.split()], input=data, capture_output=True, check=False)
    return done.returncode, done.stdout


def wanted(options, words, data):
    """What a command prints that has to end with status 0."""
    status, output = call(options, words, data)
    if status:
        raise Wrong(f"{words}: status {status}, {output[:60]!r}")
    return output


def entries_of(image):
    layout = Layout(image)
    return struct.unpack(f"<{layout.entries}I", image[HEAD:layout.after_entries])


def address(bundle):
    return CODE_START + 16 * bundle


def with_labels(text, image):
    """A canonical text in which `movl` names the declared entries whose addresses it has."""
    names = {address(n): f"L{n}" for n in entries_of(image)}
    return re.sub(r"(?m)^(  (?:\(p\d+\) )?movl r\d+=)(0x[0-9a-f]+)",
                  lambda found: found[1] + names.get(int(found[2], 16), found[2]), text)


def with_addresses(packed, image):
    """The image of a packed program, whose data have the addresses of its entries in place of those that they had
    before. Each entry keeps an instruction of its own, so they are the same ones in order."""
    layout = Layout(packed)
    moved = dict(zip(map(address, entries_of(image)), map(address, entries_of(packed))))
    words = struct.iter_unpack("<Q", packed[layout.end:])
    return packed[:layout.end] + b"".join(struct.pack("<Q", moved.get(word, word)) for word, in words)


def results(state, bundles):
    """What a printed state says, but for places, groups and what may be the address of a bundle."""
    found = {}
    for line in state.decode().splitlines():
        name, *rest = line.split()
        if name == "end":
            found[name] = rest[:-2]
        elif name == "m":
            found[name, rest[0]] = rest[1:]
        elif name not in ("groups", "rse") and not name.startswith("b"):
            found[name] = rest
    codes = range(CODE_START, address(bundles + 1))
    return {name: rest for name, rest in found.items() if not (re.fullmatch("[0-9a-f]{16}", rest[0]) and int(rest[0], 16) in codes)}


def packed_image(options, image):
    """The image of the program into which the instructions of another one are packed."""
    text = with_labels(wanted(options, "show", image).decode(), image)
    packed = wanted(options, "stops", loosen.loosened(text.encode()))
    built = wanted(options, "build", packed)
    if len(entries_of(built)) != len(entries_of(image)):
        raise Wrong("other entries")
    return with_addresses(built, image)


def try_image(options, image):
    """Packs a program anew, and compares how the two run."""
    packed = packed_image(options, image)
    if call(options, "check", packed) != (0, b"accepted\n"):
        raise Wrong("not accepted")
    before, after = (call(options, f"run {GROUPS}", data) for data in (image, packed))
    if before[0] != after[0]:
        raise Wrong(f"status {after[0]} in place of {before[0]}: {after[1][:60]!r}")
    most = max(Layout(image).bundles, Layout(packed).bundles)
    one, other = results(before[1], most), results(after[1], most)
    differing = [f"{name}: {other.get(name)} in place of {one.get(name)}" for name in one.keys() | other.keys()
                 if one.get(name) != other.get(name)]
    if differing:
        raise Wrong("; ".join(sorted(differing)[:3]))
    return Layout(image).bundles, Layout(packed).bundles


def own_images(options):
    """The accepted programs of the repository that end, by name."""
    for path in sorted([*(ROOT / "examples").glob("*.s"), *(ROOT / "tests" / "run").glob("*.s")]):
        status, image = call(options, "build", path.read_bytes())
        if status == 0 and call(options, "check", image)[0] == 0 and call(options, f"run {GROUPS}", image)[0] == 0:
            yield path.name, image


def real_images():
    """The programs of `../shared/real`, by name, where it is there."""
    if not (REAL / "index.json").exists():
        print("try_loose: ../shared/real is not there")
        return
    images = lzma.open(REAL / "images.bin.xz").read()
    for row in json.loads((REAL / "index.json").read_text()):
        first, size = row["image"]
        yield row["name"], images[first:first + size]


def try_images(options, images):
    """How many programs there are, and how many of them go wrong."""
    count = wrong = old = new = 0
    for name, image in images:
        count += 1
        try:
            sizes = try_image(options, image)
            old, new = old + sizes[0], new + sizes[1]
        except Wrong as fault:
            wrong += 1
            print(f"{name}: {fault}")
    print(f"{count} programs of {old} bundles, packed into {new}; {wrong} wrong")
    return wrong


def random_text(random):
    """A random loose text."""
    shape = Shape(random, bundles=random.randrange(1, 7))
    text = "\n".join(random_lines(random, shape)) + "\n"
    return loosen.loosened(text.encode("latin-1"), random.randrange(3) == 0).decode("latin-1")


def try_text(options, number):
    """What differs from the model for a random text of this number, or nothing; and whether the model knows."""
    text = random_text(randoms.Random(f"{options.seed} {number}"))
    try:
        lines = Model(options.program, text, loosen).answer()
    except Unknown:
        return "unknown"
    status, output = call(options, "stops", text.encode())
    got = output.decode().splitlines()
    if status or len(got) != len(lines) or any(line not in (None, other) for line, other in zip(lines, got)):
        print(f"seed {options.seed} text {number}: status {status}\n{text}the model:\n", "\n".join(map(str, lines)),
              "\nthe program:\n", "\n".join(got), sep="")
        return "wrong"
    return "right"


def main():
    words = argparse.ArgumentParser(description=__doc__, formatter_class=argparse.RawDescriptionHelpFormatter)
    words.add_argument("--program", default=str(PROGRAM), help="another program than the built one of this repository")
    words.add_argument("--seed", type=int, default=1)
    words.add_argument("--texts", type=int, default=100, help="how many random texts")
    words.add_argument("--real", action="store_true", help="the programs of ../shared/real too")
    options = words.parse_args()
    if shutil.which(options.program) is None:
        stop(f"{options.program} is not there: call ./build, which proves and builds it")
    wrong = try_images(options, own_images(options))
    if options.real:
        wrong += try_images(options, real_images())
    found = [try_text(options, number) for number in range(options.texts)]
    print(f"{len(found)} random texts: " + ", ".join(f"{found.count(word)} {word}" for word in ("right", "wrong", "unknown")))
    sys.exit(1 if wrong or "wrong" in found else 0)


if __name__ == "__main__":
    main()
