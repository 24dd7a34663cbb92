#!/usr/bin/env python3
"""Draws the pictures of docs/pictures/ by `./ia64 draw`, of the examples that the documents show.

  generate/make_pictures.py            writes them
  generate/make_pictures.py --check    writes nothing, and ends with status 1 where a picture isn't what is drawn

The pictures say what is proved of them. So the program has to be proved and built from the sources as they are (`./build`, or the
gate). The gate calls it with --check.
"""

import os
import subprocess
import sys
from pathlib import Path

ROOT = Path(__file__).resolve().parent.parent
FOLDER = ROOT / "docs" / "pictures"

# Which examples are shown, by their paths in examples/. A picture has the last part of that for its name.
EXAMPLES = ("swap", "override", "late_alloc", "loop_edge", "predicated", "count", "call", "pipelined_loop",
            "lessons/01_group", "lessons/05_loop_edge", "lessons/06_pipelined_loop")


def drawn(name):
    """The picture of an example."""
    settings = {key: value for key, value in os.environ.items() if key != "IA64_PROGRAM"}
    done = subprocess.run(["./ia64", "draw", f"examples/{name}.s"], cwd=ROOT, stdin=subprocess.DEVNULL, stdout=subprocess.PIPE,
                          env={**settings, "IA64_PROVED": "1"}, check=False)
    if done.returncode:
        sys.exit(f"make_pictures: examples/{name}.s isn't drawn")
    return done.stdout


def main():
    if sys.argv[1:] not in ([], ["--check"]):
        sys.exit("usage: make_pictures.py [--check]")
    stale = 0
    for name in EXAMPLES:
        path, picture = FOLDER / f"{Path(name).name}.svg", drawn(name)
        if not sys.argv[1:]:
            FOLDER.mkdir(exist_ok=True)
            path.write_bytes(picture)
        elif not path.exists() or path.read_bytes() != picture:
            print(f"docs/pictures/{path.name} isn't what generate/make_pictures.py draws")
            stale = 1
    sys.exit(stale)


if __name__ == "__main__":
    main()
