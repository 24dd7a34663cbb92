#!/usr/bin/env python3
"""Draws the examples, some tests and long functions, and takes shots of them in a browser, to be looked at by eye.

  gate/look_at_pictures.py FOLDER [FILE..]

FOLDER then has each picture as SVG and as a page, and its shots: as wide as a telephone, a page and a screen, in light and in
dark. It needs Chromium, and a built program or IA64_PROGRAM. The gate doesn't call it.
"""

import os
import re
import subprocess
import sys
from concurrent.futures import ThreadPoolExecutor
from pathlib import Path

ROOT = Path(__file__).resolve().parent.parent
TRIES = ("every_rule", "known_of_relations_behind_a_call", "branch_by_a_predicate", "rotating_loop")
WIDTHS = {"small": 420, "page": 900, "screen": 1600}
SCHEMES = {"light": (), "dark": ("--force-dark-mode", "--blink-settings=preferredColorScheme=0")}
TALLEST = 2400


def long_text(bundles):
    """A program of so many bundles: loops in loops, branches ahead, a call, and some pairs that clash or are excused."""
    lines = []
    for index in range(bundles):
        lines.append(f"part{index}:")
        back, ahead = max(0, index - index % 17 - index % 5), min(bundles - 1, index + 3 + index % 23)
        if index % 7 == 3:
            lines += ["{ .mii", "  ld8 r14=[r32],8", "  cmp.eq p6,p7=r14,r15 ;;" if index % 2 else "  cmp.eq p6,p7=r16,r15",
                      f"  (p6) adds r{20 + index % 5}=1,r0", "}"]
        elif index % 7 == 5:
            branch = f"(p{6 + index % 2}) br.cond.dptk.few part{back if index % 3 else ahead}"
            stop = " ;;" if index % 3 else ""
            lines += ["{ .mib", "  (p7) adds r20=2,r0", "  add r17=r18,r19", f"  {branch}{stop}", "}"]
        elif index % 29 == 6:
            lines += ["{ .mbb", "  nop.m 0", f"  (p6) br.cond.sptk.few part{ahead}", "  br.call.sptk.few b0=part0 ;;",
                      "}"]
        else:
            lines += ["{ .mmi", "  ld4 r18=[r33]", f"  st8 [r34]=r{35 + index % 9},8", "  shladd r19=r17,3,r16 ;;", "}"]
    return "\n".join([*lines, "{ .mib", "  nop.m 0", "  nop.i 0", "  break.b 0 ;;", "}", ""])


def shoot(browser, path, size, scheme, target):
    width, height = size
    subprocess.run([browser, "--headless", "--no-sandbox", "--disable-gpu", "--hide-scrollbars", *SCHEMES[scheme],
                    f"--window-size={width},{height}", f"--screenshot={target}", path.as_uri()],
                   stdout=subprocess.DEVNULL, stderr=subprocess.DEVNULL, timeout=120, check=False)


def size_of(picture):
    found = re.search(r'width="(\d+)" height="(\d+)"', picture)
    return int(found[1]), int(found[2])


def shots(folder, name):
    """What is to be shot of a file: both forms, in each size and scheme."""
    for suffix in (".svg", ".html"):
        path = folder / f"{name.name}{suffix}"
        if subprocess.run([sys.executable, ROOT / "front", "draw", name, "-o", path], check=False).returncode != 0:
            return
        width, height = size_of(path.read_text())
        sizes = WIDTHS.items() if suffix == ".html" else (("whole", width),)
        tall = min(TALLEST, height + (360 if suffix == ".html" else 0))
        for scheme in SCHEMES:
            for size, wide in sizes:
                yield path, (wide, tall), scheme, folder / f"{path.name}.{size}.{scheme}.png"


def main():
    folder, names = Path(sys.argv[1]), sys.argv[2:]
    folder.mkdir(parents=True, exist_ok=True)
    if not names:
        for count in (12, 200):
            (folder / f"long{count}.s").write_text(long_text(count))
        examples = ROOT / "examples"
        names = [*sorted(examples.glob("*.s")), examples / "functions.o", examples / "read_after_write.image",
                 *(ROOT / "tests" / "check" / f"{name}.s" for name in TRIES), folder / "long12.s", folder / "long200.s"]
    with ThreadPoolExecutor(os.cpu_count()) as pool:
        for row in [shot for name in map(Path, names) for shot in shots(folder, name)]:
            pool.submit(shoot, os.environ.get("CHROMIUM", "chromium"), *row)


main()
