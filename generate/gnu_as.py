"""Makes bundles by the GNU assembler for IA-64, and reads them by the GNU disassembler. It is imported, and not called.

It needs `ia64-linux-gnu-as`, `ia64-linux-gnu-objcopy` and `ia64-linux-gnu-objdump`, of Debian's package
binutils-ia64-linux-gnu.
"""

import re
import shutil
import subprocess
import sys
import tempfile
from pathlib import Path

PREFIX = "ia64-linux-gnu-"
TOOLS = ("as", "objcopy", "objdump")

# Explicit bundles and stops, no looking for dependencies, `hint.b` taken, and no warning let pass.
OPTIONS = ("-xexplicit", "-xnone", "-mhint.b=ok", "--fatal-warnings")

# Of each code: the units of the slots, and the slots that a stop follows (volume 1, chapter 3).
TEMPLATES = {
    0x00: ("mii", ()), 0x01: ("mii", (2,)), 0x02: ("mii", (1,)), 0x03: ("mii", (1, 2)),
    0x04: ("mlx", ()), 0x05: ("mlx", (2,)),
    0x08: ("mmi", ()), 0x09: ("mmi", (2,)), 0x0A: ("mmi", (0,)), 0x0B: ("mmi", (0, 2)),
    0x0C: ("mfi", ()), 0x0D: ("mfi", (2,)), 0x0E: ("mmf", ()), 0x0F: ("mmf", (2,)),
    0x10: ("mib", ()), 0x11: ("mib", (2,)), 0x12: ("mbb", ()), 0x13: ("mbb", (2,)),
    0x16: ("bbb", ()), 0x17: ("bbb", (2,)), 0x18: ("mmb", ()), 0x19: ("mmb", (2,)),
    0x1C: ("mfb", ()), 0x1D: ("mfb", (2,)),
}
RESERVED = (0x06, 0x07, 0x14, 0x15, 0x1A, 0x1B, 0x1E, 0x1F)

# Stands between the bundles, so that each begins a group and none is the last of the section.
SEPARATOR = "{ .mii\n nop.m 0\n nop.i 0\n nop.i 0 ;;\n}\n"

WORD = (1 << 41) - 1


# A place where the assembler takes every instruction of a unit, those included that begin or end a
# group: the code of a template, and a slot.
HOMES = {"m": (0x0B, 0), "i": (0x01, 1), "f": (0x0D, 1), "b": (0x11, 2), "x": (0x05, 1)}


def stop(message):
    sys.exit(f"{Path(sys.argv[0]).stem}: {message}")


def require_tools():
    for tool in TOOLS:
        if shutil.which(PREFIX + tool) is None:
            stop(f"{PREFIX}{tool} is missing (Debian's package binutils-ia64-linux-gnu has it)")


def run(tool, *arguments):
    done = subprocess.run([PREFIX + tool, *arguments], capture_output=True, text=True, check=False)
    if done.returncode != 0 or done.stderr:
        stop(f"{tool} failed:\n{done.stderr}")
    return done.stdout


def units(code):
    """The units of the instructions of a template: two for that of a long instruction."""
    names = TEMPLATES[code][0]
    return "mx" if names == "mlx" else names


def word_index(code, slot):
    """Which word tells the instruction of a slot: that of the X slot for a long one."""
    return 2 if units(code)[slot] == "x" else slot


def nops(code):
    return [f"nop.{unit} 0" for unit in units(code)]


def source(code, texts, label):
    """A bundle in the assembler's language. `%` in a text stands for the bundle's address."""
    names, stops = TEMPLATES[code]
    last = len(texts) - 1
    lines = [f"{label}:", f"{{ .{names}"]
    for slot, text in enumerate(texts):
        stopped = (2 if slot == last else slot) in stops
        lines.append(f" {text.replace('%', label)}{' ;;' if stopped else ''}")
    return "\n".join(lines) + "\n}\n" + SEPARATOR


def assemble(bundles):
    """The template and the three words of each bundle, given as its code and its slots' texts."""
    data = assembled("".join(
        source(code, texts, f"bundle{index}") for index, (code, texts) in enumerate(bundles)))
    if len(data) != 32 * len(bundles):
        stop(f"{len(bundles)} bundles and their separators have {len(data)} bytes")
    answers = [split(data[32 * index:32 * index + 16]) for index in range(len(bundles))]
    for (code, texts), (made_code, _) in zip(bundles, answers):
        if code != made_code:
            stop(f"the assembler took template {made_code:02x} in place of {code:02x} for {texts}")
    return answers


def assembled(text):
    """The bytes of the bundles of a text."""
    with tempfile.TemporaryDirectory() as folder:
        source_file, made, raw = (Path(folder) / name for name in ("bundles.s", "bundles.o", "bundles"))
        source_file.write_text(text)
        run("as", *OPTIONS, str(source_file), "-o", str(made))
        run("objcopy", "-O", "binary", "-j", ".text", str(made), str(raw))
        return raw.read_bytes()


def split(data):
    number = int.from_bytes(data, "little")
    return number & 31, [number >> (5 + 41 * slot) & WORD for slot in range(3)]


def join(code, words):
    number = code
    for slot, word in enumerate(words):
        number |= word << (5 + 41 * slot)
    return number.to_bytes(16, "little")


def illegal_slots(bundles):
    """Of each bundle, the slots in which the disassembler knows no instruction. A long instruction
    has slot 1."""
    with tempfile.TemporaryDirectory() as folder:
        raw = Path(folder) / "bundles"
        raw.write_bytes(b"".join(bundles))
        listing = run("objdump", "-D", "-z", "-b", "binary", "-m", "ia64-elf64", str(raw))
    answers = []
    for line in listing.splitlines():
        found = re.match(r"\s*([0-9a-f]+):\t[0-9a-f ]+\t(\[...\])?(.*)$", line)
        if not found:
            continue
        if found[2]:
            answers.append([])
        answers[-1].append(found[3].strip())
    if len(answers) != len(bundles):
        stop(f"the disassembler listed {len(answers)} of {len(bundles)} bundles")
    return [{min(slot, 1) if long_template(bundle) else slot
             for slot, text in enumerate(slots) if text.startswith("data8")}
            for bundle, slots in zip(bundles, answers)]


def long_template(bundle):
    return bundle[0] & 0x1E == 0x04
