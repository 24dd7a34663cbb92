"""What the GNU tools for ia64 are asked where they are installed: to assemble sources, for lines of sources, and for the texts
of instructions that the proved program doesn't take. What is needed for a tool alone is imported where it is used."""

import contextlib
import functools
import os
import re
import subprocess
from collections import Counter
from pathlib import Path
from typing import NamedTuple

from front.bundle import NOPS, Bundle
from front.code_file import WORD64
from front.faults import Fault, printable
from front.content import read_file

# Unless it is told that the stops of a source are explicit, the assembler leaves them out and sets its own. Its own check of
# groups is off.
STOPS_AS_THEY_STAND = ("-xexplicit", "-xnone")


def installed(tool):
    """GNU's tool for ia64, or one for many machines, ia64 among them, or None."""
    return found_tool(tool, os.environ.get("PATH", ""))


@functools.lru_cache(maxsize=None)
def found_tool(tool, path):
    import shutil
    many = shutil.which(tool, path=path)
    return shutil.which(f"ia64-linux-gnu-{tool}", path=path) or (many if many and knows_ia64(many) else None)


@functools.lru_cache(maxsize=None)
def knows_ia64(tool):
    """Whether it is built for ia64 too. One that isn't gives wrong lines for an object file."""
    return "ia64" in asked([tool, "--help"])


def asked(command, data=None):
    """What a tool prints, or nothing where it is missing, fails or doesn't end."""
    try:
        done = subprocess.run(command, input=data, stdout=subprocess.PIPE, stderr=subprocess.DEVNULL, timeout=120, check=False)
    except (OSError, subprocess.SubprocessError):
        return ""
    return done.stdout.decode("utf-8", "replace") if done.returncode == 0 else ""


@contextlib.contextmanager
def scratch():
    """A folder for files that a tool reads and writes."""
    import tempfile
    with tempfile.TemporaryDirectory() as folder:
        yield folder


# ---- Sources ---------------------------------------------------------------------------------------------

class NotAssembled(Fault):
    """The assembler refuses a source: what it says."""

    def __init__(self, lines):
        super().__init__("the GNU assembler refuses it")
        self.lines = lines


# How many seconds and how many bytes of memory the assembler may take.
SECONDS, MEMORY = 120, 4 << 30


def assembled(path, source, flags, complain, say):
    """The object file that the assembler makes of a source, with the stops that stand in it, unless a flag has it set them
    itself. Its messages are said, but for those of its own check, which `.explicit` switches on."""
    assembler = installed("as")
    if assembler is None:
        raise Fault("a source, and the GNU assembler for ia64 isn't installed")
    stops = () if any(flag.startswith("-x") for flag in flags) else STOPS_AS_THEY_STAND
    home = os.path.abspath(os.path.dirname(path))
    with scratch() as folder:
        given, made = os.path.join(folder, os.path.basename(path)), os.path.join(folder, "made")
        Path(given).write_bytes(source)
        command = [assembler, "-g", "--debug-prefix-map", f"{folder}={home}", "-I", home, *stops, *flags, "-o", made, given]
        try:
            done = subprocess.run(command, stdin=subprocess.DEVNULL, stdout=subprocess.DEVNULL, stderr=subprocess.PIPE,
                                  timeout=SECONDS, preexec_fn=limit_memory, check=False)
        except subprocess.TimeoutExpired:
            raise Fault(f"the GNU assembler came to no end in {SECONDS} seconds") from None
        said = done.stderr.decode("utf-8", "replace").replace(given, path)
        lines = [line for line in said.splitlines() if not OF_GROUPS.match(line)]
        if done.returncode != 0:
            raise NotAssembled(lines)
        if any(not line.endswith(": Assembler messages:") for line in lines):
            say("\n".join(lines))
        if sets_stops(source, flags):
            complain(f"{path}: note: the GNU assembler has left out the stops of this source and put in others")
        return read_file(made)


def limit_memory():
    import resource
    resource.setrlimit(resource.RLIMIT_AS, (MEMORY, MEMORY))


def sets_stops(source, flags):
    """Whether the assembler sets the stops of a source itself."""
    modes = [flag for flag in flags if flag.startswith("-x")]
    return b".auto" in source or any(mode not in ("-x", "-xexplicit", "-xnone") for mode in modes) and b".explicit" not in source


# What the assembler says of groups.
OF_GROUPS = re.compile(r".*: Warning: (Use of '.*' (may )?violates? |Only the first path encountering the conflict is reported|"
                       r"This is the location of the conflicting usage)")


# ---- Lines of sources ------------------------------------------------------------------------------------

class Source(NamedTuple):
    """A place in a source: a line and, where it is known, a column, both from 1."""
    path: str
    line: int
    column: int = 0

    def __str__(self):
        return f"{self.path}:{self.line}" + (f":{self.column}" if self.column else "")


def source_lines(data, file, locations):
    """Asks once a file, or once a section of an object file, for the source lines of slots: a section's number, an offset,
    a slot. Tables of lines have the slot in the low bits of an address; where one hasn't, its bundle's row is found. A
    section of an object file is asked for by its name, and so only where no other has this name."""
    tool, found = installed("addr2line"), {}
    if not tool or not locations or not any(section.name.endswith("debug_line") for section in file.sections):
        return found
    with scratch() as folder:
        path = os.path.join(folder, "file")
        Path(path).write_bytes(data)
        if file.linked:
            return lines_of([tool, "-e", path], file, locations)
        names = Counter(section.name for section in file.sections)
        for index in dict.fromkeys(location[0] for location in locations):
            name = file.sections[index].name
            if names[name] == 1:
                found.update(lines_of([tool, "-e", path, "-j", name], file,
                                      [location for location in locations if location[0] == index]))
    return found


def lines_of(command, file, locations):
    text = "".join(f"{file.sections[index].address + offset + slot:#x}\n" for index, offset, slot in locations)
    answers, found = asked(command, text.encode()).splitlines(), {}
    for location, answer in zip(locations, answers if len(answers) == len(locations) else []):
        line = re.match(r"(.+):([1-9]\d*)( \(discriminator \d+\))?$", answer)
        if line and line[1] != "??":
            found[location] = Source(printable(near(line[1])), int(line[2]))
    return found


def near(path):
    """A path below the current folder by its name from there."""
    here = os.path.join(os.getcwd(), "")
    return path[len(here):] if path.startswith(here) else path


# ---- Texts -----------------------------------------------------------------------------------------------

def probe(bundle, slot):
    """A bundle with the instruction of a slot, nops beside it and a stop at its end."""
    nops = Bundle(bundle.template | 1, tuple(NOPS[unit] for unit in bundle.units))
    if bundle.units[slot] == "l":
        return nops.with_word(1, bundle.words[1]).with_word(2, bundle.words[2])
    return nops.with_word(slot, bundle.words[slot])


def slot_texts(wanted):
    """The texts of slots, each given as a bundle and a slot, from GNU's disassembler, asked once: a target is a number of
    bytes from its bundle on. What it doesn't know has no text."""
    tool, wanted = installed("objdump"), list(dict.fromkeys(wanted))
    if not wanted or not tool:
        return {}
    with scratch() as folder:
        raw = Path(folder) / "bundles"
        raw.write_bytes(b"".join(probe(*slot).packed() for slot in wanted))
        listing = asked([tool, "-D", "-z", "-b", "binary", "-m", "ia64-elf64", str(raw)])
    rows = []
    for line in listing.splitlines():
        found = re.match(r"\s*[0-9a-f]+:\t[0-9a-f ]+\t(\[...\])?\s*(.*?)(;;)?$", line)
        if found and found[1]:
            rows.append([])
        if found and rows:
            rows[-1].append(" ".join(found[2].split()))
    if len(rows) != len(wanted):
        return {}
    texts = {}
    for number, ((bundle, slot), row) in enumerate(zip(wanted, rows)):
        if slot < len(row) and not row[slot].startswith("data8"):
            texts[bundle, slot] = from_bundle(re.sub(r"^\(p0(\d)\)", r"(p\1)", row[slot]), 16 * number)
    return texts


def from_bundle(text, at):
    """The text with its target, an address, as the number of bytes from the address of its bundle on."""
    found = re.fullmatch(r"((?:\(p\d+\) )?f?(?:br|chk).*[ ,=])0x([0-9a-f]+)(,.*|)", text)
    if not found:
        return text
    target = int(found[2], 16) - at & WORD64
    return f"{found[1]}{target - (target >> 63 << 64):+#x}{found[3]}"
