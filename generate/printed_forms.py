"""The forms of what the program prints, each once, as docs/use/commands.md has them. It is imported, and not called.

A form is a regular expression of the whole output (`FORMS`). Beside it stands what a text of such a form has to keep besides:
what rises in it, and which of its numbers go together.
"""

import re
import struct

from gnu_as import RESERVED, TEMPLATES, split, units

# How an image of version 1 begins, and one of version 2.
MAGICS = b"IA64IMG1", b"IA64IMG2"
HEAD = 24
RELATION = "<I2BH"
BUNDLE_LIMIT, ENTRY_LIMIT, DATA_LIMIT, RELATION_LIMIT = 32768, 1024, 1048576, 4096
VERSION_1_BUNDLE_LIMIT = 4096  # of an image of version 1

N = "(?:0|[1-9][0-9]*)"
HEX = "0x(?:0|[1-9a-f][0-9a-f]*)"
PLACE = rf"{N}\.[012]"
WORD = "[0-9a-f]{16}"
SOME = "(?!0{16})" + WORD
GENERAL = "(?:12[0-7]|1[01][0-9]|[1-9]?[0-9])"
PREDICATE = "(?:6[0-3]|[1-5]?[0-9])"

# The verdict.
RESOURCE = rf"(?:r(?!0 ){GENERAL}|p(?!0 ){PREDICATE}|b[0-7]|unat|pfs|lc|ec|cfm)"
VIOLATION = rf"(?:(?:RAW|WAW) {RESOURCE}|WAR63 p63|(?:ALLOC|CLEAR) cfm) {PLACE} {PLACE}\n"
ACCEPTED = "accepted\n"
VIOLATIONS = rf"violations [1-9][0-9]*\n(?:{VIOLATION}){{1,100}}"

# The refusals of a text and of an image.
REASONS = ("limit", "char", "name", "register", "number", "range", "form", "misplaced", "twice", "template",
           "slot kind", "empty", "no label", "relation", "long run")
TEXT_REFUSED = rf"line [1-9][0-9]*: (?:{'|'.join(REASONS)})\n"
LOOSE_REASONS = [reason for reason in REASONS if reason not in ("template", "slot kind", "long run")]
LOOSE_REFUSED = rf"line [1-9][0-9]*: (?:{'|'.join(LOOSE_REASONS)})\n"
SLOT_FAULT = "slot [012]: (?:unlisted|target|long run)"
IMAGE_REFUSED = (rf"image: (?:short|magic|counts|length|entry {N}|bundle {N}(?:: template| {SLOT_FAULT})"
                 rf"|relation {N})\n")

# The state, by its end.
FAULTS = ("OutOfFrame", "NatConsumed", "Unaligned", "BadAddress", "BadFrame", "ReservedField", "Underflow",
          "StackLimit", "BadLanding", "BadRelation", "FellOff")
BROKEN = rf"end break {HEX} at {PLACE}\n"
LIMITED = rf"end limit at {PLACE}\n"
FAULTED = rf"end fault (?:{'|'.join(FAULTS)}) at {PLACE}\n"
GROUPS = r"groups [1-9][0-9]*\n"
REST = (rf"{GROUPS}frame {N} sof {N} sol {N} sor {N} rrb {N} {N} {N}\nrse {N} {N} {N} {N}\n"
        rf"(?:r(?!0 ){GENERAL} (?:{SOME}|{WORD} nat)\n)*pr {WORD}\n(?:b[0-7] {SOME}\n)*"
        + "".join(rf"(?:ar\.{name} {SOME}\n)?" for name in ("unat", "pfs", "lc", "ec"))
        + rf"(?:m {WORD} {SOME}\n)*(?:alat [rs]{N} {WORD} [1248]\n){{0,32}}")

# The reports.
REPORTS = rf"watch 0\n(?:[1-8] {PLACE} {PLACE} (?:falls|taken|ends)\n){{1,8}}watch 1\ngroups {N} slots {N} taken {N}\n"

# The states of a trace but for the last, each with the line of the group behind it. Before the first group there are 0.
TRACED = rf"(?:{LIMITED}{REST.replace(GROUPS, f'groups {N}{chr(92)}n', 1)}{N} {PLACE} {PLACE} (?:falls|taken|ends)\n)*"

# The canonical text and the listing.
SHAPES = sorted({names for names, _ in TEMPLATES.values()} - {"mlx"})
TOKEN = rf"(?:r{GENERAL}|p{PREDICATE}|b[0-7]|ar\.(?:unat|pfs|lc|ec)|pr|pr\.rot|ip|L{N}|-?{N}|{HEX})"
SLOT = (rf"  (?:\(p(?!0\)){PREDICATE}\) )?[a-z][a-z0-9]*(?:\.[a-z0-9]+)*"
        rf"(?: (?:{TOKEN}|\[{TOKEN}\])(?:[=,](?:{TOKEN}|\[{TOKEN}\]))*)?(?: ;;)?\n")
BUNDLE = rf"(?:mlx\n(?:{SLOT}){{2}}|(?:{'|'.join(SHAPES)})\n(?:{SLOT}){{3}})"
RELATED = "(?:1[0-5]|[1-9])"
RELATION_LINE = rf'\.pred\.rel "mutex",p{RELATED},p{RELATED}\n'
CANONICAL = (rf"(?:(?:\.entry L{N}\n)?(?:L{N}:\n)?(?:{RELATION_LINE})*{{ \.{BUNDLE}}}\n)+"
             rf"(?:\.data\n(?:data8 {HEX}(?:,{HEX}){{7}}\n)*data8 {HEX}(?:,{HEX}){{0,7}}\n)?")
STOP_LINE = rf"// {PLACE} (?:written\n|long\n|{VIOLATION})"
PACKED = rf"{CANONICAL}(?:{STOP_LINE})*"
LISTING = rf"(?:{N} [0-9a-f]{{32}} {BUNDLE})+"

TRIAL = rf"trial {N} [1-9][0-9]*\naccepted\n(?:{BROKEN}|{LIMITED}|{FAULTED}){GROUPS}sum {WORD}\n"
FIRST, SECOND = (magic.decode() + "(?s:.){16,}" for magic in MAGICS)
WRITTEN = f"{FIRST}|{SECOND}"

# Of each command: the form of what it prints with each of its statuses. With 3 it is a refusal of what
# it takes, and with the statuses 2, 4, 5 and 7 there is nothing.
FORMS = {
    "build": {0: WRITTEN},
    "stops": {0: PACKED},
    "show": {0: CANONICAL},
    "list": {0: LISTING},
    "wrap": {0: WRITTEN},
    "lift": {0: SECOND},
    "check": {0: ACCEPTED, 1: VIOLATIONS},
    "run": {0: BROKEN + REST, 1: VIOLATIONS, 8: LIMITED + REST, 9: FAULTED + REST},
    "watch": {0: REPORTS + BROKEN + REST, 1: VIOLATIONS, 8: REPORTS + LIMITED + REST, 9: REPORTS + FAULTED + REST},
    "trace": {0: TRACED + BROKEN + REST, 1: VIOLATIONS, 8: TRACED + LIMITED + REST, 9: TRACED + FAULTED + REST},
    "groups": {0: BROKEN + REST, 8: LIMITED + REST, 9: FAULTED + REST},
    "trial": {0: TRIAL, 1: VIOLATIONS},
}
NOTHING = (2, 4, 5, 7)


def has_form(word, status, is_image, output):
    """Whether an output is one of a command with this status, on an image or on something else."""
    refused = IMAGE_REFUSED if is_image else LOOSE_REFUSED if word == "stops" else TEXT_REFUSED
    form = "" if status in NOTHING else FORMS[word].get(status, refused)
    return re.fullmatch(form.encode("latin-1"), output) is not None


def place(text):
    bundle, _, slot = text.partition(".")
    return int(bundle), int(slot)


def resource_order(name):
    kinds = ("r", "p", "b", "unat", "pfs", "lc", "ec", "cfm")
    letters = name.rstrip("0123456789")
    return kinds.index(letters), int(name[len(letters):] or 0)


def violations_oddity(output, bundles):
    """What is wrong with violations: their order, their count, a place outside the program."""
    first, *lines = output.decode().splitlines()
    total, shown = int(first.split()[1]), [line.split() for line in lines]
    keys = [(place(q), place(p), ("RAW", "WAW", "WAR63", "ALLOC", "CLEAR").index(rule), resource_order(resource))
            for rule, resource, p, q in shown]
    if len(lines) != min(total, 100):
        return f"{len(lines)} lines of {total} violations"
    if any(one >= other for one, other in zip(keys, keys[1:])):
        return "violations out of order"
    if any(max(q[0], p[0]) >= bundles for q, p, *_ in keys):
        return "a violation outside the program"
    return None


def state_oddity(output, bundles, groups):
    """What is wrong with a state: its place, its groups, its frame, what has to rise."""
    lines = [line.split() for line in output.decode().splitlines()]
    sof, sol, sor = (int(lines[2][n]) for n in (3, 5, 7))
    named = [line[0] for line in lines[4:]]
    registers = [int(name[1:]) for name in named if name[0] == "r" and name[1:].isdigit()]
    addresses = [line[1] for line in lines[4:] if line[0] == "m"]
    if place(lines[0][-1])[0] >= bundles or not (sol <= sof <= 96 and 8 * sor <= sof):
        return "a place or a frame out of range"
    if int(lines[1][1]) > groups or (lines[0][1] == "limit" and int(lines[1][1]) != groups):
        return "another number of groups"
    if registers != sorted(set(registers)) or max(registers, default=0) > max(31, 31 + sof):
        return "registers out of order or outside the frame"
    if addresses != sorted(set(addresses)) or any(int(it, 16) % 8 or int(it, 16) < 0x100000 for it in addresses):
        return "words of data out of order"
    return None


def reports_oddity(reports, state):
    """What is wrong with the reports before a state: their numbers, and what they say of the same run."""
    lines, ends = [line.split() for line in reports.decode().splitlines()], state.decode().split("\n", 2)
    groups, slots, taken = (int(lines[-1][n]) for n in (1, 3, 5))
    own = lines[1:-2]
    if [int(line[0]) for line in own] != list(range(1, min(groups, 8) + 1)) or ends[1] != f"groups {groups}":
        return "another number of groups in the reports"
    seen = sum(line[3] == "taken" for line in own)
    if not groups <= slots <= 192 * groups or not seen <= taken <= seen + groups - len(own):
        return "other slots or branches in the reports"
    ended = [line[0] for line in own if line[3] == "ends"]
    if ended != [str(groups)] * (groups <= 8 and not ends[0].startswith("end limit")):
        return "another group that ends the run"
    return None


class Layout:
    """Where the parts of an image are, by its head."""

    def __init__(self, image):
        self.bundles, self.entries, self.data, self.relations = struct.unpack("<4I", image[8:HEAD])
        self.after_entries = HEAD + 4 * self.entries
        self.code = self.after_entries + 8 * self.relations
        self.end = self.code + 16 * self.bundles

    def relations_of(self, image):
        """Of each relation its bundle, its two predicates, and its last two bytes as a number."""
        return list(struct.iter_unpack(RELATION, image[self.after_entries:self.code]))

    def code_of(self, image):
        return image[self.code:self.end]


def head(bundles, entries=0, data=0, relations=0, version=None):
    """The head of an image, of the version in which `build` writes it unless another one is named: of the first where
    that has room for it."""
    written = 1 if bundles <= VERSION_1_BUNDLE_LIMIT and not relations else 2
    return MAGICS[(version or written) - 1] + struct.pack("<4I", bundles, entries, data, relations)


def with_relations(image, relations):
    """The image of version 2 with these relations, as `relations_of` gives them, in place of those of an image."""
    layout = Layout(image)
    front = head(layout.bundles, layout.entries, layout.data, len(relations), 2) + image[HEAD:layout.after_entries]
    return front + b"".join(struct.pack(RELATION, *relation) for relation in relations) + image[layout.code:]


def without_relations(image):
    """The image of the same program without its relations, in the version in which `build` writes it."""
    layout = Layout(image)
    return head(layout.bundles, layout.entries, layout.data) + image[HEAD:layout.after_entries] + image[layout.code:]


def lifted_image(image):
    """The image of version 2 of the same program."""
    return with_relations(image, Layout(image).relations_of(image))


def written_image(image):
    """The image of the same program in the version in which `build` writes it."""
    return lifted_image(image) if Layout(image).relations else without_relations(image)


def relation_lines_oddity(image, text):
    """What is wrong with the lines of relations of a canonical text: other ones than the image has, others' places."""
    wanted = [(bundle, f'.pred.rel "mutex",p{p},p{q}') for bundle, p, q, _ in Layout(image).relations_of(image)]
    bundle, found = 0, []
    for line in text.decode().splitlines():
        bundle += line.startswith("{")
        found += [(bundle, line)] * line.startswith(".pred.rel")
    differing = next((n for n, (one, other) in enumerate(zip(wanted, found)) if one != other), None)
    if differing is not None:
        return f"{found[differing]} in place of {wanted[differing]}"
    return None if len(found) == len(wanted) else f"{len(found)} lines of {len(wanted)} relations"


def split_packed(output):
    """The canonical text that `stops` prints, and the lines of its stops behind it."""
    at = next((found.start() for found in re.finditer(rb"^// ", output, re.M)), len(output))
    return output[:at], output[at:].decode().splitlines()


def stopped_places(text):
    """The places of a canonical text that a stop follows."""
    bundle, slot, found = -1, 0, []
    for line in text.decode().splitlines():
        if line.startswith("{"):
            bundle, slot = bundle + 1, 0
        elif line.startswith("  "):
            found += [(bundle, slot)] * line.endswith(" ;;")
            slot += 1
    return found


def packed_oddity(output):
    """What is wrong with what `stops` prints: other stops are named than those of the text, or a violation that isn't
    round its stop."""
    text, lines = split_packed(output)
    stops = [(place(line.split()[1]), line.split()[2:]) for line in lines]
    if [at for at, _ in stops] != stopped_places(text):
        return "other stops than those of the text"
    for at, why in stops:
        if len(why) == 4 and not place(why[2]) <= at < place(why[3]):
            return f"a violation that the stop behind {at} doesn't part"
    return None


def takes_image(word, data):
    return word in ("show", "list", "wrap", "lift") or (word not in ("build", "stops") and data.startswith(MAGICS))


def bundles_of(data):
    """How many bundles an image has, or at most a text."""
    return Layout(data).bundles if data.startswith(MAGICS) else data.count(b"{")


def head_fault(data):
    """The fault of the head or the entries of an image, as a refusal says it, or None."""
    if len(data) < HEAD:
        return "short"
    if not data.startswith(MAGICS):
        return "magic"
    bundles, entries, size, relations = struct.unpack("<4I", data[8:HEAD])
    most, related = (VERSION_1_BUNDLE_LIMIT, 0) if data.startswith(MAGICS[0]) else (BUNDLE_LIMIT, RELATION_LIMIT)
    if not 1 <= bundles <= most or entries > ENTRY_LIMIT or size > DATA_LIMIT or size % 8 or relations > related:
        return "counts"
    if len(data) != HEAD + 4 * entries + 8 * relations + 16 * bundles + size:
        return "length"
    least = 1
    for number, (entry,) in enumerate(struct.iter_unpack("<I", data[HEAD:HEAD + 4 * entries])):
        if not least <= entry < bundles:
            return f"entry {number}"
        least = entry + 1
    return None


def has_call(bundle):
    """Whether a bundle with right slots has a call: in a B slot, the major opcode of one."""
    code, words = split(bundle)
    return code not in RESERVED and any(unit == "b" and word >> 37 in (1, 5) for unit, word in zip(units(code), words))


def entries_of(image):
    """The entries of an image whose head and bundles are right: bundle 0, those that it declares, and those behind
    a call."""
    layout = Layout(image)
    declared = struct.unpack(f"<{layout.entries}I", image[HEAD:layout.after_entries])
    bundles = [image[at:at + 16] for at in range(layout.code, layout.end, 16)]
    return {0, *declared, *(n for n in range(1, len(bundles)) if has_call(bundles[n - 1]))}


def relation_fault(image):
    """The fault of the relations of an image whose head and bundles are right, as a refusal says it, or None."""
    relations, before = Layout(image).relations_of(image), ()
    entries = entries_of(image) if relations else ()
    for number, (bundle, p, q, rest) in enumerate(relations):
        if before >= (bundle, p, q) or bundle not in entries or not 1 <= p < q <= 15 or rest:
            return f"relation {number}"
        before = bundle, p, q
    return None


def text_refusal_oddity(data, output):
    """What is wrong with a refusal of a text: a line that it doesn't have."""
    number, lines = int(re.search(rb"\d+", output)[0]), data.count(b"\n") + (data[-1:] not in (b"", b"\n"))
    past = lines + output.endswith((b"misplaced\n", b"empty\n"))
    if output.endswith(b"relation\n") and b".pred.rel" not in data:
        return "a relation of a text without one"
    return f"line {number} of {lines}" if number > past or (b"empty" in output and number != past) else None


def image_refusal_oddity(data, output):
    """What is wrong with a refusal of an image: a fault of its head is passed over or is none, and so are
    reserved templates and faults of relations, or it has no such place."""
    fault, numbers = head_fault(data), [int(number) for number in re.findall(rb"\d+", output)]
    codes = [] if fault else [code & 0x1F for code in Layout(data).code_of(data)[::16]]
    reserved = next((n for n, code in enumerate(codes) if code in RESERVED), len(codes))
    if not fault and b"relation" in output:
        fault = relation_fault(data) if reserved == len(codes) else f"bundle {reserved}: template"
    if fault or b"bundle" not in output:
        return None if output == f"image: {fault}\n".encode() else f"{output!r} in place of {fault}"
    number = numbers[0]
    if b"template" in output:
        return None if number == reserved else f"{output!r} in place of {reserved}"
    looked_at = reserved if b"unlisted" in output else len(codes)
    if number >= looked_at or reserved < looked_at or numbers[1] >= len(units(codes[number])):
        return f"{output!r}, where bundle {reserved} of {len(codes)} is the first with a reserved template"
    return None
