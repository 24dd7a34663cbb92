"""What is said of a call: how it ended, what the function answered, and what data it changed; as lines, and as JSON."""

import json
from dataclasses import dataclass, field
from typing import Dict, List, Optional, Tuple

from front import gnu, usage
from front.bundle import branches
from front.calling import thread_pointer
from front.calling.ends import Change, End, State, changes, slot_text, trimmed
from front.calling.hints import is_hint
from front.calling.image import IN_RESULTS, Stop
from front.calling.linking import CODE_BYTES
from front.faults import printable
from front.flow import turns_of
from front.functions import MOST_BUNDLES
from front.messages import counted, said_clash
from front.program import CODE_AT, DATA_AT, Refusal

# The statuses of a call, by how it ends.
STATUSES = {End.RETURNED: 0, End.VIOLATED: 1, End.OUTSIDE: 3, End.MISSING: 3, End.ASTRAY: 3, End.LIMIT: 8, End.BREAK: 9,
            End.FAULT: 9}

# How many lines of changes, and bytes, numbers and characters of one, are printed unless all are wanted.
MOST_LINES, MOST_BYTES, MOST_NUMBERS, MOST_CHARACTERS = 40, 16, 16, 60

# An address below this one is a null pointer, perhaps with an offset.
NULL_PAGE = 4096

# What the numbers of breaks mean by the conventions of compilers and systems.
BREAKS = {0: "a trap", 1: "an integer division by zero", 2: "an integer overflow", 3: "a range check", 4: "a null pointer",
          0x100000: "a system call of Linux"}


@dataclass
class Answer:
    """How a call ended, and where: the place by its function, the place in the source, and what is to say of it."""
    end: End
    groups: int = 0
    place: str = ""
    source: Optional[gnu.Source] = None
    said: List[str] = field(default_factory=list)                # what is said of the end, a line each
    results: List[Tuple[str, Optional[int]]] = field(default_factory=list)
    outputs: List[Tuple[str, Optional[int]]] = field(default_factory=list)
    changes: List[Change] = field(default_factory=list)
    violations: List[Dict] = field(default_factory=list)
    total: int = 0
    data: bytes = b""                                            # as it is at the end

    @property
    def status(self):
        return STATUSES[self.end]


class Teller:
    """Finds out what is to say of a run of an image."""

    def __init__(self, program, linked, made, names):
        self.program, self.linked, self.made, self.names = program, linked, made, names

    # ---- Ends

    def state(self, text, in_orders, limit, structure):
        """What is said of a printed state."""
        state = State(text, len(self.made.data))
        if state.is_limit:
            more = "" if limit == usage.GROUP_LIMIT else f"; -n N lets more run, up to {usage.GROUP_LIMIT:,}"
            answer = self.at(End.LIMIT, state.place, f"{limit:,} groups ran without an end{more}")
        elif state.fault:
            answer = self.at(End.FAULT, state.place, self.fault(state, in_orders))
        elif state.place[0] == self.made.back:
            answer = Answer(End.RETURNED)
            count = -(-structure // 8) if 0 < structure <= IN_RESULTS else 1
            answer.results = [(f"ret{number}", state.register(f"r{8 + number}")) for number in range(count)]
        elif state.place in self.made.stops:
            answer = self.stop(state)
        else:
            meant = f", {BREAKS[state.number]} by convention" if state.number in BREAKS else ""
            answer = self.at(End.BREAK, state.place, f"'{self.text(state.place)}' of the code itself{meant}")
        answer.groups, answer.data = state.groups, state.data
        if answer.end is not End.OUTSIDE:
            answer.changes = changes(self.made, state.data, self.names)
        return answer

    def at(self, end, place, said):
        return Answer(end, place=self.names.code(place[0]), source=self.source(place), said=[said])

    def stop(self, state):
        """What is said of a break that was put in."""
        stopped = self.made.stops[state.place]
        if stopped.why is Stop.MISSING:
            return self.missing(state, stopped.name)
        if not stopped.bundle.units:
            said = f"the reserved template {stopped.bundle.template:#04x} is outside the profile"
            return self.at(End.OUTSIDE, state.place, said)
        text = self.text(state.place)
        if stopped.why is Stop.ASTRAY:
            return self.at(End.ASTRAY, state.place, f"'{text}' leads out of the code")
        more = "; --skip-hints leaves such hints out" if is_hint(stopped.bundle, state.place[1]) else ""
        return self.at(End.OUTSIDE, state.place, f"'{text}' is outside the profile{more}")

    def missing(self, state, name):
        """A call of what isn't there, with the slot that made it where the return address tells it."""
        index = ((state.register("b0") or 0) - CODE_AT) // 16 - 1
        bundles = self.made.bundles
        calls = [turn for turn in turns_of(index, bundles[index]) if turn.calls] if 0 <= index < len(bundles) else []
        call = next((turn for turn in calls if turn.target in (None, state.place[0])), None)
        if call is None:
            return Answer(End.MISSING, place=printable(name), said=[f"a branch to {said_name(name)}, which isn't there"])
        answer = self.at(End.MISSING, (index, call.slot), f"a call of {said_name(name)}, which isn't there")
        answer.outputs = [(f"out{number}", value) for number, value in enumerate(state.outputs)]
        return answer

    def fault(self, state, in_orders):
        """What is said of a fault: the instruction, and the address that it was about where that is known."""
        said = f"fault {state.fault}: '{self.text(state.place)}'"
        bundle, slot = self.made.bundles[state.place[0]], state.place[1]
        unit, word = bundle.units[slot], bundle.words[slot]
        if in_orders or state.is_rotated:
            return said
        if state.fault in ("BadAddress", "Unaligned") and unit == "m":
            return said + self.about(f"r{word >> 20 & 127}", state)
        if state.fault in ("BadLanding", "BadRelation") and unit == "b":
            return said + self.about(f"b{word >> 13 & 7}", state)
        return said

    def about(self, name, state):
        value = state.register(name)
        if value is None:
            return ""
        where = self.names.said_address(value)
        if value in self.linked.missing:
            where = f"the place of {said_name(self.linked.missing[value])}, which isn't there"
        elif where is None and state.fault == "BadAddress" and self.is_of_thread(name, state.place):
            where = "thread-local data, which aren't there"
        elif where is None and value < NULL_PAGE and state.fault == "BadAddress":
            where = "perhaps a null pointer with an offset" if value else "a null pointer"
        elif where is None and 0 <= value - CODE_AT < CODE_BYTES:
            where = f"in the code, {self.names.code((value - CODE_AT) // 16)}"
        elif where is None and CODE_AT + CODE_BYTES <= value < DATA_AT:
            where = "below the stack, which may be too small (--stack)"
        return f", and {name} is {value:#x}" + (f", {where}" if where else "")

    def is_of_thread(self, name, place):
        """Whether the address in a register that a slot uses was made of the thread pointer."""
        symbol = self.linked.symbol_at(CODE_AT + 16 * place[0], True)
        first = (symbol.address - CODE_AT) // 16 if symbol else place[0]
        return thread_pointer.is_of_thread(self.made.bundles, first, place, int(name[1:]))

    # ---- Violations

    def verdict(self, text):
        """What is said of a program that isn't accepted."""
        total, broken = self.program.verdict(text)
        rows = self.program.listing(self.made.image())
        answer = Answer(End.VIOLATED, total=total)
        sources = self.sources([row.second for row in broken])
        for row in broken:
            first, second = (f"'{self.listed(place, rows)}' ({self.names.code(place[0])} slot {place[1]})"
                             for place in (row.first, row.second))
            answer.violations.append({"rule": row.rule, "resource": row.resource, "place": self.names.code(row.second[0]),
                                      "source": sources.get(row.second), "text": said_clash(row, first, second)})
        return answer

    def listed(self, place, rows):
        """The text of a slot as the image has it, or of what stood there."""
        if place in self.made.stops or isinstance(rows, Refusal):
            return self.text(place)
        text, targets = rows[place[0]][place[1]], dict(branches(self.made.bundles[place[0]]))
        if place[1] not in targets:
            return text
        return text[:text.rindex("L")] + self.names.target(place[0] + targets[place[1]])

    # ---- Positions

    def text(self, place):
        """The text of what stands, or stood, in a slot."""
        stopped = self.made.stops.get(place)
        bundle = stopped.bundle if stopped else self.made.bundles[place[0]]
        return slot_text(self.program, bundle, place[1], lambda away: self.target(place[0] + away))

    def target(self, bundle):
        return self.names.target(bundle) if 0 <= bundle < MOST_BUNDLES else f"{CODE_AT + 16 * bundle:#x}"

    def source(self, place):
        return self.sources([place]).get(place)

    def sources(self, places):
        """The lines of the sources of slots, where they are known."""
        wanted = {}
        for bundle, slot in places:
            at = self.linked.elf.addresses.location(CODE_AT + 16 * bundle)
            if at is not None:
                wanted[bundle, slot] = (*at, slot)
        found = gnu.source_lines(self.linked.data, self.linked.elf, list(wanted.values()))
        return {place: found[at] for place, at in wanted.items() if at in found}


def said_name(name):
    return f"'{printable(name)}'"


# ---- Values ----------------------------------------------------------------------------------------------

def said_number(value, size=8):
    """A number of so many bytes: signed, and in hexadecimal; unsigned too where that is another one."""
    bits = 8 * size
    signed = value - (value >> bits - 1 << bits)
    if signed < 0:
        return f"{signed} (unsigned {value}, {value:#x})"
    return str(value) if value < 10 else f"{value} ({value:#x})"


def text_at(data, at, most=MOST_CHARACTERS):
    """The text of two characters or more that begins at a byte of data, quoted, or None where none is there."""
    end = data.find(b"\0", at, at + 4096)
    if end - at < 2 or not is_text(data[at:end]):
        return None
    return said_text(data[at:end], most)


def is_all(text, was, before, after):
    """Whether nothing is different but the text: up to the longer one's end zeros stand behind the shorter, and then the same."""
    end = max(len(text), len(was))
    return not any(before[len(was):end]) and not any(after[len(text):end]) and before[end:] == after[end:]


def is_text(content):
    return all(32 <= byte < 127 or byte in b"\n\t\r" for byte in content)


def said_text(content, most=MOST_CHARACTERS):
    text = content[:most].decode("latin-1")
    for char, shown in (("\\", "\\\\"), ('"', '\\"'), ("\n", "\\n"), ("\t", "\\t"), ("\r", "\\r")):
        text = text.replace(char, shown)
    return f'"{text}"' + (f".. of {len(content)} bytes" if len(content) > most else "")


def said_value(value, data, names):
    """A value of a register: as a number, and what it is the address of."""
    if value is None:
        return "NaT, no value"
    where = names.said_address(value)
    if where is not None:
        text = text_at(data, value - DATA_AT) if value >= DATA_AT else None
        return f"{value} ({value:#x}), address of {where}" + (f" {text}" if text else "")
    low, signed = value & 0xFFFFFFFF, value - (value >> 63 << 64)
    low_signed = low - (low >> 31 << 32)
    also = "" if low_signed == signed else f", low 32 bits {low_signed}" + f" ({low:#x})" * (low != value)
    return said_number(value) + also


# ---- Lines -----------------------------------------------------------------------------------------------

class Lines:
    """The lines of an answer."""

    def __init__(self, names, arguments, every):
        self.names, self.arguments, self.every = names, arguments, every

    def of(self, answer):
        if answer.end is End.VIOLATED:
            yield from self.violated(answer)
            return
        before = f"{answer.source}: " if answer.source else ""
        for said in answer.said:
            yield f"{before}stopped at {answer.place}: {said}"
        for name, value in answer.results + answer.outputs:
            yield f"{name} = {said_value(value, answer.data, self.names)}"
        rows = list(self.changed(answer))
        until = "" if answer.end is End.RETURNED else "until then "
        shown = rows if self.every else rows[:MOST_LINES]
        yield from (f"{until}{row}" for row in shown)
        if len(rows) > len(shown):
            yield f"{until}{len(rows) - len(shown)} more changes: --all prints them"
        if not rows and answer.end is not End.OUTSIDE:
            yield f"{until}no data changed"
        yield f"groups {answer.groups}"

    @staticmethod
    def violated(answer):
        for row in answer.violations:
            before = f"{row['source']}: " if row["source"] else ""
            yield f"{before}error: {row['place']}: {row['text']}"
        more = answer.total - len(answer.violations)
        if more:
            yield f"{counted(more, 'more violation')}"
        many = counted(answer.total, "violation")
        yield (f"not run: {many} of the rules of groups in what the call may reach. --groups K runs "
               "it, each group all at once and its writes in the order with the number K, 0 for program order")

    # ---- Changes

    def changed(self, answer):
        """A line for each change: of an argument as a whole where it can be said so."""
        whole = set()
        for change in answer.changes:
            row = None if change.is_past or change.block is None else self.block(change.block, answer)
            if row is None:
                more = ", in data that are only read" * change.is_kept
                yield from (self.change(piece, answer) + more for piece in self.pieces(change, answer))
            elif change.block not in whole:
                yield row
                whole.add(change.block)

    def block(self, number, answer):
        """The line of an argument that is text, or numbers, or None."""
        block = next(block for block in self.names.made.blocks if block.number == number)
        argument = self.arguments[number - 1] if number else None
        start = block.start - DATA_AT
        before, after = (data[start:start + block.size] for data in (self.names.made.data, answer.data))
        if argument and argument.unit:
            unit = argument.unit
            old, new = ([content[at:at + unit] for at in range(0, block.size, unit)] for content in (before, after))
            if len(new) <= MOST_NUMBERS or self.every:
                return f"argument {number}: {said_numbers(new, unit)}, was {said_numbers(old, unit)}"
        text, was = (content[:content.find(b"\0")] if b"\0" in content else None for content in (after, before))
        least = 1 if argument and argument.is_text else 2
        if not text or was is None or len(text) < least or not is_text(text) or not is_text(was):
            return None
        if not is_all(text, was, before, after):
            return None
        name = f"argument {number}" if number else "structure"
        most = block.size if self.every else MOST_CHARACTERS
        return f"{name}: {said_text(text, most)}, was {said_text(was, most)}"

    def pieces(self, change, answer):
        """A change, with each word of eight bytes that is, or was, an address by itself."""
        first, end = change.start, change.start + len(change.after)
        for word in range(first & ~7, end, 8):
            if self.numbers(word, 8, answer)[1]:
                yield from cut_out(change, first, word)
                yield from cut_out(change, max(first, word), min(word + 8, end))
                first = word + 8
        yield from cut_out(change, first, end)

    def change(self, change, answer):
        """The line of a change: of a number, of an address, or of bytes."""
        name = f"{change.name}{change.offset:+#x}" + ", past its end" * change.is_past
        size = self.size_of(change)
        if size is not None:
            return f"{change.name}: {self.numbers(change.start - change.offset, size, answer)[0]}"
        word = change.start & ~7
        said, is_address = self.numbers(word, 8, answer)
        if is_address and word + 8 >= change.start + len(change.after):
            return f"{change.name}{change.offset - change.start + word:+#x}{', past its end' * change.is_past}: {said}"
        most = len(change.after) if self.every else MOST_BYTES
        old, new = (content[:most].hex() + ".." * (len(content) > most) for content in (change.before, change.after))
        shown = change.after.rstrip(b"\0")
        text = f" {said_text(shown, max(most, MOST_CHARACTERS))}" if len(shown) > 3 and is_text(shown) else ""
        return f"{name}: {old} -> {new}{text}" + (f", {len(change.after)} bytes" if len(change.after) > most else "")

    def numbers(self, start, size, answer):
        """What is said of a number that was changed, and whether it is, or was, an address."""
        old, new = (int.from_bytes(data[start:start + size], "little") for data in (self.names.made.data, answer.data))
        was, where = (self.names.said_address(number) if size == 8 else None for number in (old, new))
        also = f", address of {where}" if where else ""
        return f"{said_number(old, size)} -> {said_number(new, size)}{also}", bool(was or where)

    def size_of(self, change):
        """How many bytes a variable has that is one number, or None."""
        if change.block is not None or change.is_past:
            return None
        symbol = self.names.linked.symbol_at(DATA_AT + change.start - change.offset, False)
        return symbol.size if symbol and symbol.name == change.name and symbol.size in (1, 2, 4, 8) else None


def cut_out(change, start, end):
    """What of a change is from one byte of the data to another, where anything is."""
    first, last = start - change.start, end - change.start
    if first < last:
        row = trimmed(change._replace(offset=change.offset + first, start=start, before=change.before[first:last],
                                      after=change.after[first:last]))
        yield from [row] * bool(row.after)


def said_numbers(rows, unit):
    signed = (int.from_bytes(row, "little", signed=True) for row in rows)
    return f"data{unit}:" + ",".join(map(str, signed))


# ---- JSON ------------------------------------------------------------------------------------------------

def document(answer, names, label, function, steps=None, is_judged=True):
    """The answer as one JSON document, with the groups that are told of the run. Where nothing was judged, no count of violations
    is known."""
    def value(row):
        name, number = row
        if number is None:
            return {"name": name, "nat": True}
        where = names.said_address(number)
        text = text_at(answer.data, number - DATA_AT, 4096) if where and number >= DATA_AT else None
        return {"name": name, "unsigned": number, "signed": number - (number >> 63 << 64), "hex": f"{number:#x}",
                "address": where, "text": text}

    return json.dumps({
        "file": label, "function": function, "end": answer.end.value, "status": answer.status, "groups": answer.groups,
        "place": answer.place or None, "source": answer.source and str(answer.source), "said": answer.said,
        "results": list(map(value, answer.results)), "outputs": list(map(value, answer.outputs)),
        "changes": [{"name": change.name, "argument": change.block, "offset": change.offset, "past": change.is_past,
                     "read_only": change.is_kept, "before": change.before.hex(), "after": change.after.hex()}
                    for change in answer.changes],
        "violation_count": answer.total if is_judged else None,
        "violations": None if not is_judged else [{**row, "source": row["source"] and str(row["source"])} for row in answer.violations],
        **({} if steps is None else {"steps": steps})}, indent=1)
