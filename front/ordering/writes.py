"""The slots that one group of a run reaches, and the writes that they have, in program order.

Both are told by the texts of the slots, which `ia64 list` prints, by the states before the group and behind it, which
`ia64 groups G-1 0` and `ia64 groups G 0` print, and by the table of docs/use/commands.md, "Groups all at once". What these don't
tell isn't guessed: a fault says what it is.

An order of m writes is a list of their numbers, from 0 and in program order, as they are made. The number K stands for one:
number K mod m is made first, of the others that with the number K/m mod (m - 1), and so on.
"""

import re
from typing import List, NamedTuple, Optional, Tuple

from front.faults import Fault
from front.ordering.states import position_of

SLOT = re.compile(r"(?:\(p(\d+)\) )?(\S+)(?: (.*))?")
LABEL = re.compile(r"L(\d+)$")
BASE = re.compile(r"\[(r\d+)\],")

NOTHING = ("nop", "hint", "break", "chk", "invala", "mf")
MEMORY = ("ld", "st", "xchg", "fetchadd", "invala", "chk.a")
LOOPS = ("br.cloop", "br.ctop", "br.cexit", "br.wtop", "br.wexit")


class Slot(NamedTuple):
    """A slot of a listing: its position, its text, the number of its qualifying predicate, its words, and whether a stop stands
    behind it."""
    position: Tuple[int, int]
    text: str
    guard: int
    word: str
    operands: str
    has_stop: bool

    def is_of(self, words):
        """Whether its leading word begins with one of these."""
        return any(re.match(re.escape(word) + r"(?![a-z])", self.word) for word in words)

    def named(self):
        return named(self.position)


class Group(NamedTuple):
    """The slots that a group reaches, but for one that ends the run; whether its last slot branched away; and the slot behind
    them that ended the run."""
    slots: List[Slot]
    taken: bool
    ended: Optional[Slot]


class Write(NamedTuple):
    """A write of a slot: of what, as the slot names it, and what the write is called."""
    slot: Slot
    target: str
    name: str


def named(position):
    return "{}.{}".format(*position)


def read_listing(text):
    """The slots of each bundle of a program, from its listing."""
    rows = []
    for line in text.splitlines():
        if not line.startswith("  "):
            rows.append([])
            continue
        said = line[2:-3] if line.endswith(" ;;") else line[2:]
        guard, word, operands = SLOT.fullmatch(said).groups()
        rows[-1].append(Slot((len(rows) - 1, len(rows[-1])), said, int(guard or 0), word, operands or "", line.endswith(" ;;")))
    return rows


# ---- What a group reaches --------------------------------------------------------------------------------


def straight(rows, position):
    """The slots from a position to the first one with a stop behind it, and the position that follows."""
    found = []
    bundle, first = position
    for number in range(bundle, len(rows)):
        for slot in rows[number][first:]:
            found.append(slot)
            if slot.has_stop:
                return found, next_position(rows, slot.position)
        first = 0
    return found, (len(rows), 0)


def next_position(rows, position):
    bundle, slot = position
    return (bundle, slot + 1) if slot + 1 < len(rows[bundle]) else (bundle + 1, 0)


def group_between(rows, before, after):
    """The group that a run executes between two states, the second of which is that at its end."""
    slots, behind = straight(rows, before.position)
    if after.kind != "limit":
        reached = [slot for slot in slots if slot.position < after.position]
        return Group(reached, False, slots[len(reached)])
    ways = [(number, True) for number, slot in enumerate(slots)
            if may_lead(slot, before, written(slots[:number]), after.position)]
    sure = [number for number, _ in ways if must_lead(slots[number], before, written(slots[:number]))]
    if sure:
        ways = [way for way in ways if way[0] <= sure[0]]
    elif behind == after.position and not (ways and ways[-1][0] == len(slots) - 1 and slots[-1].is_of(["br.cond"])):
        ways.append((len(slots) - 1, False))
    if len(ways) != 1:
        branches = " or ".join(slots[number].named() for number, taken in ways if taken)
        raise Fault(f"whether the branch at {branches or named(before.position)} is taken isn't told by the states round the "
                    "group")
    number, taken = ways[0]
    return Group(slots[:number + 1], taken, None)


def written(slots):
    """The predicates that slots name as targets; None for all of them."""
    found = set()
    for slot in slots:
        if slot.word == "mov" and slot.operands.startswith(("pr=", "pr.rot=")):
            return None
        if slot.is_of(("cmp", "cmp4", "tbit", "tnat")):
            found |= {int(name[1:]) for name in targets(slot)}
        elif slot.is_of(LOOPS):
            found.add(63)
    return found


def guard_of(slot, before, changed):
    """Whether the qualifying predicate of a slot is 1, as it sees that; None where it isn't known. A branch sees what earlier
    slots of its group wrote."""
    if slot.guard and slot.word.startswith("br.") and (changed is None or slot.guard in changed):
        return None
    return before.predicate(slot.guard)


def may_lead(slot, before, changed, position):
    """Whether a slot may leave its group for this position."""
    label = LABEL.search(slot.operands)
    if label and position != (int(label[1]), 0) or position[1] != 0:
        return False
    guard, counts = guard_of(slot, before, changed), before.counter("ar.ec") > 1
    goes_on = before.counter("ar.lc") != 0 or counts
    if slot.is_of(("br.cond", "br.call", "br.ret")):
        return guard is not False
    return (slot.is_of(["br.cloop"]) and before.counter("ar.lc") != 0 or slot.is_of(["br.ctop"]) and goes_on
            or slot.is_of(["br.cexit"]) and not goes_on or slot.is_of(["br.wtop"]) and (guard is not False or counts)
            or slot.is_of(["br.wexit"]) and guard is not True and not counts
            or slot.is_of(["chk.a"]) and guard is not False or slot.is_of(["chk.s"]) and guard and checks(slot, before))


def checks(slot, before):
    """Whether a `chk.s` finds a NaT."""
    return before.register(int(slot.operands.split(",")[0][1:]))[1]


def must_lead(slot, before, changed):
    """Whether a slot that may leave its group leaves it."""
    return (slot.is_of(("br.cloop", "br.ctop", "br.cexit", "chk.s"))
            or not slot.is_of(["chk.a"]) and guard_of(slot, before, changed) is not None)


# ---- What a slot writes ----------------------------------------------------------------------------------


def targets(slot):
    """What stands before the equals sign, but for p0."""
    return [name for name in slot.operands.split("=")[0].split(",") if name != "p0"]


def writes_of(group, before):
    """The writes of a group, in program order."""
    found = []
    for number, slot in enumerate(group.slots):
        guard = guard_of(slot, before, written(group.slots[:number]))
        if guard is None and number + 1 < len(group.slots):
            guard = False if slot.is_of(("br.call", "br.ret")) else None
        elif guard is None:
            guard = group.taken if slot.is_of(("br.call", "br.ret")) else None
        made = targets_of(slot, group.slots[:number], guard, before)
        found += [Write(slot, target, slot.named() if len(made) == 1 else f"{slot.named()}:{target}") for target in made]
    return found


def targets_of(slot, earlier, guard, before):
    """What a slot writes, in the order in which it does."""
    if slot.is_of(NOTHING) or slot.is_of(["br.cond"]):
        return []
    if slot.is_of(LOOPS):
        return targets_of_loop(slot, guard, before)
    if slot.is_of(("cmp", "cmp4", "tbit", "tnat")) and (guard or ".unc" in slot.word):
        return targets(slot) if compares(slot, before) else []
    if not guard:
        return []
    if slot.word.startswith("ld"):
        return loaded(slot, earlier, before) + BASE.findall(slot.operands)
    if slot.word.startswith("st"):
        return re.findall(r"\[(r\d+)\]=.*,", slot.operands)
    if slot.word == "alloc":
        return ["frame"] * bool(earlier) + targets(slot)
    if slot.word == "mov" and slot.operands.startswith("pr"):
        return places(slot.operands)
    fixed = {"br.call": [*targets(slot), "ar.pfs", "frame"], "br.ret": ["frame", "ar.ec"], "clrrrb": ["frame"]}
    return next((made for word, made in fixed.items() if slot.is_of([word])), targets(slot)[:1])


def targets_of_loop(slot, guard, before):
    """What a loop branch writes: the counter that it counts down, p63 and the frame."""
    counts = before.counter("ar.ec") != 0
    if slot.is_of(["br.cloop"]):
        return ["ar.lc"] * (before.counter("ar.lc") != 0)
    if slot.is_of(("br.ctop", "br.cexit")):
        first = "ar.lc" if before.counter("ar.lc") != 0 else "ar.ec" if counts else None
        return [first, "p63", "frame"] if first else ["p63"]
    if guard is None:
        raise Fault(f"what {slot.named()} writes isn't told: an earlier slot of the group writes its qualifying predicate")
    return ["p63", "frame"] if guard else ["ar.ec", "p63", "frame"] if counts else ["p63"]


def loaded(slot, earlier, before):
    """The target of a load, which a check load that hits doesn't write."""
    target = targets(slot)[0]
    if ".c." not in slot.word:
        return [target]
    if any(each.is_of(MEMORY) for each in earlier):
        raise Fault(f"whether {slot.named()} writes {target} isn't told: an earlier slot of the group reaches memory or the ALAT")
    address, _ = before.register(int(re.search(r"\[r(\d+)\]", slot.operands)[1]))
    entry = (before.key(int(target[1:])), f"{address:016x}", re.match(r"ld(\d)", slot.word)[1])
    return [] if entry in before.alat() else [target]


def compares(slot, before):
    """Whether a compare of this kind writes its targets: `or` where it holds, `and` where it doesn't; the others always do."""
    kind = re.search(r"\.(or|and)(?:\.|$)", slot.word)
    if not kind:
        return True
    values, nats = zip(*(operand(word, before) for word in slot.operands.split("=")[1].split(",")))
    left, right = (signed(value, 32 if slot.word.startswith("cmp4") else 64) for value in values)
    holds = {"eq": left == right, "ne": left != right, "lt": left < right, "le": left <= right, "gt": left > right,
             "ge": left >= right}[slot.word.split(".")[1]]
    return (holds and not any(nats)) == (kind[1] == "or")


def operand(word, before):
    return before.register(int(word[1:])) if word.startswith("r") else (int(word, 0), False)


def signed(value, bits):
    value &= (1 << bits) - 1
    return value - (value >> bits - 1 << bits)


def places(operands):
    """The predicates that a move to them writes, by their places: from p16 up a place isn't named as the slot would name it."""
    if operands.startswith("pr.rot="):
        return [f"place{number}" for number in range(16, 64)]
    mask = int(operands.split(",")[1], 0)
    return ([f"p{number}" for number in range(1, 16) if mask >> number & 1]
            + [f"place{number}" for number in range(16, 64) if mask >> 16 & 1])


# ---- Orders ----------------------------------------------------------------------------------------------


def arranged(number, count):
    """The order with this number of so many writes."""
    left, made = list(range(count)), []
    while left:
        made.append(left.pop(number % len(left)))
        number //= len(left) + 1
    return tuple(made)


def number_of(order):
    """The number of an order, the least one."""
    left, number, weight = sorted(order), 0, 1
    for each in order:
        number += left.index(each) * weight
        weight *= len(left)
        left.remove(each)
    return number


def read_order(text, writes):
    """An order as it is named: by numbers of writes, by slots, which stand for all of their writes, or by their names."""
    order = []
    for word in text.split(","):
        found = [number for number, write in enumerate(writes) if word in (str(number), write.slot.named(), write.name)]
        if not found:
            raise Fault(f"{word} is no write of the group: {', '.join(write.name for write in writes)}")
        order += found
    for number, write in enumerate(writes):
        if order.count(number) != 1:
            raise Fault(f"the order names {write.name} {'twice' if order.count(number) else 'not at all'}")
    return tuple(order)
