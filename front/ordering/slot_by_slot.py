"""The state slot by slot that stands beside those of the orders of a group's writes.

Of an accepted program it is what `ia64 run` prints. Of another one `run` prints the verdict alone; so it is taken from the same
program with a stop behind each slot, of the whole text or of one group (`split.py`), by `ia64 groups N 0`. Positions
are told by the bundles of the program as it is. So are addresses of bundles, in branch registers, and in other registers and in
data where the state in program order has the address. The hardware needn't do anything of the kind.
"""

import re
from typing import Dict, NamedTuple, Optional

from front.faults import Fault
from front.files import IMAGES
from front.ordering.split import split
from front.ordering.states import lines_of, position_of
from front.ordering.writes import named
from front.usage import GROUP_LIMIT

LONGEST_GROUP = 192


class SlotBySlot(NamedTuple):
    """A state slot by slot by its lines, or why there is none; and what it is called."""
    name: str
    lines: Optional[Dict[str, str]]
    why: str = ""

    def is_same(self, state):
        """Whether a printed state is this one, but for how many groups there were."""
        return self.lines is not None and {**lines_of(state), "groups": ""} == {**self.lines, "groups": ""}


def not_shown(why):
    return SlotBySlot("slot by slot", None, why)


def text_of(answers, data):
    """The text of a program."""
    return answers.of(["show"], data)[1].encode() if data.startswith(IMAGES) else data


def told(state, parted, beside):
    """The lines of a state of a text that was taken apart, with the positions and the addresses that it had before, and with the
    number of groups of the state that it stands beside."""
    lines, others = lines_of(state), lines_of(beside)
    said, position = lines["end"].rsplit(" ", 1)
    before = parted.position(*position_of(position))
    lines.update({"end": f"{said} {named(before) if before else position}", "groups": others["groups"]})
    for name in [name for name, value in lines.items() if re.fullmatch(r"b\d|r\d+|m \w+", name) and " " not in value]:
        value = f"{parted.address(int(lines[name], 16)):016x}"
        if name[0] == "b" or value == others.get(name):
            lines[name] = value
    return lines


def whole_run(answers, data, groups, state):
    """Slot by slot to the end of a run, which leaves this state in program order."""
    if state.startswith("end limit"):
        return not_shown(f"the run doesn't end within {groups} group" + "s" * (groups != 1))
    try:
        parted = split(text_of(answers, data))
        if not parted.positions:
            return not_shown("the program has no bundle")
        most = min(GROUP_LIMIT, LONGEST_GROUP * groups)
        printed = answers.of(["groups", str(most), "0"], parted.text)[1]
    except Fault as fault:
        return not_shown(str(fault))
    if printed.startswith("end limit"):
        return not_shown(f"slot by slot the run doesn't end within {most} slots")
    return SlotBySlot("slot by slot", told(printed, parted, state))


def is_same_before(asked, parted):
    """Whether the groups before a group leave the same state in the text that was taken apart."""
    if asked.number == 1:
        return True
    return told(asked.groups(parted.text, asked.number - 1, 0), parted, asked.before) == lines_of(asked.before)


def through_group(asked, is_apart):
    """Slot by slot through one group of a run, and all groups before it as they are."""
    if asked.accepted:
        return SlotBySlot("run", lines_of(asked.answers.of(["run", str(asked.number)], asked.data)[1]))
    if not is_apart:
        return not_shown("the groups before this one can't be kept apart from it, as in a loop")
    positions = asked.reached()
    try:
        parted = split(text_of(asked.answers, asked.data), set(positions))
        if not is_same_before(asked, parted):
            return not_shown("with bundles at other addresses the groups before it leave another state")
        printed = asked.groups(parted.text, asked.number - 1 + len(positions), 0)
    except Fault as fault:
        return not_shown(str(fault))
    return SlotBySlot("slot by slot", told(printed, parted, asked.after))
