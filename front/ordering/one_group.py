"""The states that the orders of one group's writes leave, the group being the one with a number in a run.

`ia64 groups N K` runs all groups in orders with the number K, and each reads it by its own number of writes. So the run ends
with this group, and the groups before it have to be kept out of it. Where the proved program accepts the program that has a
`break` in place of each slot that the group reaches, and runs it to the same state before the group, no earlier group reaches
these slots, and the state there is the same for each K: that is proved of an accepted program. Else the groups before are run
with each K too, and where they leave another state than in program order, the order isn't shown.

Slot by slot is what `run` prints where the program is accepted. Else it is the same run with a stop behind each slot of this
one group (`split.py`): no promise is made that the hardware does so.
"""

import math
import random
from itertools import permutations
from typing import Dict, List, NamedTuple

from front.faults import Fault
from front.files import IMAGES
from front.ordering import writes
from front.ordering.answers import Answers
from front.ordering.slot_by_slot import SlotBySlot, through_group
from front.ordering.states import ZERO, State, lines_of
from front.program import Parts
from front.usage import NUMBER_LIMIT

# All orders of so many writes are run, and so many processes at once.
MOST_WRITES, WORKERS = 7, 4


class Runs(NamedTuple):
    """What the runs of a group left: the first line of the verdict, its number, its slots and writes, the state before it,
    each state behind it with the orders that leave it, the orders that aren't shown, and slot by slot."""
    verdict: str
    number: int
    group: writes.Group
    writes: List[writes.Write]
    before: Dict[str, str]
    states: Dict[str, List[tuple]]
    not_shown: List[tuple]
    slot_by_slot: SlotBySlot

    def count(self):
        return sum(map(len, self.states.values()))

    def is_complete(self):
        return self.count() == math.factorial(len(self.writes))


class Asked:
    """A program, and what is asked of one group of its run."""

    def __init__(self, program, data, number):
        self.answers, self.data, self.number = Answers(program), data, number
        status, verdict = self.answers.of(["check"], data)
        self.verdict, self.accepted = verdict.split("\n")[0], status == 0
        self.image = data if data.startswith(IMAGES) else self.answers.raw(["build"], data)[1]
        self.before = self.start() if number == 1 else self.groups(data, number - 1, 0)
        if number > 1 and not self.before.startswith("end limit"):
            raise Fault(f"the run has no group {number}: {', '.join(self.before.splitlines()[1::-1])}")
        rows = writes.read_listing(self.answers.of(["list"], self.image)[1])
        self.after = self.groups(data, number, 0)
        state = State(self.before)
        self.group = writes.group_between(rows, state, State(self.after))
        self.writes = writes.writes_of(self.group, state)

    def start(self):
        """The state in which the run begins: that which a `break` at its first slot leaves."""
        try:
            return self.groups(self.with_breaks([(0, 0)]), 1, 0)
        except Fault:
            return ZERO

    def groups(self, data, number, order):
        """The state after so many groups, in the order with this number."""
        return self.answers.of(["groups", str(number), str(order)], data)[1]

    def reached(self):
        """The positions of the group's slots, with that of one that ends the run."""
        return [slot.position for slot in self.group.slots] + ([self.group.ended.position] if self.group.ended else [])

    def with_breaks(self, positions):
        """The image with a `break` in each of these positions: a word of zeros, whatever the unit."""
        parts = Parts(self.image)
        bundles = list(parts.bundles)
        for bundle, slot in positions:
            is_long = bundles[bundle].units == "mlx" and slot == 1
            bundles[bundle] = bundles[bundle].with_word(slot, 0).with_word(2 if is_long else slot, 0)
        return b"".join([parts.head, *(bundle.packed() for bundle in bundles), parts.rest])

    def is_apart(self):
        """Whether no earlier group of the run, in program order, reaches a slot of the group, and whether then no order of
        theirs changes what they leave."""
        if self.number == 1:
            return True, True
        changed = self.with_breaks(self.reached())
        try:
            is_apart = self.groups(changed, self.number - 1, 0) == self.before
            return is_apart, self.accepted or is_apart and self.answers.of(["check"], changed)[0] == 0
        except Fault:
            return False, self.accepted

    def run(self, order, is_firm):
        """The state that an order of the group's writes leaves; None where the groups before it leave another than in program
        order."""
        number = writes.number_of(order)
        if not is_firm and self.groups(self.data, self.number - 1, number) != self.before:
            return None
        return self.groups(self.data, self.number, number)


def run_all(program, data, number, wanted, count, seed):
    """Runs a group in the orders that are wanted, given by their names, and in program order; or else in all orders of its
    writes, and where these are many, in some and so many random ones."""
    asked = Asked(program, data, number)
    orders = orders_of(asked.writes, wanted, count, seed)
    is_apart, is_firm = asked.is_apart()
    left = each_of(lambda order: asked.run(order, is_firm), orders)
    states = {}
    for order, state in zip(orders, left):
        if state is not None:
            states.setdefault(state, []).append(order)
    return Runs(asked.verdict, number, asked.group, asked.writes, lines_of(asked.before), states,
                [order for order, state in zip(orders, left) if state is None], through_group(asked, is_apart))


def each_of(ask, orders):
    """The answers on orders, several at a time where the system has the means."""
    from concurrent.futures import ThreadPoolExecutor  # which takes longer to load than most answers
    try:
        with ThreadPoolExecutor(WORKERS) as pool:
            return list(pool.map(ask, orders))
    except RuntimeError:
        return list(map(ask, orders))


def orders_of(made, wanted, count, seed):
    """The orders that are run, each once, program order first."""
    program_order = tuple(range(len(made)))
    if wanted:
        orders = [program_order, *(writes.read_order(text, made) for text in wanted)]
    elif len(made) <= MOST_WRITES:
        return sorted(permutations(program_order), key=writes.number_of)
    else:
        source = random.Random(seed)
        orders = [program_order, program_order[::-1], *(moved(program_order, each, True) for each in program_order),
                  *(moved(program_order, each, False) for each in program_order),
                  *(writes.arranged(source.getrandbits(64), len(made)) for _ in range(count))]
    numbered = {order: writes.number_of(order) for order in orders}
    if wanted and max(numbered.values()) > NUMBER_LIMIT:
        raise Fault("the order has no number below 2^64, so it can't be run")
    return [order for order, number in numbered.items() if number <= NUMBER_LIMIT]


def moved(order, each, last):
    """An order with one write made first or last."""
    others = tuple(other for other in order if other != each)
    return (*others, each) if last else (each, *others)
