"""Which states the orders of a group's writes leave.

A program, a text or an image, whatever `ia64 check` says of it, is run by `ia64 groups N K`, each group all at once and its
writes in the order with the number K, for several K: 0, which is program order, to 5, among which are all orders of up to three
writes; the number whose order is the reverse of program order in each group of up to twenty writes; and a few random ones.
Slot by slot stands beside them (`slot_by_slot.py`).

That all are the same says nothing of other orders and of other start states: `ia64 check` does.
"""

import math
import random
from typing import Dict, List, NamedTuple

from front.ordering.answers import VIOLATED, Answers
from front.ordering.slot_by_slot import SlotBySlot, whole_run
from front.ordering.states import lines_of

# The statuses of a comparison.
SAME, SEVERAL, NOT_ACCEPTED = 0, 1, 3

# The order with this number is the reverse of program order in each group of up to twenty writes.
REVERSE = math.factorial(20) - 1
ORDERS = (0, 1, 2, 3, 4, 5, REVERSE)


class Runs(NamedTuple):
    """What the runs of a program left: the first line of its verdict, each state with the orders that leave it, and the
    state slot by slot."""
    verdict: str
    states: Dict[str, List[int]]
    slot_by_slot: SlotBySlot


def run_all(program, groups, orders, data):
    """Runs the program in these orders, each for at most so many groups, and slot by slot."""
    answers = Answers(program)
    status, printed = answers.of(["run", str(groups)], data)
    violated = status == VIOLATED
    states = {} if violated else {printed: []}
    for order in orders:
        state = answers.of(["groups", str(groups), str(order)], data)[1]
        states.setdefault(state, []).append(order)
    if violated:
        return Runs(printed.split("\n")[0], states, whole_run(answers, data, groups, next(iter(states))))
    return Runs("accepted", states, SlotBySlot("run", lines_of(printed)))


def orders_of(first, count, seed):
    """The orders that are run, each once: the first ones, and so many random ones."""
    source = random.Random(seed)
    return list(dict.fromkeys([*first, *(source.getrandbits(64) for _ in range(count))]))


# ---- What they leave -------------------------------------------------------------------------------------


def same_as(runs):
    """The number of the state that slot by slot leaves too, from 1; 0 where it is another one or isn't shown."""
    return next((number for number, state in enumerate(runs.states, 1) if runs.slot_by_slot.is_same(state)), 0)


def is_another(runs):
    return runs.slot_by_slot.lines is not None and not same_as(runs)


def status_of(runs):
    """The status of a call that has its runs."""
    if len(runs.states) + is_another(runs) > 1:
        return SEVERAL
    return SAME if runs.verdict == "accepted" else NOT_ACCEPTED
