"""What is printed of the states that the orders of a group's writes leave, and in what they differ.

The first line has the verdict, and how many orders leave how many states. Where that is one state, slot by slot too, it is the
only line, and says how the run ends. Else a line for each state has the numbers of its orders, and a table has the lines of the
printed states that aren't the same in all of them, with `-` where a state doesn't have the line:

  violations 1: 15 orders leave 2 states, and slot by slot state 1
  state 1: slot by slot, K 0, 2, 4 ..
  state 2: K 1, 3, 5 ..

      state 1           state 2
  r8  0000000000000002  0000000000000001

A register that is 0 has no line. `alat 1` is the oldest entry of the ALAT.

With the number of one group of the run it is all orders of that group's writes (`one_group.py`), named by slots, and the table
has what the group changes.
"""

import math
import textwrap

from front.messages import counted
from front.ordering.order_words import described
from front.ordering.orders import SEVERAL, is_another, same_as, status_of
from front.ordering.states import differing, lines_of, table
from front.ordering.writes import number_of

# How many states stand beside each other, how many lines of them are printed, how long the line of orders gets, and how many
# numbers of orders it has of one group.
COLUMNS, LINES, WIDTH, NUMBERS = 4, 40, 110, 8


def wrapped(head, text):
    return textwrap.wrap(f"{head}: {text}", WIDTH, subsequent_indent=" " * (len(head) + 2))


def left_by(runs):
    """How many states are left, and of one how the run ends."""
    count = len(runs.states)
    return f"{count} states" if count > 1 else "one state, " + next(iter(runs.states)).split("\n")[0]


def said_slot_by_slot(runs):
    """What the first line has of slot by slot, of a program that isn't accepted."""
    if runs.slot_by_slot.lines is None:
        return f". Slot by slot isn't shown: {runs.slot_by_slot.why}"
    if is_another(runs):
        return ", and slot by slot another one"
    return f", and slot by slot state {same_as(runs)}" if len(runs.states) > 1 else ", and so does slot by slot"


def first_line(runs):
    """The line with the verdict, and how many orders leave how many states."""
    orders = counted(sum(map(len, runs.states.values())), "order")
    if runs.verdict == "accepted":
        return f"accepted: run and {orders} leave {left_by(runs)}"
    return f"{runs.verdict}: {orders} {'leaves' if orders == '1 order' else 'leave'} {left_by(runs)}{said_slot_by_slot(runs)}"


def leaving(head, orders, beside):
    """The lines of a state with the runs that leave it."""
    runs = ([beside] if beside else []) + (["K " + ", ".join(map(str, orders))] if orders else [])
    return wrapped(head, ", ".join(runs))


def heads_of(runs):
    return [f"state {number}" for number in range(1, len(runs.states) + 1)]


def tables(heads, states, most):
    """The tables of the lines in which states differ, so many states beside each other, and at most so many lines of each."""
    names = differing(states)
    for first in range(0, len(states), COLUMNS):
        yield ""
        yield from table(heads[first:first + COLUMNS], states[first:first + COLUMNS], names[:most])
    if len(names) > most:
        yield f"and {counted(len(names) - most, 'line')} more: --all prints them"


def report(runs, most):
    """The lines that are printed, at most so many of each state."""
    yield first_line(runs)
    if status_of(runs) != SEVERAL:
        return
    same, heads, states = same_as(runs), heads_of(runs), list(map(lines_of, runs.states))
    for number, (head, orders) in enumerate(zip(heads, runs.states.values()), 1):
        yield from leaving(head, orders, runs.slot_by_slot.name * (number == same))
    if is_another(runs):
        heads, states = [*heads, runs.slot_by_slot.name], [*states, runs.slot_by_slot.lines]
    yield from tables(heads, states, most)


# ---- One group -------------------------------------------------------------------------------------------


def factorial(number):
    """How many orders of so many writes there are, written as a product where they are many."""
    return str(math.factorial(number)) if number <= 10 else f"{number}!"


def first_line_of_group(runs):
    """The line with the verdict, the group, and how many of the orders of its writes leave how many states."""
    slots = [*runs.group.slots, *([runs.group.ended] if runs.group.ended else [])]
    made = f"{runs.verdict}: group {runs.number} of the run, {slots[0].named()} to {slots[-1].named()}, makes "
    if len(runs.writes) < 2:
        return made + ("1 write, which has one order" if runs.writes else "no write")
    count = runs.count()
    every = "both orders" if count == 2 else f"all {count} orders"
    orders = every if runs.is_complete() else f"{count} of the {factorial(len(runs.writes))} orders"
    left = f"{len(runs.states)} states" if len(runs.states) > 1 else "one state"
    return f"{made}{len(runs.writes)} writes, and {orders} of them {'leaves' if count == 1 else 'leave'} {left}"


def slot_lines(runs):
    """The slots of the group but for nops, each with its writes by their numbers; and the one that ends the run."""
    own = {}
    for number, write in enumerate(runs.writes):
        own.setdefault(write.slot.position, []).append(f"{number} {write.target}")
    rows = [(slot.named(), slot.text, f"write{'s' * (len(own[slot.position]) > 1)} " + ", ".join(own[slot.position])
             if slot.position in own else "no write") for slot in runs.group.slots if slot.word.split(".")[0] != "nop"]
    if runs.group.ended:
        end = lines_of(next(iter(runs.states)))["end"].split(" at ")[0]
        rows.append((runs.group.ended.named(), runs.group.ended.text, f"ends the run, {end}"))
    widths = [max(map(len, column)) for column in list(zip(*rows))[:2]]
    return [f"  {position.ljust(widths[0])}  {text.ljust(widths[1])}  {said}" for position, text, said in rows]


def named_both_ways(order, made):
    """An order by the names of its writes and by their numbers, and its own number."""
    names = ", ".join(made[each].name for each in order)
    return f"the order {names} (writes {','.join(map(str, order))}) is K {number_of(order)}"


def state_line(head, runs, orders, is_named):
    """The lines of a state with its orders, in words where all orders of the group were run, and by their numbers."""
    if is_named:
        return [line for order in orders for line in wrapped(head, named_both_ways(order, runs.writes))]
    if not runs.is_complete():
        shown = "; ".join(f"{described([order], runs.writes)} (K {number_of(order)})" for order in orders[:NUMBERS])
        return wrapped(head, shown + f"; and {len(orders) - NUMBERS} more" * (len(orders) > NUMBERS))
    numbers = sorted(map(number_of, orders))
    return wrapped(head, f"{described(orders, runs.writes)}; K {', '.join(map(str, numbers[:NUMBERS]))}"
                   + " .." * (len(numbers) > NUMBERS))


def line_slot_by_slot(runs):
    """The line on slot by slot."""
    name = "slot by slot (run)" if runs.slot_by_slot.name == "run" else "slot by slot, which the hardware needn't do"
    if runs.slot_by_slot.lines is None:
        return f"slot by slot isn't shown: {runs.slot_by_slot.why}"
    if not is_another(runs):
        return f"{name}: state {same_as(runs)}"
    return f"{name}: a state that {'no order' if runs.is_complete() else 'none of these orders'} leaves"


def report_group(runs, most, is_named):
    """The lines that are printed of one group, at most so many of each state. Orders that were named are said back."""
    yield first_line_of_group(runs)
    yield from slot_lines(runs)
    heads, states = heads_of(runs), list(map(lines_of, runs.states))
    for head, orders in zip(heads, runs.states.values()) if runs.writes else ():
        yield from state_line(head, runs, orders, is_named)
    if runs.not_shown:
        numbers = ", ".join(str(number_of(order)) for order in runs.not_shown[:NUMBERS])
        yield from wrapped("not shown", f"{counted(len(runs.not_shown), 'order')} by which groups before this one leave another "
                           f"state; K {numbers}" + " .." * (len(runs.not_shown) > NUMBERS))
    yield line_slot_by_slot(runs)
    if is_another(runs):
        heads, states = [*heads, runs.slot_by_slot.name], [*states, runs.slot_by_slot.lines]
    ends = {state["end"] for state in states}
    before = {**runs.before, "groups": states[0]["groups"], "end": states[0]["end"] if len(ends) == 1 else ""}
    if differing([before, *states]):
        yield from tables(["before", *heads], [before, *states], most)
