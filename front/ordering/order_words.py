"""Orders of writes in words: what a set of them has in common, where that tells it from all other orders."""

import functools
import math
from collections import Counter
from itertools import permutations

# So many orders are written out where no words are found; and one of so many writes always is.
WRITTEN_OUT, SHORT = 3, 7


def described(orders, writes):
    """A set of orders of these writes in words; one by itself is told by its shape or written out."""
    names, count = [write.name for write in writes], len(writes)
    if not writes:
        return "no writes"
    if len(orders) == 1:
        return shape(orders[0], names)
    if len(orders) == math.factorial(count):
        return "both orders" if count == 2 else f"all {len(orders)} orders"
    before = {(one, other) for one in range(count) for other in range(count) if one != other
              and all(order.index(one) < order.index(other) for order in orders)}
    said = [pairs_in_words(before, names)] if extensions(before, count) == len(orders) else []
    said += [words for words in (last_in_words(orders, writes),) if words]
    return min(said, key=len) if said else written_out(orders, names)


def shape(order, names):
    """One order: written out, or where it is long and in program order but for one write that comes first or last, that."""
    count = len(order)
    if count <= SHORT:
        return ", ".join(names[each] for each in order)
    if order in (tuple(range(count)), tuple(range(count))[::-1]):
        return "program order" if order[0] == 0 else "the reverse of program order"
    for each in (order[-1], order[0]):
        others = [other for other in order if other != each]
        if others == sorted(others):
            return f"{names[each]} {'last' if each == order[-1] else 'first'}"
    return ", ".join(names[each] for each in order)


def written_out(orders, names):
    shown = [" ".join(names[each] for each in order) for order in orders[:WRITTEN_OUT]]
    return "; ".join(shown) + f"; and {len(orders) - WRITTEN_OUT} more orders" * (len(orders) > WRITTEN_OUT)


def extensions(before, count):
    """How many orders of so many writes keep these pairs, in each of which the first comes before the second."""
    needed = [sum(1 << one for one, other in before if other == each) for each in range(count)]
    ways = [1] + [0] * ((1 << count) - 1)
    for made in range(1 << count):
        for each in range(count):
            if ways[made] and not made >> each & 1 and needed[each] & ~made == 0:
                ways[made | 1 << each] += ways[made]
    return ways[-1]


def pairs_in_words(before, names):
    """Pairs of writes, the first of each before the second: those that follow from others aren't said."""
    count = len(names)
    own = {pair for pair in before if not any((pair[0], each) in before and (each, pair[1]) in before for each in range(count))}
    said, covered = [], set()
    for each in range(count):
        others = set(range(count)) - {each}
        for word, pairs in (("first", {(each, other) for other in others}), ("last", {(other, each) for other in others})):
            if count > 2 and pairs <= before:
                said.append(f"{names[each]} {word}")
                covered |= pairs
    for one in range(count):
        behind = [names[other] for first, other in sorted(own - covered) if first == one]
        if behind:
            said.append(f"{names[one]} before {' and '.join(behind)}")
    return ", ".join(said)


def last_in_words(orders, writes):
    """Which writes are the last of their target in these orders, where that tells them from all others; else nothing."""
    groups, counts = lasts_of_all(tuple(write.target for write in writes))
    allowed = [set(column) for column in zip(*(lasts(order, groups) for order in orders))]
    if sum(count for last, count in counts.items() if all(each in column for each, column in zip(last, allowed))) != len(orders):
        return ""
    return ", ".join(f"{' or '.join(writes[each].name for each in sorted(column))} last of {writes[numbers[0]].target}"
                     for numbers, column in zip(groups, allowed) if len(column) < len(numbers))


def lasts(order, groups):
    """The last one of each of these groups of writes."""
    return tuple(max(numbers, key=order.index) for numbers in groups)


@functools.lru_cache(maxsize=1)
def lasts_of_all(targets):
    """The writes that have their target in common, and how many orders have which of them last."""
    groups = [[number for number, each in enumerate(targets) if each == target] for target in dict.fromkeys(targets)]
    groups = [numbers for numbers in groups if len(numbers) > 1]
    return groups, Counter(lasts(order, groups) for order in permutations(range(len(targets))))
