"""Texts with a stop behind each of some slots: as if these were groups of their own, one after the other.

No template has a stop behind each slot, so their bundles are taken apart: each such slot gets a bundle, with a `nop` in its
other slots. What stands in a bundle before and behind these stays together, up to each stop. Labels, entries and relations go
to the first of the bundles that theirs becomes. So bundles get other numbers, and with them other addresses; a label in a text
follows its bundle, and the address of one that is spelled as a number doesn't.

A call's return lands behind its bundle, so a call with slots behind it isn't parted from them.
"""

from typing import List, NamedTuple

from front.faults import Fault
from front.loosen import is_call, with_unit
from front.program import CODE_AT
from front.texts import LABEL, OPENING, OUTSIDE, lines_of_text, parts_of, without_stop

# The bundle of a slot that stands alone, by its unit, and where in it the slot stands. An `alloc` comes first, a branch last.
ALONE = {"m": ("mii", 0), "i": ("mii", 1), "f": ("mfi", 1), "b": ("mib", 2), "x": ("mlx", 1)}


class Split(NamedTuple):
    """A text, and of each of its bundles the positions that its slots had before."""
    text: bytes
    positions: List[tuple]

    def position(self, bundle, slot):
        """The position that a slot had; of one behind the last bundle, none."""
        return self.positions[bundle][slot] if bundle < len(self.positions) else None

    def address(self, value):
        """The address that a bundle had, of its address now; of any other number, that number."""
        number, rest = divmod(value - CODE_AT, 16)
        if rest or not 0 <= number < len(self.positions):
            return value
        bundle = self.positions[number][0][0]
        return CODE_AT + 16 * bundle if number == 0 or self.positions[number - 1][0][0] != bundle else value


def split(data, wanted=None):
    """A text with a stop behind each slot whose position, as bundle and number, is wanted, or behind all of them."""
    made, positions, units, slots, number = [], [], None, [], -1
    for line in lines_of_text(data):
        said, _, _ = parts_of(line)
        name, stopped = without_stop(said)
        opening = OPENING.match(said)
        if opening:
            units, slots, number = opening[1].replace("mlx", "mx"), [], number + 1
        elif units is None or said == "}":
            if units is not None:
                for piece in pieces(slots, number, wanted):
                    made += bundle_of(piece, units)
                    positions.append(positions_of(piece, number, units))
            units = None
            made += [line] * (said != "}")
        elif not name and stopped:
            slots[-1] = (*slots[-1][:2], True)
        elif name and not OUTSIDE.match(name) and not LABEL.match(name):
            slots.append((len(slots), with_unit(name, units[len(slots)]), stopped))
    return Split("".join(f"{line}\n" for line in made).encode("latin-1"), positions)


def pieces(slots, number, wanted):
    """The slots of a bundle, parted: each wanted one stands alone, and the others as far as no stop parts them."""
    found, is_open = [], False
    for slot in slots:
        is_wanted = wanted is None or (number, slot[0]) in wanted
        if is_open and not is_wanted:
            found[-1].append(slot)
        else:
            found.append([slot])
        if is_wanted:
            found[-1][-1] = (*slot[:2], True)
        is_open = not is_wanted and not slot[2]
    for slot in (slot for piece in found[:-1] for slot in piece if is_call(slot[1])):
        raise Fault(f"the call at {number}.{slot[0]} has slots of its bundle behind it")
    return found


def bundle_of(piece, units):
    """The lines of a bundle with these slots and, behind the last, its stop."""
    if len(piece) == 1:
        units, first = ALONE[units[piece[0][0]]]
        slots = {first: piece[0][1]}
        units = units.replace("mlx", "mx")
    else:
        slots = {number: said for number, said, _ in piece}
    lines = [slots.get(number, f"nop.{unit} 0") for number, unit in enumerate(units)]
    lines[-1] += " ;;" * piece[-1][2]
    return [f"{{ .{units.replace('mx', 'mlx')}", *(f"  {line}" for line in lines), "}"]


def positions_of(piece, number, units):
    """The positions that the slots of such a bundle had: those that a `nop` was put in have that of the first other one."""
    own = {slot: (number, slot) for slot, _, _ in piece} if len(piece) > 1 else {}
    return tuple(own.get(slot, (number, piece[0][0])) for slot in range(3))
