"""The places of a program: the texts of its slots, its labels and its lines."""

import re

from front import texts
from front.bundle import branches
from front.faults import Fault
from front.tracing.steps import Places, bundles_of


class Code(Places):
    """Those of a program that has an image, and of the text that it was built of, if there is one."""

    def __init__(self, program, image, text=None):
        super().__init__(bundles_of(image))
        self.listed = program.listing(image)
        self.slots, self.labels = None, {}
        slots = texts.slots_of_text(text) if text is not None else []
        if list(map(len, slots)) == list(map(len, self.listed)):
            self.slots, self.labels = slots, texts.labels_of_text(text)
        elif text is None:
            self.labels = {target: [f"L{target}"] for target in self.targets()}

    def targets(self):
        """The bundles to which direct branches and checks lead."""
        return sorted({index + away for index, bundle in enumerate(self.bundles) for _, away in branches(bundle)})

    def text(self, place):
        """What stands in a slot: as the text spells it, or as the program does."""
        bundle, slot = place
        return " ".join(self.slots[bundle][slot].text.split()) if self.slots else self.canonical(place)

    def canonical(self, place):
        return self.listed[place[0]][place[1]]

    def source(self, place):
        """On which line a slot stands, nothing where that isn't known."""
        return f"line {self.slots[place[0]][place[1]].line}" if self.slots else ""

    def named(self, place):
        return "{}.{}".format(*place)

    def said(self, place):
        """A place, with the first label of its bundle where it begins that."""
        label = self.labels.get(place[0], [""])[0] if place[1] == 0 else ""
        return self.named(place) + f" ({label})" * bool(label)

    def end(self, words):
        """How the run ended in a group, by the words of the line `end`."""
        return words.rsplit(" at ", 1)[0]

    def bundle_at(self, address):
        number = self.number_at(address)
        return "" if number is None else ", ".join([f"bundle {number}", *self.labels.get(number, [])[:1]])

    def place_of(self, word):
        """The place that a word stands for: a bundle, with or without a slot, or a label."""
        found = re.fullmatch(r"([0-9]{1,9})(?:\.([0-9]))?", word)
        if found:
            bundle, slot = int(found[1]), int(found[2] or 0)
            if bundle < len(self.listed) and slot < len(self.listed[bundle]):
                return bundle, slot
            raise Fault(f"{word} is no place of the program, which has bundles 0 to {len(self.listed) - 1}")
        for bundle, labels in self.labels.items():
            if word in labels:
                return bundle, 0
        raise Fault(f"no bundle has the label {word}: " + some_labels(self.labels))


def some_labels(labels):
    """The labels that there are, the first ones where there are many."""
    names = [name for bundle in labels for name in labels[bundle]]
    more = " .." if len(names) > MOST_LABELS else ""
    return f"those that bundles have are {', '.join(names[:MOST_LABELS])}{more}" if names else "none has one"


MOST_LABELS = 20
