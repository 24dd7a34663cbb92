"""Figures of programs of the proved program's own form, texts and images."""

import struct

from front import flow, messages, programs, texts, ways
from front.bundle import branches
from front.drawing import figures
from front.drawing.accesses import accesses_of
from front.drawing.figure import Entry, Figure, Row
from front.drawing.relations import cliques
from front.faults import Fault
from front.files import Kind
from front.judging import ACCEPTED, VIOLATED
from front.program import Refusal
from front.refusals import RefusedInput


class Told:
    """What a text tells of a program beside its image: where its slots stand, how they are spelled, and labels. Of an image
    nothing."""

    def __init__(self, source, counts):
        self.slots, self.labels = None, {}
        if source.kind is Kind.TEXT:
            slots = texts.slots_of_text(source.data)
            if list(map(len, slots)) == counts:
                self.slots, self.labels = slots, texts.labels_of_text(source.data)

    def lines(self, index):
        return figures.said_lines([slot.line for slot in self.slots[index]]) if self.slots else ""


class Declared:
    """What an image declares: entries, and the relations of each."""

    def __init__(self, head):
        _, count = struct.unpack_from("<2I", head, 8)
        self.entries = struct.unpack_from(f"<{count}I", head, 24)
        self.relations = {}
        for bundle, lower, higher, _ in struct.iter_unpack("<I2BH", head[24 + 4 * count:]):
            self.relations.setdefault(bundle, []).append((lower, higher))

    def entry(self, index, called):
        """What makes a bundle an entry, or None."""
        why = ", ".join(filter(None, ("the start" if index == 0 else "", "declared" if index in self.entries else "",
                                      "behind a call" if index in called else "")))
        return Entry(why, tuple(cliques(self.relations.get(index, ())))) if why else None


def figure(file, source, program, is_proved):
    """The figure of an image, which may be that of a text."""
    status, answer = program.call(["check"], file.data)
    if status == 3:
        raise RefusedInput(answer, file.data)
    total, broken = program.verdict(answer)
    image = programs.Image(file, program)
    bundles = image.bundles
    if len(bundles) > figures.MOST_BUNDLES:
        raise Fault(f"{len(bundles):,} bundles, and a picture has {figures.MOST_BUNDLES:,} at most")
    listing = program.listing(file.data)
    if isinstance(listing, Refusal):
        raise Fault("it is checked and not listed")
    found = ways.ways(image.ask, image.code, broken)
    excused = ways.excused(image.ask, image.code, broken) if total == len(broken) else []
    told = Told(source, list(map(len, listing)))
    accesses = {(index, slot): accesses_of(text) for index, row in enumerate(listing) for slot, text in enumerate(row)}

    def text(place):
        own = told.slots and " ".join(told.slots[place[0]][place[1]].text.split())
        return own or listing[place[0]][place[1]]

    def said(row):
        places = " and ".join("{0[0]}.{0[1]}".format(place) for place in (row.first, row.second))
        return f"{row.rule} {row.resource}: {programs.said_pair(row, text(row.first), text(row.second))} ({places})"

    pairs = figures.pairs_of(broken, said, accesses) + figures.pairs_of(excused, said, accesses, True)
    declared, walked = Declared(image.head), flow.walks(programs.function_of(image)).walked
    rows = make_rows(bundles, listing, told, accesses, text, declared, walked)
    only_by = figures.only_by(found)
    edges = tuple(figures.branch((index, slot), index + away, f"{index}.{slot} to bundle {index + away}", only_by)
                  for index, bundle in enumerate(bundles) for slot, away in branches(bundle))
    return Figure(source.label, "", VIOLATED if total else ACCEPTED,
                  messages.counted(total, "violation") if total else ACCEPTED,
                  notes(total, len(broken), walked, is_proved), rows, edges, tuple(pairs))


def make_rows(bundles, listing, told, accesses, text, declared, walked):
    maker, rows = figures.SlotMaker(), []
    called = {index + 1 for index in figures.calls(bundles)}
    targets = {index + away for index, bundle in enumerate(bundles) for _, away in branches(bundle)}

    def parts(place):
        canonical, own = listing[place[0]][place[1]], text(place)
        slot = told.slots[place[0]][place[1]] if told.slots else None
        return {"name": f"{place[0]}.{place[1]}", "text": own, "canonical": canonical if own != canonical else "",
                "accesses": accesses[place], "source": f"line {slot.line}" if slot else ""}

    for index, bundle in enumerate(bundles):
        labels = told.labels.get(index, []) if told.slots else [f"L{index}"] * (index in targets)
        rows.append(Row(str(index), bundle.units, maker.slots(index, bundle, parts), tuple(labels), declared.entry(index, called),
                        told.lines(index), walked[index]))
    return tuple(rows)


def notes(total, listed, walked, is_proved):
    """What is said below the verdict."""
    rows = [figures.CLASHES if total else figures.ACCEPTS] if is_proved else [figures.NOT_BUILT]
    if total > listed:
        rows.append(f"The program lists {listed} of the {total} violations, and no others are drawn; nor are excused pairs.")
    if not all(walked):
        rows.append(f"{sum(walked)} of {len(walked)} bundles are on a walk. The verdict says nothing of the others.")
    return (*rows, figures.DRAWN)
