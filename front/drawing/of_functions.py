"""Figures of the functions of a file of code."""

from front import listing, messages, reports, stand_ins
from front.bundle import branches, slots_of
from front.drawing import figures
from front.drawing.accesses import accesses_of, accesses_outside
from front.drawing.figure import Entry, Figure, Row
from front.faults import Fault
from front.functions import plus
from front.judging import NOT_JUDGED, VIOLATED

KEPT = f"{figures.PROVED}Proved: on no walk two slots of one group break a rule, in all that is looked at."
OF_THE_IMAGE = "That is of the image that was made of the function. That it stands for the function isn't proved."


def all_figures(file, functions, judge, is_proved):
    """The figures of functions."""
    for function in functions:
        if function.count > figures.MOST_BUNDLES:
            raise Fault(f"{function.name} has {function.count:,} bundles, and a picture has {figures.MOST_BUNDLES:,} at most")
    rows = zip(judge.judge(functions), listing.texts_of(functions, judge))
    return [figure(file, verdict, texts, is_proved) for verdict, texts in rows]


def figure(file, verdict, texts, is_proved):
    """The figure of a function, by its verdict and the texts of its slots."""
    function = verdict.function
    places = [(index, slot) for index, bundle in enumerate(function.bundles) if bundle.units for slot in slots_of(bundle)]
    accesses = {place: slot_accesses(texts, function.bundles[place[0]], place) for place in places}

    def said(violation):
        return messages.said_violation(violation, texts)

    pairs = figures.pairs_of(verdict.violations, said, accesses) + figures.pairs_of(verdict.excused, said, accesses, True)
    rows = make_rows(file, verdict, texts, accesses, places)
    rows += figures.behind(rows, pairs, f"{function.end:+#x}")
    return Figure(file.label, function.name, verdict.word, said_verdict(verdict), notes(verdict, texts, is_proved), rows,
                  make_branches(verdict), tuple(pairs))


def slot_accesses(texts, bundle, place):
    """What a slot reads and writes: by its text, or by its row where it is outside the profile."""
    index, slot = place
    own = texts.verdict.texts
    row = stand_ins.rows_of(bundle).get(slot)
    if row:
        return accesses_outside(row, bundle.words[2 if bundle.units[slot] == "l" else slot])
    return accesses_of(own[index][slot]) if own and own[index][slot] else None


def make_rows(file, verdict, texts, accesses, places):
    function, maker, rows = verdict.function, figures.SlotMaker(), []
    lines = source_lines(file, function, places)
    off_walks, unread = set(verdict.off_walks), set(texts.verdict.unread)
    labels, called = labels_of(file, function), {index + 1 for index in figures.calls(function.bundles)}

    def parts(place):
        row = stand_ins.rows_of(function.bundles[place[0]]).get(place[1])
        mark = figures.marked(row) if row or place in unread else ""
        return {"name": f"{function.offset(place[0]):+#x} slot {place[1]}", "text": texts.text(place), "canonical": "",
                "accesses": accesses[place], "mark": mark, "source": str(lines[place]) if place in lines else ""}

    for index, bundle in enumerate(function.bundles):
        name = f"{function.offset(index):+#x}"
        if not bundle.units:
            rows.append(Row(name, "", (), said=f"reserved template {bundle.template:#04x}"))
            continue
        of_slots = [lines[index, slot] for slot in slots_of(bundle) if (index, slot) in lines]
        rows.append(Row(name, bundle.units, maker.slots(index, bundle, parts), tuple(labels.get(index, ())),
                        entry_of(function, index, called), figures.said_lines([source.line for source in of_slots]),
                        index not in off_walks))
    return tuple(rows) or (Row(f"{function.start:+#x}", "", (), said="no bundle of it can be read"),)


def entry_of(function, index, called):
    why = ", ".join(filter(None, ("the start" if index == 0 else "", function.entries.get(index),
                                  "behind a call" if index in called else "")))
    return Entry(why) if why else None


def source_lines(file, function, places):
    """The lines of the source of slots, where they are known."""
    keys = [(function.section.index, function.offset(index), slot) for index, slot in places]
    found = reports.source_lines(file, keys)
    return {place: found[key] for place, key in zip(places, keys) if key in found}


def labels_of(file, function):
    """The names of symbols in a function, by bundles."""
    found = {}
    for symbol in file.code.symbols():
        section, offset = symbol.location
        if section == function.section.index and function.start <= offset < function.end and symbol.name:
            names = found.setdefault((offset - function.start) // 16, [])
            if symbol.name not in names:
                names.append(symbol.name)
    found.setdefault(0, [function.name])
    return found


def make_branches(verdict):
    function, only_by, found = verdict.function, figures.only_by(verdict.ways), []
    for index, bundle in enumerate(function.bundles):
        for slot, away in branches(bundle):
            is_inside = 0 <= index + away < function.count
            name = plus(function.name, 16 * (index + away)) if is_inside else function.outside.get((index, slot), "outside")
            found.append(figures.branch((index, slot), index + away if is_inside else None,
                                        f"{function.offset(index):+#x} slot {slot} to {name}", only_by))
    return tuple(found)


def said_verdict(verdict):
    if verdict.word == VIOLATED:
        return messages.counted(verdict.total, "violation") + messages.qualified(verdict)
    return verdict.word + ("" if verdict.word == NOT_JUDGED else messages.qualified(verdict))


def notes(verdict, texts, is_proved):
    """What is said below the verdict."""
    rows = []
    if verdict.word == NOT_JUDGED:
        rows += [sentence(row.text) for row in messages.verdict_messages(verdict, texts, False)]
    elif not is_proved:
        rows.append(figures.NOT_BUILT)
    else:
        rows += [figures.CLASHES if verdict.total else figures.ACCEPTS if not verdict.stood_in else KEPT, OF_THE_IMAGE]
    more = verdict.total - len(verdict.violations)
    if more and not verdict.faults:
        rows.append(f"{messages.counted(more, 'more violation')}, which aren't listed, and aren't drawn; nor are excused pairs.")
    rows += [sentence(text) for _, _, text in messages.notes(verdict, False)]
    return (*rows, figures.DRAWN)


def sentence(text):
    return f"{text[:1].upper()}{text[1:]}."
