"""The groups of a run as one JSON document."""

import json

from front.faults import printable


def step_row(step, code):
    """A group."""
    off = dict(step.off)
    return {"number": step.number, "first": code.named(step.first), "last": code.named(step.last), "how": step.how,
            "next": None if step.how == "ends" else code.named(step.place), "end": step.end,
            "slots": [{"place": code.named(place), "text": code.text(place), "source": code.source(place) or None,
                       "off": off.get(place)} for place in step.slots],
            "changes": [change._asdict() for change in step.changes]}


def rows(run, code, path):
    """The lines of the document, a line for each group."""
    yield f'{{"file": {json.dumps(printable(path))}, "steps": ['
    before = ""
    for step in run.steps():
        if before:
            yield f"{before},"
        before = json.dumps(step_row(step, code))
    yield before
    last = {"first": run.first, "groups": run.groups, "end": run.end, "status": run.status,
            "reached": None if run.until is None else run.is_reached}
    yield f"],\n{json.dumps(last)[1:]}"
