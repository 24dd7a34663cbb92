"""The run of a call, group by group, as `ia64 trace` tells that of a program (`front/tracing`): the places by the functions that
they are in, and what stands, or stood, there."""

import itertools
import re

from front.messages import counted
from front.tracing import lines
from front.tracing.document import step_row
from front.tracing.steps import Places, steps
from front.usage import TRACE_LIMIT


class CallPlaces(Places):
    """The places of the image of a call."""

    def __init__(self, teller):
        super().__init__(teller.made.bundles)
        self.teller, self.names, self.sources = teller, teller.names, {}
        self.rows = teller.program.listing(teller.made.image())

    def learn(self, places):
        """Finds the lines of the sources of slots, all at once."""
        wanted = [place for place in places if place not in self.sources]
        self.sources.update(dict.fromkeys(wanted, ""))
        self.sources.update({place: str(source) for place, source in self.teller.sources(wanted).items()})

    def text(self, place):
        return self.teller.listed(place, self.rows)

    def canonical(self, place):
        return self.rows[place[0]][place[1]]

    def source(self, place):
        return self.sources.get(place, "")

    def code(self, bundle):
        """A bundle by its function and its offset there, of the caller too."""
        return f"the caller{16 * bundle:+#x}" if bundle <= self.teller.made.back else self.names.code(bundle)

    def named(self, place):
        return f"{self.code(place[0])} slot {place[1]}"

    def said(self, place):
        return self.named(place) if place[1] else re.sub(r"\+0x0$", "", self.code(place[0]))

    def end(self, words):
        """How the run ended in a group: a `break` was put in, or is said of below."""
        return words.rsplit(" at ", 1)[0] if words.startswith("fault") else "the end of the run"

    def bundle_at(self, address):
        number = self.number_at(address)
        return "" if number is None else self.code(number)

    def address(self, value):
        return self.names.said_address(value) or ""


class CallTrace:
    """The first groups of the run of a call, at most so many."""

    def __init__(self, program, teller, count):
        self.code = CallPlaces(teller)
        self.found = steps(program, teller.made.image(), 1, count, self.code)

    def steps(self):
        """The groups, after the lines of their sources were found, many at a time."""
        while True:
            some = list(itertools.islice(self.found, TRACE_LIMIT))
            if not some:
                return
            self.code.learn({place: None for step in some for place in step.slots})
            yield from some

    def lines(self):
        for step in self.steps():
            yield from lines.group_lines(step, self.code)
        if step.how != "ends":
            told = counted(step.number, "group")
            yield f"{told} told, and the run goes on at {self.code.said(step.place)}: --trace N tells more"

    def rows(self):
        """The groups as JSON has them."""
        return [step_row(step, self.code) for step in self.steps()]
