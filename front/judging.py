"""The verdict on each function, asked of the proved program."""

from dataclasses import dataclass, field, replace
from typing import Dict, List, NamedTuple, Optional, Tuple

from front import floating_registers, flow, stand_ins, ways
from front.bundle import NOPS, Bundle, branches, split, with_branch
from front.faults import Why
from front.functions import MOST_BUNDLES, Function
from front.program import Broken, Refusal, batches, image

ACCEPTED, VIOLATED, NOT_JUDGED = "accepted", "violated", "not judged"

# What is looked at where it is mapped to general registers, and plain stand-ins don't look at, in words.
MAPPED = tuple(stand_ins.UNSEEN[name] for name in ("f1", *floating_registers.APPLICATION))


# Why nothing stands in for a word.
UNKNOWN = "no instruction that is known here"
# How many such slots of a function are found at most: the larger it is, the fewer.
MOST_UNKNOWN, WORK = 1000, 200_000


class Violation(NamedTuple):
    """Two slots of a function, as bundle and slot. The second may be in the end bundle behind it."""
    rule: str
    resource: str
    first: Tuple[int, int]
    second: Tuple[int, int]


class Unlisted(NamedTuple):
    """A slot, as bundle and slot, whose instruction the program doesn't take, and why nothing stands in for it. A reserved
    template has the slot None."""
    bundle: int
    slot: Optional[int]
    why: str


@dataclass
class Piece:
    """What is asked of a function: its bundles, or others in their place. `places` says of the slots of these which of the
    function's own they stand for; where it is None they stand for themselves."""
    function: Function
    code: bytes
    entries: List[int]
    places: Optional[Dict[Tuple[int, int], Tuple[int, int]]] = None
    mapped: Optional[floating_registers.Mapped] = None

    def count(self):
        return len(self.code) // 16

    def place(self, bundle, slot):
        """The place in the function of a slot of the piece: of its end bundle that behind the function's last."""
        if bundle >= self.count():
            return self.function.count, slot
        return (bundle, slot) if self.places is None else self.places[bundle, slot]

    def told(self, broken):
        """What a line of a verdict on the piece tells of the function. Several may tell the same."""
        resource = self.mapped.resource(broken.resource) if self.mapped else broken.resource
        return Violation(broken.rule, resource, self.place(*broken.first), self.place(*broken.second))


@dataclass
class Verdict:
    """What is known of a function."""
    function: Function
    violations: List[Violation] = field(default_factory=list)
    broken: List[Broken] = field(default_factory=list)           # the same as the program tells them, of what it was asked
    total: int = 0                                               # how many there are
    unlisted: List[Unlisted] = field(default_factory=list)
    faults: List[Why] = field(default_factory=list)              # why it isn't judged, beside these
    stood_in: Dict[Tuple[int, int], stand_ins.Row] = field(default_factory=dict)
    unlooked: List[str] = field(default_factory=list)            # what its verdict doesn't look at
    ways: Dict[Violation, List[Tuple[Tuple[int, int], int]]] = field(default_factory=dict)   # see `ways`
    calls: Dict[Violation, List[Tuple[int, int]]] = field(default_factory=dict)   # see `ways` too, where they are wanted
    excused: List[Violation] = field(default_factory=list)       # pairs that predicates excuse, where they are wanted
    texts: Optional[List[List[str]]] = None                      # of its slots, where they are wanted
    unread: List[Tuple[int, int]] = field(default_factory=list)  # then the slots whose texts the program doesn't give
    refusal: Optional[Why] = None                                # and why it refuses the function, beside these slots
    off_walks: List[int] = field(default_factory=list)           # its bundles that are on no walk
    falls_out: bool = False                                      # whether a walk falls out of its end
    indirect: List[Tuple[int, int]] = field(default_factory=list)   # its indirect branches

    @property
    def word(self):
        if self.faults or self.unlisted:
            return NOT_JUDGED
        return VIOLATED if self.total else ACCEPTED


class Judge:
    """Judges functions by a program. `exact` has nothing stand in for what the program doesn't take, and `verbose` looks for
    what predicates excuse too."""

    def __init__(self, program, exact=False, verbose=False):
        self.program, self.exact, self.verbose = program, exact, verbose

    def judge(self, functions):
        """The verdicts on functions, in their order."""
        verdicts = [Verdict(function, faults=list(function.faults)) for function in functions]
        pieces = [(verdict, self.whole_piece(verdict)) for verdict in verdicts if not verdict.faults]
        asked = [(verdict, piece) for verdict, piece in pieces if piece is not None]
        for batch in batches(asked, size_of):
            self.ask_all(batch, "check", self.ask, lambda rows, answer: self.take(rows, *answer), self.refused)
        for verdict, piece in asked:
            if verdict.word == VIOLATED or self.verbose and verdict.word == ACCEPTED:
                self.explain(verdict, piece)
        for verdict in verdicts:
            if verdict.word != NOT_JUDGED:
                self.follow(verdict)
        return verdicts

    # ---- What is asked

    def whole_piece(self, verdict):
        """What is asked of a function, or None where it can't be judged."""
        try:
            return self.piece(verdict)
        except stand_ins.NoStandIn as none:
            verdict.faults.append(Why(none.why, f"{none.row.mnemonic} at slot {none.slot}: {none.why}"))
            return None

    def piece(self, verdict):
        """The same, but that a stand-in may not reach its target."""
        function = verdict.function
        bundles = function.bundles
        self.look(verdict, bundles)
        entries = sorted(function.entries)
        if verdict.unlisted:
            known = {*verdict.stood_in, *((slot.bundle, slot.slot) for slot in verdict.unlisted)}
            self.add_unknown(verdict, self.unknown_slots(bytes(function.code), entries, known)[0])
            return None
        if not verdict.stood_in:
            return Piece(function, bytes(function.code), entries)
        verdict.unlooked = list(dict.fromkeys(what for row in verdict.stood_in.values() for what in row.unseen))
        if any(what in MAPPED for what in verdict.unlooked):
            try:
                mapped = self.mapped_piece(function, bundles, entries)
                verdict.unlooked = [what for what in verdict.unlooked if what not in MAPPED]
                return mapped
            except floating_registers.NotMapped as reason:
                guards = floating_registers.floating_guards(bundles)
                if guards:
                    said = "a branch is under a predicate that a floating-point instruction writes, and it can't be looked at"
                    verdict.faults.append(Why(said, f"{said}: {', '.join(guards)}, as {reason}"))
                    return None
                verdict.unlooked = [f"{what} ({reason})" if what in MAPPED else what for what in verdict.unlooked]
        return self.stand_in_piece(function, bundles, entries)

    def look(self, verdict, bundles):
        """Finds what of a function the program doesn't take, and what stands in for it."""
        for index, bundle in enumerate(bundles):
            if not bundle.units:
                verdict.unlisted.append(Unlisted(index, None, f"reserved template {bundle.template:#04x}"))
            for slot, row in stand_ins.rows_of(bundle).items():
                if row.none or self.exact:
                    verdict.unlisted.append(Unlisted(index, slot, row.none or "no stand-in is wanted"))
                else:
                    verdict.stood_in[index, slot] = row

    @staticmethod
    def mapped_piece(function, bundles, entries):
        mapped = floating_registers.on_general_registers(bundles)
        if len(mapped.bundles) >= MOST_BUNDLES:
            raise floating_registers.NotMapped("it would have too many bundles")
        code = b"".join(bundle.packed() for bundle in mapped.bundles)
        return Piece(function, code, [mapped.starts[entry] for entry in entries], mapped.places, mapped)

    @staticmethod
    def stand_in_piece(function, bundles, entries):
        """Each bundle with what stands in for its instructions."""
        code, places = [], {}
        for index, bundle in enumerate(bundles):
            stood = stand_ins.stood_in(bundle)
            code.append(stood.bundle.packed())
            for slot in range(3):
                places[index, slot] = index, stood.slots.get(slot, slot)
        return Piece(function, b"".join(code), entries, places)

    # ---- What is answered

    def ask_all(self, batch, word, ask, take, refused):
        """Takes what the program answers on the pieces of one image. Where it refuses a piece, those before it are asked about
        first, as they may be refused for another reason; it is looked at alone; and of those behind it so many are asked about
        at once as are likely not to be refused."""
        at, size = 0, len(batch)
        while at < len(batch):
            asked = batch[at:at + size]
            answer = ask(asked)
            if not isinstance(answer, Refusal):
                take(asked, answer)
                at, size = at + size, 4 * size
                continue
            number, bundle = owner(asked, answer.bundle)
            if number is None:
                raise self.program.unknown(word, f"{answer}")
            if number:
                size = number
            else:
                refused(*asked[0], answer._replace(bundle=bundle))
                at, size = at + 1, max(1, size // 2)

    def ask(self, batch):
        return self.program.check(image([(piece.code, piece.entries) for _, piece in batch]))

    def take(self, batch, total, broken):
        """Takes what the program answers on pieces. It prints the first hundred violations: where there are more, each half is
        asked about by itself."""
        if total > len(broken) and len(batch) > 1:
            for half in (batch[:len(batch) // 2], batch[len(batch) // 2:]):
                self.take(half, *self.ask(half))
            return
        for row in broken:
            (number, first), (other, second) = (owner(batch, place[0]) for place in (row.first, row.second))
            if number is None or number != other:
                raise self.program.unknown("check", f"{row}")
            verdict, piece = batch[number]
            own = row._replace(first=(first, row.first[1]), second=(second, row.second[1]))
            verdict.broken.append(own)
            violation = piece.told(own)
            if violation not in verdict.violations:
                verdict.violations.append(violation)
                verdict.total += 1
        batch[0][0].total += total - len(broken)

    def explain(self, verdict, piece):
        """Finds the ways that lead to the violations of a function, and what predicates excuse in it."""
        if verdict.total > len(verdict.violations):
            return

        def ask(code):
            return self.program.check(image([(code, piece.entries)]))

        verdict.ways = {piece.told(row): [(piece.place(*place), piece.place(target, 0)[0]) for place, target in found]
                        for row, found in ways.ways(ask, piece.code, verdict.broken).items()}
        if self.verbose:
            verdict.calls = {piece.told(row): [piece.place(*place) for place in places]
                             for row, places in ways.calls(ask, piece.code, verdict.broken).items()}
            verdict.excused = list(dict.fromkeys(map(piece.told, ways.excused(ask, piece.code, verdict.broken))))

    def refused(self, verdict, piece, refusal):
        """Says why the program refuses a piece."""
        unknown, refusal = self.unknown_slots(piece.code, piece.entries, set(), refusal)
        if unknown:
            self.add_unknown(verdict, (piece.place(*place) for place in unknown))
            return
        verdict.faults.append(self.why_refused(piece, refusal))

    @staticmethod
    def why_refused(piece, refusal):
        """Why the program refuses a piece, beside instructions outside the profile."""
        place = piece.place(refusal.bundle, refusal.slot or 0)
        said_place = f"{piece.function.offset(place[0]):+#x}" + (f" slot {place[1]}" if refusal.slot is not None else "")
        if refusal.why == "long run":
            return Why("more than 192 slots without a stop", f"more than 192 slots without a stop, up to {said_place}")
        said = f"the program refuses it, {refusal.why}"
        return Why(said, f"{said}, at {said_place}")

    def unknown_slots(self, code, entries, left_out, refusal=None):
        """The slots of bundles that the program doesn't take, beside those that are left out, as far as they are looked for,
        and what it says of the others: each is found by asking once more with nops in the place of those before it."""
        unknown, count = set(), len(code) // 16
        while True:
            if refusal is None:
                read = without_slots(code, left_out | unknown)
                refusal = self.program.check(image([(read, entries)]))
            most = max(1, min(MOST_UNKNOWN, WORK // count))
            if not isinstance(refusal, Refusal) or refusal.why != "unlisted" or len(unknown) >= most:
                return unknown, refusal
            if refusal.bundle >= count or (refusal.bundle, refusal.slot) in unknown:
                raise self.program.unknown("check", f"{refusal}")
            unknown.add((refusal.bundle, refusal.slot))
            refusal = None

    @staticmethod
    def add_unknown(verdict, places):
        verdict.unlisted = sorted(verdict.unlisted + [Unlisted(*place, UNKNOWN) for place in places],
                                  key=lambda slot: (slot.bundle, slot.slot or 0))

    @staticmethod
    def follow(verdict):
        """Finds which bundles of a function the verdict says nothing of."""
        walks = flow.walks(verdict.function)
        verdict.off_walks = flow.off_walks(verdict.function, walks.walked)
        verdict.falls_out, verdict.indirect = walks.falls_out, walks.indirect

    # ---- Texts

    def list_texts(self, verdicts):
        """Fills in the texts of functions' slots, as the program lists them. Those of instructions that it doesn't take are
        None, and `unread` has their places."""
        short = [verdict for verdict in verdicts if 0 < verdict.function.count < MOST_BUNDLES]
        for batch in batches([(verdict, self.listed_piece(verdict, outside_slots(verdict))) for verdict in short], size_of):
            self.ask_all(batch, "list", self.ask_texts, self.take_texts, self.list_alone)
        for verdict in verdicts:
            if verdict.function.count >= MOST_BUNDLES:
                self.list_in_parts(verdict)

    def list_in_parts(self, verdict):
        """The same of a function that no image has room for, so many bundles at a time. Its branches lead nowhere there: a text
        and what it leads to are told apart."""
        verdict.texts, verdict.unread, outside = [], [], outside_slots(verdict)
        for first in range(0, verdict.function.count, MOST_BUNDLES - 1):
            bundles = list(map(without_targets, verdict.function.bundles[first:first + MOST_BUNDLES - 1]))
            code = bytearray(b"".join(bundle.packed() for bundle in bundles))
            part = Verdict(replace(verdict.function, start=verdict.function.offset(first), bundles=bundles, code=code))
            part.unlisted = [Unlisted(index - first, slot, "") for index, slot in outside if 0 <= index - first < len(bundles)]
            self.list_texts([part])
            verdict.texts += part.texts or [[None] * len(bundle.units) for bundle in bundles]
            verdict.unread += [(first + index, slot) for index, slot in part.unread]

    @staticmethod
    def listed_piece(verdict, unread):
        return Piece(verdict.function, without_slots(bytes(verdict.function.code), unread), [])

    def ask_texts(self, batch):
        return self.program.listing(image([(piece.code, []) for _, piece in batch]))

    @staticmethod
    def take_texts(batch, rows, further=frozenset()):
        """Parts the texts of an image into those of its pieces, each with an end behind it."""
        at = 0
        for verdict, piece in batch:
            unread = outside_slots(verdict) | further
            verdict.unread = sorted((index, slot) for index, slot in unread if slot is not None)
            verdict.texts = [[None if (index, slot) in unread else text for slot, text in enumerate(texts)]
                             for index, texts in enumerate(rows[at:at + piece.count()])]
            at += piece.count() + 1

    def list_alone(self, verdict, piece, refusal):
        """The texts of a function that the program refuses, without the slots that it doesn't take. Where it is refused for
        another reason too, as a long run, they are asked for with a stop behind each bundle."""
        unknown, _ = self.unknown_slots(piece.code, [], set(), refusal)
        alone = self.listed_piece(verdict, outside_slots(verdict) | unknown)
        rows = self.ask_texts([(verdict, alone)])
        if isinstance(rows, Refusal):
            verdict.refusal = self.why_refused(alone, rows)
            alone.code = with_stops(alone.code)
            rows = self.ask_texts([(verdict, alone)])
        if not isinstance(rows, Refusal):
            self.take_texts([(verdict, alone)], rows, unknown)


def size_of(row):
    """How many bundles and declared entries the piece of a verdict has."""
    return row[1].count(), len(row[1].entries)


def outside_slots(verdict):
    """The slots of a function of which it is known that the program doesn't take them."""
    return {*verdict.stood_in, *((slot.bundle, slot.slot) for slot in verdict.unlisted)}


def without_slots(code, places):
    """Bundles with nops in these places; of a reserved template, which is the slot None, one of nops."""
    read = bytearray(code)
    for index, slot in places:
        bundle = split(read[16 * index:16 * index + 16])
        if slot is None:
            bundle = Bundle(0x00, (NOPS["m"], NOPS["i"], NOPS["i"]))
        else:
            bundle = bundle.with_word(slot, NOPS[bundle.units[slot]])
            if bundle.units[slot] == "l":
                bundle = bundle.with_word(2, NOPS["x"])
        read[16 * index:16 * index + 16] = bundle.packed()
    return bytes(read)


def without_targets(bundle):
    """A bundle each of whose direct branches and checks leads to the bundle itself."""
    for slot, _ in branches(bundle):
        bundle = with_branch(bundle, slot, 0)
    return bundle


def with_stops(code):
    """Bundles with a stop behind each, where they have none: the lowest bit of a template is that of the stop."""
    stopped = bytearray(code)
    stopped[::16] = bytes(byte | 1 for byte in stopped[::16])
    return bytes(stopped)


def owner(batch, bundle):
    """The number of the piece that a bundle of the batch's image belongs to, and the bundle's number in it."""
    for number, (_, piece) in enumerate(batch):
        if bundle <= piece.count():
            return number, bundle
        bundle -= piece.count() + 1
    return None, 0
