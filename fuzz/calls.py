"""Calls the program, and compares its answers with docs/use/commands.md and with each other. It is imported, and not called."""

import collections
import os
import re
import resource
import subprocess
from typing import NamedTuple, Optional, Tuple

import printed_forms
from printed_forms import (MAGICS, Layout, bundles_of, has_form, head, lifted_image, packed_oddity,
                           relation_lines_oddity, split_packed, takes_image, without_relations, written_image)

INPUT_LIMIT = 16777216
DONE, VIOLATED, REFUSED = 0, 1, 3

# Numbers that commands take: of groups, of bundles, and of 64 bits, as an order and a seed.
NUMBER = re.compile(rb"0|[1-9][0-9]*")
GROUPS, PASSED, TRACED, BUNDLES, WIDE = range(1, 10**7 + 1), range(10**7 + 1), range(1, 101), range(1, 4097), range(2**64)


class Command(NamedTuple):
    """The numbers that a command takes; which of them says how much is run, if one does; and how much processor time a
    call may take beside START, in nanoseconds: for each byte of the input, and for each that this number counts. It is
    much more than random programs need; a check that was made to take long (`bench/inputs.py`) may take more."""
    numbers: Tuple[range, ...]
    size: Optional[int]
    for_a_byte: int
    for_a_number: int


START = 50_000_000
COMMANDS = {
    "build": Command((), None, 4000, 0),
    "stops": Command((), None, 200_000, 0),
    "show": Command((), None, 2000, 0),
    "list": Command((), None, 2000, 0),
    "wrap": Command((), None, 2000, 0),
    "lift": Command((), None, 2000, 0),
    "check": Command((), None, 200_000, 0),
    "run": Command((GROUPS,), 0, 200_000, 20_000),
    "watch": Command((GROUPS,), 0, 200_000, 20_000),
    "trace": Command((PASSED, TRACED), 0, 200_000, 20_000),
    "groups": Command((GROUPS, WIDE), 0, 4000, 250_000),
    "trial": Command((WIDE, BUNDLES), 1, 0, 100_000),
}

Answer = collections.namedtuple("Answer", "status output")


class GivenUp(Exception):
    """A case that can't go on, after a finding."""


def is_command(words):
    command = COMMANDS.get(os.fsdecode(words[0])) if words else None
    if command is None or len(command.numbers) != len(words) - 1:
        return False
    return all(NUMBER.fullmatch(word) and int(word) in numbers for word, numbers in zip(words[1:], command.numbers))


def time_for(words, data):
    """How much processor time the call of a command may take, in nanoseconds."""
    command = COMMANDS[words[0]]
    number = 0 if command.size is None else int(words[1 + command.size])
    return START + command.for_a_byte * len(data) + command.for_a_number * number


def spent():
    """The processor time of all calls that have ended, in seconds."""
    used = resource.getrusage(resource.RUSAGE_CHILDREN)
    return used.ru_utime + used.ru_stime


def run(command, data, options):
    """Runs a command under the limit of memory, which it has from this process: so no copy of it is made."""
    own = resource.getrlimit(resource.RLIMIT_AS)
    resource.setrlimit(resource.RLIMIT_AS, (options.memory << 20 or own[0], own[1]))
    try:
        pipe = subprocess.PIPE
        called = subprocess.Popen(command, stdin=pipe, stdout=pipe, stderr=pipe, close_fds=False)
    finally:
        resource.setrlimit(resource.RLIMIT_AS, own)
    with called:
        try:
            output, error = called.communicate(data, timeout=options.seconds)
        except subprocess.TimeoutExpired:
            called.kill()
            raise
    return subprocess.CompletedProcess(command, called.returncode, output, error)


def violations(checked):
    """How many violations `check` found, and the lines of those that it printed."""
    first, *lines = checked.output.splitlines()
    return (int(first.split()[1]) if checked.status == VIOLATED else 0), set(lines)


def difference(answer, wanted):
    if answer.status != wanted.status:
        return f"status {answer.status} in place of {wanted.status}"
    at = len(os.path.commonprefix((answer.output, wanted.output)))
    return f"{answer.output[at:at + 30]!r} in place of {wanted.output[at:at + 30]!r} from byte {at}"


class Calls:
    """Calls the program in one case, and notes what it finds. `kept` gets the inputs, if they are wanted."""

    def __init__(self, options, groups, order, kept=None):
        self.options, self.groups, self.order, self.kept = options, str(groups), str(order), kept
        self.answers, self.findings, self.seconds, self.slowest = {}, [], 0, (0, "")

    def note(self, words, text):
        self.findings.append(f"{' '.join(word[:40] for word in words)}: {text}")

    def call(self, *words, data=b""):
        """The answer of the program to these words, which is looked at by itself. A call is made once."""
        if (words, data) not in self.answers:
            self.answers[words, data] = self.made_call(words, data)
        return self.answers[words, data]

    def made_call(self, words, data):
        began, shown = spent(), [word if isinstance(word, str) else repr(word)[2:-1] for word in words]
        try:
            done = run([self.options.program, *words], data, self.options)
        except subprocess.TimeoutExpired:
            self.note(shown, f"no end within {self.options.seconds} seconds")
            raise GivenUp from None
        seconds = spent() - began
        self.seconds, self.slowest = self.seconds + seconds, max(self.slowest, (seconds, " ".join(shown)[:60]))
        if self.kept is not None:
            self.kept.append((shown, data, done, seconds))
        self.examine(shown, words, data, done, seconds)
        return Answer(done.returncode, done.stdout)

    def examine(self, shown, words, data, done, seconds):
        """Looks at a call by itself."""
        status, output = done.returncode, done.stdout
        if status < 0:
            self.note(shown, f"signal {-status}")
            raise GivenUp
        if done.stderr:
            self.note(shown, f"{done.stderr[:60]!r} on standard error")
        if not is_command([os.fsencode(word) for word in words]):
            if status != 2 or output:
                self.note(shown, f"no command, status {status}, {output[:30]!r}")
            return
        word = shown[0]
        wanted = [4] if len(data) > INPUT_LIMIT and word != "trial" else [REFUSED, *printed_forms.FORMS[word]]
        if status not in wanted or (word == "trial" and status == REFUSED):
            self.note(shown, f"status {status}, {output[:30]!r}")
            raise GivenUp
        if not has_form(word, status, takes_image(word, data), output):
            self.note(shown, f"status {status} and another form: {output[:60]!r}")
            raise GivenUp
        oddity = self.oddity(shown, status, data, output)
        if oddity:
            self.note(shown, oddity)
        if seconds > time_for(shown, data) * 1e-9 * self.options.slack:
            self.note(shown, f"{seconds:.2f} seconds for {len(data)} bytes")

    def oddity(self, words, status, data, output):
        """What is wrong with an output whose form is right, or nothing."""
        word, is_image = words[0], takes_image(words[0], data)
        if status == REFUSED and is_image:
            return printed_forms.image_refusal_oddity(head(len(data) // 16) + data if word == "wrap" else data, output)
        if status == REFUSED:
            return printed_forms.text_refusal_oddity(data, output)
        if status == VIOLATED:
            return printed_forms.violations_oddity(output, int(words[2]) if word == "trial" else bundles_of(data))
        if word == "stops" and status == DONE:
            return packed_oddity(output)
        if word == "trace" and output:
            return printed_forms.state_oddity(output[output.rfind(b"\nend ") + 1:], bundles_of(data), sum(map(int, words[1:])))
        if word not in ("run", "watch", "groups") or not output:
            is_shown = is_image and word != "wrap" and output
            return printed_forms.head_fault(data) or printed_forms.relation_fault(data) if is_shown else None
        at = output.index(b"end ", output.index(b"taken ", output.index(b"watch 1\n")) if word == "watch" else 0)
        return (printed_forms.state_oddity(output[at:], bundles_of(data), int(words[1]))
                or at and printed_forms.reports_oddity(output[:at], output[at:]))

    def same(self, word, answer, wanted, like):
        if answer != wanted:
            self.note([word], f"{difference(answer, wanted)}, as {like}")

    def verdicts(self, data):
        """The answers of `check`, `run N`, `watch N` and `groups N K`, which are held to each other, and `trace` to them."""
        checked = self.call("check", data=data)
        ran, watched = (self.call(word, self.groups, data=data) for word in ("run", "watch"))
        at_once = self.call("groups", self.groups, self.order, data=data)
        traced = self.call("trace", str(int(self.groups) - 1), "1", data=data)
        if checked.status != DONE:
            self.same("run", ran, checked, "check says")
            self.same("watch", watched, checked, "check says")
            self.same("trace", traced, checked, "check says")
        elif ran.status in (VIOLATED, REFUSED):
            self.note(["run", self.groups], f"status {ran.status} where check accepts")
        elif watched.status != ran.status or not watched.output.endswith(b"\n" + ran.output):
            self.note(["watch", self.groups], "another state or status than that of run")
        elif traced.status != ran.status or not (b"\n" + traced.output).endswith(b"\n" + ran.output):
            self.note(["trace", str(int(self.groups) - 1), "1"], "another last state or status than that of run")
        if checked.status != VIOLATED:
            self.same("groups", at_once, ran, "run says")
        return checked, ran, watched, at_once

    def all_same(self, answers, wanted, like):
        for word, answer, other in zip(("check", "run", "watch", "groups"), answers, wanted):
            self.same(word, answer, other, like)

    def text(self, data):
        """Holds the answers on a text to each other. Its image, or None."""
        built, answers = self.call("build", data=data), self.verdicts(data)
        if built.status == DONE:
            self.image(built.output, None if data.startswith(MAGICS) else answers)
            return built.output
        if not data.startswith(MAGICS):
            self.all_same(answers, [built] * len(answers), "build says")
        return None

    def loose(self, data):
        """Holds the answers on what `stops` prints of a loose text to it. Whether it is packed."""
        packed = self.call("stops", data=data)
        if packed.status != DONE:
            return False
        built, checked = (self.call(word, data=packed.output) for word in ("build", "check"))
        if built.status != DONE:
            self.note(["build"], f"what stops printed is refused: {built.output!r}")
            return True
        self.same("check", checked, Answer(DONE, b"accepted\n"), "stops promises")
        text = Answer(DONE, split_packed(packed.output)[0])
        self.same("show", self.call("show", data=built.output), text, "stops printed")
        return True

    def image(self, data, like=None):
        """Holds the answers on an image, or on what may be one, to each other and to those on its text."""
        shown, listed, lifted = (self.call(word, data=data) for word in ("show", "list", "lift"))
        answers = self.verdicts(data)
        if like is not None:
            self.all_same(answers, like, "of the text")
        if shown.status == DONE:
            self.same("lift", lifted, Answer(DONE, lifted_image(data)), "the image that was shown")
            return self.shown(data, shown.output, listed, answers)
        self.same("list", listed, shown, "show says")
        self.same("lift", lifted, shown, "show says")
        if data.startswith(MAGICS):
            self.all_same(answers, [shown] * len(answers), "show says")
        if shown.output.startswith(b"image: relation"):
            if self.call("show", data=without_relations(data)).status != DONE:
                self.note(["show"], "a relation is refused before another fault")
        return None

    def shown(self, image, text, listed, answers):
        """Holds an image to its canonical text, its listing and its bundles."""
        built = Answer(DONE, written_image(image))
        self.same("build", self.call("build", data=text), built, "the image that was shown")
        self.all_same(self.verdicts(text), answers, "of the image")
        if Layout(image).relations:
            self.related(answers, self.verdicts(without_relations(image)))
        oddity = relation_lines_oddity(image, text)
        if oddity:
            self.note(["show"], oddity)
        code = Layout(image).code_of(image)
        wanted = [f"{n} {code[16 * n:16 * n + 16].hex()}" for n in range(len(code) // 16)]
        if re.findall(r"^\S+ \S+", listed.output.decode(), re.M) != wanted:
            self.note(["list"], "other numbers or bytes than those of the image")
        if re.findall(rb"^  .*", listed.output, re.M) != re.findall(rb"^  .*", text, re.M):
            self.note(["list"], "other slots than those of show")
        self.wrap(code)

    def related(self, answers, others):
        """Holds the answers on an image with relations to those without them: each of its violations is one there
        too, and its run is the same, unless it ends with BadRelation."""
        (count, found), (most, known) = violations(answers[0]), violations(others[0])
        if count > most or (len(known) == most and found - known):
            self.note(["check"], "violations that are none without the relations")
        if most:
            return
        self.same("check", answers[0], others[0], "without the relations")
        for word, answer, other in zip(("run", "watch", "groups"), answers[1:], others[1:]):
            if b"end fault BadRelation " not in answer.output:
                self.same(word, answer, other, "without the relations")

    def wrap(self, data):
        """Holds `wrap` of these bytes to the image that it makes. The image, or None."""
        image, wrapped = head(len(data) // 16) + data, self.call("wrap", data=data)
        if len(image) > INPUT_LIMIT:
            return None
        shown = self.call("show", data=image)
        self.same("wrap", wrapped, shown if shown.status == REFUSED else Answer(DONE, image), "show of the image says")
        return image if wrapped.status == DONE else None
