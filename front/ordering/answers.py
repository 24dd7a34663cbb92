"""What the proved program prints of inputs, and what stands in the place of an answer."""

from front.faults import Fault, ProgramFault
from front.files import TOO_LONG_SAID
from front.refusals import RefusedInput

DONE, VIOLATED, WORDS, REFUSED, TOO_LONG, LIMIT, FAULTED = 0, 1, 2, 3, 4, 8, 9


class Answers:
    """The answers of the program. Those in text are kept, so that no process is started twice for one, and each text once."""

    def __init__(self, program):
        self.program, self.kept, self.texts = program, {}, {}

    def raw(self, words, data):
        """The status of the program on these words and this input, and what it prints, as bytes."""
        status, printed = self.program.raw(words, data)
        if status in (DONE, VIOLATED, LIMIT, FAULTED):
            return status, printed
        if status == REFUSED:
            raise RefusedInput(printed.decode(errors="backslashreplace"), data)
        if status == TOO_LONG:
            raise Fault(TOO_LONG_SAID)
        if status == WORDS:
            raise ProgramFault(f"{self.program.path} has no command {words[0]}")
        raise ProgramFault(f"{words[0]} ends with status {status}")

    def of(self, words, data):
        """The same: a verdict, a state or a listing, as text."""
        asked = (*words, data)
        if asked not in self.kept:
            status, printed = self.raw(words, data)
            text = printed.decode(errors="backslashreplace")
            self.kept[asked] = status, self.texts.setdefault(text, text)
        return self.kept[asked]
