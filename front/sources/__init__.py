"""Sources for the GNU assembler, read without it: as the code that it makes of them.

The instructions of the source stand in the bundles and with the stops that the assembler gives them with `-xexplicit`: each goes
into the next slot of its bundle that is of its unit, and a `nop` into those that are left. The assembler ends a group of itself
before an `alloc`, behind a `clrrrb`, where a section, a function or a directive of alignment ends or begins, and at `.ident` and
`.stabs`, and so is it here. `.handlerdata` ends a bundle alone. What pads code up to an alignment is there too. The bytes of the
bundles are those that the proved program makes of a text (`text`), and what stands around them is as an object file has it
(`code`):

- Each section that holds code is one. Data are left out, and what is said of unwinding, of debugging and of the linker's symbols.
- A number that the linker puts in is 0. A check looks at no number of an instruction that can be one.
- Functions are told by `.proc`, up to its `.endp`, and by `.type`; `.size` says how long one is, and `.symver` names it too.
- Global labels, what `.entry` names, and each label that is named elsewhere than as the target of a branch or a check, in code,
  or in data that are loaded and are none of tables for unwinding and exceptions, are ways into the code. Where a number is added
  to a label the way is there, and of a difference of two it is at the first one. An object file doesn't tell that of all
  differences, and where it has a number for one it tells none.
- What is loaded is told by a section's flags, and by names that the assembler knows.
- Relations (`.pred.rel`) are left out, as the assembler leaves them out of an object file.
- An instruction outside the profile is that of a row of the table of stand-ins (`outside_profile`), by its mnemonic and its operands.

`Unread` says of the other sources what can't be read. Those are sources with system registers and what else no row has by its
name and operands, code that the assembler packs by itself, macros, conditions, other expressions with labels of code, and
whatever isn't known here.
"""

from front.faults import Unread
from front.sources.code import SourceCode
from front.sources.reader import Reader
from front.sources.statements import statements
from front.sources.text import Program

__all__ = ["Program", "SourceCode", "Unread", "read"]


def read(data: bytes) -> Program:
    """The program that a source says, or `Unread`."""
    reader = Reader()
    text = data.decode("latin-1").replace("\r\n", "\n")
    for line, said in statements(text):
        reader.take(line, said)
    reader.flush("")
    return Program(reader)
