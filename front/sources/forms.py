"""The assembler's forms of instructions as the program's own."""

from front.sources.instructions import BELOW_UNSIGNED, COMPARE, MIRRORED, NEGATED, NEGATED_KINDS, ONE_TARGET
from front.sources.operands import FIRST_FOUR, GENERAL, LINKED, REGISTERS, SPELLED, is_branch_register


def rewritten(reader, made, left, right):
    """Gives an instruction the operands that the program reads, where the assembler's forms are others."""
    mnemonic = made.mnemonic
    if ONE_TARGET.match(mnemonic):
        left = left + ["p0"] if len(left) == 1 else left
        left, right = compared(reader, made, left, right)
    elif mnemonic == "alloc":
        right = right if len(right) == 5 else ["ar.pfs"] + right
    elif made.kind == "move":
        moved(reader, made, left, right)
    elif mnemonic == "add" and len(right) == 2 and right[1] in FIRST_FOUR and not GENERAL.fullmatch(right[0]):
        made.mnemonic = "addl"
    elif mnemonic.split(".")[0] in ("nop", "break", "hint"):
        made.number = number_in(reader, right)
    if LINKED in right and (mnemonic == "alloc" or "pr" in left or "pr.rot" in left):
        reader.fail("a number that the linker puts in")
    right = [settled_number(made, "0" if operand == LINKED else operand) for operand in right]
    made.operands = f"{', '.join(left)}{' = ' * bool(left)}{', '.join(right + [''] * bool(made.target))}"


def number_in(reader, right):
    """The number of a `nop`, a `break` or a `hint`."""
    if not right:
        return 0
    if len(right) > 1 or not SPELLED.fullmatch(right[0]):
        reader.fail("an operand that isn't known here")
    return int(right[0], 0)


def settled_number(made, operand):
    """A number of 64 bits as the negative one that the assembler takes it for, where only a small one may stand."""
    if made.kind != "x" and SPELLED.fullmatch(operand) and int(operand, 0) >= 1 << 63:
        return str(int(operand, 0) - (1 << 64))
    return operand


def compared(reader, made, left, right):
    """The operands of a compare or a test. The kinds `andcm`, `orcm` and `and.orcm` are others with the negated relation, r0
    comes first, and what is at most a number without a sign is below the next one."""
    found = COMPARE.fullmatch(made.mnemonic)
    if found and len(left) == len(right) == 2:
        word, relation, kind = found.groups()
        if kind in NEGATED_KINDS:
            relation = NEGATED[relation]
            left = left[::-1] if kind == "and.orcm" else left
            kind = NEGATED_KINDS[kind]
        if right[1] == "r0" and right[0] != "r0" and relation not in ("eq", "ne"):
            relation, right = MIRRORED[relation], right[::-1]
        made.mnemonic = f"{word}.{relation}.{kind}"
    found = BELOW_UNSIGNED.fullmatch(made.mnemonic)
    if found and right and SPELLED.fullmatch(right[0]):
        number = int(settled_number(made, right[0]), 0)
        if number == 0:
            reader.fail("no number is below 0 without a sign")
        made.mnemonic = f"{found[1]}.ltu{found[3] or ''}"
        left, right = left[::-1] if found[2] == "gtu" else left, [str(number - 1)] + right[1:]
    return left, right


def moved(reader, made, left, right):
    """The unit of a move, by what is moved, and its letter where the program wants it."""
    if len(left) != 1 or not right:
        reader.fail("an operand is missing")
    both = (left[0], right[0])
    if made.mnemonic in ("mov.i", "mov.m"):
        made.kind = made.mnemonic[-1]
    elif "ar.unat" in both:
        made.kind = "m"
    elif any(name in ("pr", "pr.rot", "ip") or name.startswith("ar.") or is_branch_register(name) for name in both):
        made.kind = "i"
    else:
        made.kind = "a"
    if made.mnemonic == "mov" and left[0].startswith("ar.") and right[0] not in REGISTERS:
        made.mnemonic = f"mov.{made.kind}"
