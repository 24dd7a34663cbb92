"""Whether an address was made of the thread pointer, r13, as far as the slots in front of its use tell it: sums of registers and
numbers, back to where the function begins or a branch always leaves. Of an address that was loaded it isn't told."""

from front.flow import turns_of

THREAD_POINTER = 13
# The registers that a called function leaves as they are: r4 to r7, r12 and r13, and those of the frame.
KEPT = {4, 5, 6, 7, 12, THREAD_POINTER, *range(32, 128)}
# The major opcodes of `addl`, of the other sums, and of loads and stores, and those of compares.
ADDL, SUMS, MEMORY, COMPARES = 9, 8, (4, 5), (12, 13, 14)


def is_of_thread(bundles, first, place, register):
    """Whether the register that a slot uses is the thread pointer or a sum with it, in a function that begins at a bundle."""
    index, slot = place
    wanted = in_front({register}, bundles[index], slot)
    for at in range(index - 1, first - 1, -1):
        turns = turns_of(at, bundles[at])
        if any(not turn.falls and not turn.calls for turn in turns):
            break
        if any(turn.calls for turn in turns):
            wanted &= KEPT
        wanted = in_front(wanted, bundles[at], 3)
    return THREAD_POINTER in wanted


def in_front(wanted, bundle, slot):
    """Of what registers, in front of a bundle, those are made that are wanted at a slot of it: the thread pointer stays one."""
    for unit, word in reversed(list(zip(bundle.units, bundle.words))[:slot]):
        target = word >> 6 & 127
        if THREAD_POINTER not in wanted and target in wanted and is_write(unit, word):
            wanted = wanted - {target} | summands(word)
    return wanted


def is_write(unit, word):
    """Whether an instruction may write a register that stands where most have it: no branch, no compare and no store."""
    opcode = word >> 37
    is_store = unit == "m" and opcode in MEMORY and word >> 30 & 63 >= 0x30
    return unit in ("m", "i", "x") and opcode not in COMPARES and not is_store


def summands(word):
    """The registers that an instruction adds up: none where it is no sum."""
    opcode, form, second, third = word >> 37, word >> 33 & 7, word >> 13 & 127, word >> 20 & 127
    if opcode == ADDL:
        return {third & 3}
    if opcode == SUMS and form == 4:                             # adds
        return {third}
    if opcode == SUMS and form == 0 and word >> 29 & 15 in (0, 4):  # add, and shladd
        return {second, third}
    return set()
