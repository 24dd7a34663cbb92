"""A function by itself, out of the rest of its file: its direct branches that leave it, and the ways into its middle."""

from front.bundle import branches, with_branch, without_breaks
from front.faults import Why
from front.flow import is_padding, turns_of
from front.functions import MOST_ENTRIES, Functions

# How a file tells the targets of an indirect branch.
TABLES = ("relocation", "value")


def isolate(file, functions, syscalls=False):
    """Turns the branches that leave a function to its end bundle (`image`), and declares as an entry each bundle,
    but for the first, that may be reached in another way than by the function's own branches:

    - a relocation in code or data that isn't of a branch points to it, as those of a jump table do;
    - in a linked file, an aligned word of data is its address, or, in data that are only read, its address from the word
      on;
    - a direct branch of another function goes there, of one that isn't judged too;
    - a function symbol or a global label stands there, or the entry point of a linked file;
    - in code that no symbol covers, the bundle before it ends there.

    A word that is an address by chance makes an entry too many. At an entry nothing is known of predicates, so that
    errs on the strict side.
    """
    known = Functions(functions)
    relocations = list(file.relocations())
    linking = {} if file.linked else {relocation.at: relocation for relocation in relocations if relocation.is_branch}
    ways = [(location, "branch from outside") for function in functions
            for location in settle_branches(file, function, linking, known)]
    ways += relocated_ways(relocations, known)
    ways += [(location, "value") for location in file.pointed()]
    ways += [(symbol.location, f"global label {symbol.name}") for symbol in file.symbols()
             if not symbol.is_function and symbol.rank != symbol.rank.LOCAL]
    ways += [(file.entry(), "entry point")]
    for location, why in ways:
        declare(known.at(location), location, why)
    for function in functions:
        if not function.names:
            go_on_behind_ends(function)
        if syscalls:
            go_on_behind_breaks(function)
        if len(function.entries) > MOST_ENTRIES:
            function.faults.append(Why("too many declared entries",
                                       f"{len(function.entries)} declared entries, and it may have {MOST_ENTRIES}"))


def go_on_behind_ends(function):
    """Code that no symbol covers may be several functions, of which each but the first begins behind a slot that a walk doesn't
    fall out of, and behind what pads code up to an alignment there. So the next bundle that doesn't pad is an entry, which errs
    on the strict side."""
    is_behind_end = False
    for index, bundle in enumerate(function.bundles):
        if is_behind_end and not is_padding(bundle):
            function.entries.setdefault(index, "behind an end")
            is_behind_end = False
        is_behind_end = is_behind_end or any(not turn.falls for turn in turns_of(index, bundle))


def go_on_behind_breaks(function):
    """Takes each `break` for a system call, which comes back to the slot after it: it becomes a `nop`, behind which the
    walk goes on, with its predicate. The bundle after it is an entry too, since nothing is known after the call."""
    for index, bundle in enumerate(function.bundles):
        called = without_breaks(bundle)
        if called != bundle:
            function.replace(index, called)
            if index + 1 < function.count:
                function.entries.setdefault(index + 1, "system call")


def declare(function, location, why):
    if function and location[1] > function.start:
        if (location[1] - function.start) % 16 == 0:
            function.entries.setdefault((location[1] - function.start) // 16, why)
        elif why == "relocation":
            function.has_odd_relocation = True


def settle_branches(file, function, relocations, known):
    """Gives each direct branch and check of a function the displacement that the linker would: that of its target
    where this is in the function, else that of the end bundle. Answers the targets outside."""
    leaving, section = [], function.section.index
    for index, given in enumerate(function.bundles):
        bundle = given
        for slot, bundles in branches(given):
            relocation = relocated(relocations, section, function.offset(index), slot, bundle)
            location = relocation.to if relocation else moved(file, section, function.offset(index) + 16 * bundles)
            inside = location and location[0] == section and function.start <= location[1] < function.end
            if not inside:
                function.outside[index, slot] = known.name(location) or relocation and relocation.name or "outside"
                leaving += [location] * bool(location)
            to = (location[1] - function.start) // 16 if inside else function.count
            bundle = with_branch(bundle, slot, to - index)
        if bundle != given:
            function.replace(index, bundle)
    return leaving


def relocated(relocations, section, offset, slot, bundle):
    """The relocation of a branch, or None. That of a long one stands at either of its two slots."""
    found = relocations.get((section, offset + slot))
    return found or (relocations.get((section, offset + 2)) if bundle.units[slot] == "l" else None)


def moved(file, section, offset):
    """An offset in a section, or in the section of a linked file that has the address."""
    if file.linked and not 0 <= offset < file.sections[section].size:
        return file.addresses.location(file.sections[section].address + offset)
    return section, offset


def relocated_ways(relocations, known):
    """Where relocations point to, but for those of a function's branches within it."""
    for relocation in relocations:
        if not relocation.is_branch:
            yield relocation.to, "relocation"
        elif known.at(relocation.at) is not known.at(relocation.to):
            yield relocation.to, "branch from outside"
