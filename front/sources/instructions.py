"""The mnemonics of the profile, with what the assembler takes for one of them, and what stands in a section of code."""

import re
from dataclasses import dataclass, field
from functools import lru_cache
from typing import List, Optional, Tuple

RELATIONS, UNSIGNED = "eq|ne|lt|le|gt|ge", "ltu|leu|gtu|geu"
HINTS, BRANCH = r"(?:\.(?:nt1|nta))?", r"(?:\.(?:sptk|spnt|dptk|dpnt))?(?:\.(?:few|many))?(?:\.clr)?"

# The instructions of the profile, with what the assembler takes for one of them, by the kind of their slot.
KINDS = {
    "a": rf"adds?|addl|addp4|sub|and|andcm|or|xor|shladd|shladdp4|cmp4?\.(?:{RELATIONS}|{UNSIGNED})(?:\.unc)?"
         rf"|cmp4?\.(?:{RELATIONS})\.(?:and|or|andcm|orcm|or\.andcm|and\.orcm)|padd[124]|psub[124]|pcmp[124]\.(?:eq|gt)",
    "i": r"shr(?:\.u)?|shl|popcnt|shrp|extr(?:\.u)?|dep(?:\.z)?|(?:tbit|tnat)\.n?z(?:\.unc)?|[sz]xt[124]|chk\.s\.i"
         r"|(?:nop|break|hint)\.i",
    "m": rf"ld[1248](?:\.(?:s|a|sa|bias|acq|c\.clr|c\.nc|c\.clr\.acq))?{HINTS}|ld8\.fill{HINTS}|ld8\.mov"
         rf"|st[1248](?:\.rel)?(?:\.nta)?|st8\.spill(?:\.nta)?|xchg[1248]{HINTS}|fetchadd[48]\.(?:acq|rel){HINTS}"
         r"|chk\.s\.m|chk\.a\.(?:nc|clr)|invala(?:\.e)?|mf|alloc|(?:nop|break|hint)\.m",
    "b": rf"br(?:\.(?:cond|call|ret))?{BRANCH}|clrrrb(?:\.pr)?|(?:nop|break|hint)\.b",
    "loop": rf"br\.(?:cloop|ctop|cexit|wtop|wexit){BRANCH}",
    "f": r"(?:nop|break)\.f",
    "x": r"movl|(?:nop|break)\.x",
    "any": r"nop|break|hint",
    "check": r"chk\.s",
    "move": r"mov(?:\.[im]|(?:\.ret)?(?:\.(?:sptk|dptk))?(?:\.imp)?)",
}
KIND = re.compile("|".join(f"(?P<{kind}>{mnemonics})" for kind, mnemonics in KINDS.items()))

# The units in whose slots a kind stands, and templates, in the order of their codes, by their units. A long instruction
# stands in the slot of unit L, and that of unit X is its second half.
STANDS = {"a": "mi", "i": "i", "m": "m", "b": "b", "loop": "b", "f": "f", "x": "l", "any": "mifblx", "check": "mi"}
UNITS = ("mii", "mlx", "mmi", "mfi", "mmf", "mib", "mbb", "bbb", "mmb", "mfb")
TEMPLATES = {**{units: units for units in UNITS}, "mli": "mlx"}

COMPARE = re.compile(rf"(?P<word>cmp4?)\.(?P<relation>{RELATIONS})\.(?P<kind>and|or|andcm|orcm|or\.andcm|and\.orcm)")
NEGATED = {"eq": "ne", "ne": "eq", "lt": "ge", "ge": "lt", "le": "gt", "gt": "le"}
MIRRORED = {"eq": "eq", "ne": "ne", "lt": "gt", "gt": "lt", "le": "ge", "ge": "le"}
NEGATED_KINDS = {"andcm": "and", "orcm": "or", "and.orcm": "or.andcm"}
TARGETED, OUTSIDE_TARGETED = re.compile(r"(?:br|chk)(?:\.|$)"), re.compile(r"(?:brl|f?chkf?)(?:\.|$)")
# What the assembler puts into the last slot, before what it ends a group, and behind what.
IN_LAST_SLOT = FOLLOWED = re.compile(r"clrrrb(?:\.pr)?|cover|bsw\.[01]|rfi")
PRECEDED = ("alloc", "flushrs", "loadrs")
ONE_TARGET = re.compile(r"(?:cmp4?|tbit|tnat)\.")
BELOW_UNSIGNED = re.compile(r"(cmp4?)\.(leu|gtu)(\.unc)?")


@lru_cache(maxsize=4096)
def kind_of(mnemonic):
    found = KIND.fullmatch(mnemonic) if len(mnemonic) < 40 else None
    return found.lastgroup if found else None


@dataclass
class Instruction:
    """An instruction: what it says, and what is said of its place."""
    line: int
    kind: str
    mnemonic: str
    operands: str                      # as they are printed, but for what follows in the next two
    target: Optional[str] = None       # the name of a branch's or a check's target, which stands behind them
    tag: Optional[str] = None          # that of a move to a branch register
    number: Optional[int] = None       # of a `nop`, a `break` or a `hint`
    guard: str = ""
    stops: bool = False                # a stop stands behind it
    template: Optional[Tuple[str, int]] = None    # that a selector in front of it names, and the selector's line
    opens: bool = False                # `{` stands in front of it
    closed: int = 0                    # the line of the `}` behind it, or 0
    ends: bool = False                 # the next one is in another bundle in any case
    labels: List[Tuple[str, int]] = field(default_factory=list)          # in front of it: names and lines
    word: Optional[int] = None         # of one outside the profile, in whose place the text has a `nop`
    text: str = ""                     # how that is printed


@dataclass
class Alignment:
    """A directive of alignment in code."""
    line: int
    size: int
    most: int                          # bytes; where more were wanted there are none
    is_plain: bool                     # the fill of `.align` gets stops before an `alloc`
    labels: List[Tuple[str, int]] = field(default_factory=list)          # in front of its fill
