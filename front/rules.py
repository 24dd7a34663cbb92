"""The rules of groups, in words."""

from typing import NamedTuple


class Rule(NamedTuple):
    """What breaks a rule; and what is said of two slots that do, the first and the second one in their group: of those of a
    function, which tell their offsets, and of those of a text, which are told by lines of their own."""
    meaning: str
    of_function: str
    of_text: str


RULES = {
    "RAW": Rule("an instruction reads what an earlier one of its group writes", "written by {0} and read by {1}",
                "{1} reads what {0} writes in the same group"),
    "WAW": Rule("two instructions of a group write the same resource", "written by {0} and by {1}",
                "{1} writes what {0} writes in the same group"),
    "WAR63": Rule("a loop branch writes p63, which an earlier instruction of its group reads", "read by {0} and written by {1}",
                  "{1} writes what {0} reads in the same group"),
    "ALLOC": Rule("an alloc isn't the first instruction of its group",
                  *2 * ("{1} has to be the first of its group, and {0} stands before it",)),
    "CLEAR": Rule("a clrrrb isn't the last instruction of its group",
                  *2 * ("{0} has to be the last of its group, and {1} stands behind it",)),
}
