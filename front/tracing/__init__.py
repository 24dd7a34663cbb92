"""`ia64 trace FILE [N]`: a run, group by group, with what each group changed.

- `steps`: the groups of a run, as `ia64 trace FIRST COUNT` of the proved program prints them, read.
- `changes`: in what the state behind a group differs from that before it.
- `watching`: the same of some names alone.
- `code`: the places of a program by their labels, lines and texts.
- `lines`: what is printed; `document`: the same as JSON.
- `command`: the words, and the call as a whole.

The states, the places and how each group ends are the proved program's. What is told of them is not proved: the names, in what
two states differ, which predicates of slots are 0, and the texts and the lines of the slots.
"""
