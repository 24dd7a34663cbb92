"""`ia64 orders FILE [GROUP]`: which states the orders of a group's writes leave, and in what they differ.

- `answers`: the program's answer on an input.
- `states`: printed states, and in what several differ.
- `writes`, `order_words`: the writes of a group by their slots, and orders in numbers and in words.
- `split`: a text whose slots are groups of their own; `slot_by_slot`: the state slot by slot, which stands beside the others.
- `one_group`: the orders of one group of a run; `orders`: those of all groups.
- `lines`: what is printed of either.
"""
