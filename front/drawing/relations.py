"""Relations of predicates, put into few words."""

from typing import List, Tuple


def cliques(pairs) -> List[Tuple[str, ...]]:
    """Lists of predicates of which no two are both 1, so that each pair is in one. Pairs are of two numbers, the lower first."""
    left, found = sorted(set(pairs)), []
    known = set(left)
    while left:
        clique = list(left[0])
        for number in sorted({number for pair in known for number in pair}):
            if number not in clique and all((min(number, other), max(number, other)) in known for other in clique):
                clique.append(number)
        clique.sort()
        found.append(tuple(f"p{number}" for number in clique))
        members = set(clique)
        left = [pair for pair in left if not members.issuperset(pair)]
    return found


def excuse(first, second, resource):
    """What is known of predicates where they excuse two slots, given by their accesses: it rests on their qualifying
    predicates, of which one that an access doesn't depend on doesn't count."""
    guards = list(dict.fromkeys(accesses.guard for accesses in (first, second)
                                if accesses and accesses.guard and resource not in accesses.unguarded))
    if len(guards) == 2:
        return f"{guards[0]} and {guards[1]} are never both 1"
    return f"{guards[0]} is 0 there" if guards else "excused by predicates"
