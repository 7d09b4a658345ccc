"""Triplets under the outgroup, tip 0.

The labels below a node are the bits of a number. Three labels are looked up by lowest common ancestors, as
docs/SPECIFICATION.md, 'Triplets', defines them; pair by pair for any number of tips, and up to 16 tips also set by set.
"""
import itertools
from functools import cache
from math import comb

from cases.lines import ENUMERATED
from cases.tables import X, Table

Labels = int


class Rooted:
    """A tree with its root at node 1: the labels below each node, and the nodes from each label up to the root."""

    def __init__(self, t: Table) -> None:
        self.n, m = t[0], t[1]
        self.below: list[Labels] = [0 if label == X else 1 << label for label in t[2 + m:]]
        for v in range(m - 1, 1, -1):
            self.below[t[2 + v]] |= self.below[v]
        self.up: dict[int, list[int]] = {}
        for v in range(1, m):
            if t[2 + m + v] != X:
                way = [v]
                while way[-1] != 1:
                    way.append(t[2 + way[-1]])
                self.up[t[2 + m + v]] = way

    def lowest(self, a: int, b: int) -> tuple[Labels, Labels]:
        """The labels below the lowest common ancestor of a and b, and those below its child that holds a."""
        inside = 0
        for v in self.up[a]:
            if self.below[v] >> b & 1:
                return self.below[v], inside
            inside = self.below[v]
        raise AssertionError((a, b))

    def apart(self, three: tuple[int, int, int]) -> int | None:
        """The label that the other two are resolved against; None for an unresolved triplet."""
        found = [c for c in three if not self.lowest(*(x for x in three if x != c))[0] >> c & 1]
        assert len(found) <= 1
        return found[0] if found else None


@cache
def rooted_of(words: tuple[int, ...]) -> Rooted:
    return Rooted(list(words))


def cases_by_threes(t: Table, u: Table) -> list[int]:
    first, second, counts = rooted_of(tuple(t)), rooted_of(tuple(u)), [0] * 5
    for three in itertools.combinations(range(1, t[0]), 3):
        one, other = first.apart(three), second.apart(three)
        if one is None:
            counts[4 if other is None else 3] += 1
        elif other is None:
            counts[2] += 1
        else:
            counts[0 if one == other else 1] += 1
    return counts


def cases_by_pairs(t: Table, u: Table) -> list[int]:
    """Of two labels a and b the labels that are not below their lowest common ancestor are resolved against them. In the
    other tree a is with such a label, and b apart, if that label is in the child that holds a."""
    first, second, n = rooted_of(tuple(t)), rooted_of(tuple(u)), t[0]
    every = (1 << n) - 2
    alike = apart = in_first = in_second = 0
    for a, b in itertools.permutations(range(1, n), 2):
        below, _ = first.lowest(a, b)
        other, inside = second.lowest(a, b)
        alike += (every & ~below & ~other).bit_count()
        in_first += (every & ~below).bit_count()
        in_second += (every & ~other).bit_count()
        apart += (every & ~below & inside).bit_count()
    assert alike % 2 == in_first % 2 == in_second % 2 == 0
    a, b = alike // 2, apart
    c, d = in_first // 2 - a - b, in_second // 2 - a - b
    return [a, b, c, d, comb(n - 1, 3) - a - b - c - d]


def triplet_table(t: Table, u: Table) -> list[int]:
    cases = cases_by_pairs(t, u)
    assert t[0] > ENUMERATED or cases == cases_by_threes(t, u), (t, u)
    return cases + [sum(cases[1:4])]
