"""Cases of two tables: each label climbs from its tip to node 0 in both trees, every edge of the one climb meets every edge
of the other, and a split is a set of two sets of labels."""
import itertools
import random
from collections.abc import Iterator

from cases.lines import MOST_PRINTED, Case, Kind, bad, lent_cells, line
from cases.shapes import random_pair, random_table, randomly_chained, renumbered, star
from cases.tables import (LABEL_TROUBLE, NUMBERS, OUTSIDE, PASS_THROUGH, P, Q, R, REFERENCE, THREE, TWO, W, X, Table, damaged,
                          tree_refusal)

# docs/SPECIFICATION.md, 'The figures K1 to K9': the last column.
SPLITS = [(P, Q, [2, 1, 1, 1]), (P, R, [2, 2, 1, 2]), (Q, R, [1, 2, 0, 3]), (P, P, [2, 2, 2, 0]), (W, W, [0, 0, 0, 0]),
          (P, W, [2, 0, 0, 2]), (W, P, [0, 2, 0, 2]), (TWO, TWO, [0, 0, 0, 0]), (THREE, THREE, [0, 0, 0, 0])]

# Two tables, of which either or both are refused.
REFUSED = list(itertools.product([[], P[:-1], P[:2] + [1] + P[3:]], repeat=2))

# The numbers of a pair.
PAIR_NUMBERS = {*NUMBERS, *(100 + number for number in NUMBERS), 8, 9}


def needed(t: Table, u: Table) -> int:
    """The cells that a call on two tables needs."""
    return (t[1] - 1) * (u[1] - 1)


def pair_refusal(t: Table, u: Table, cells: int) -> int:
    number = tree_refusal(t)
    if number:
        return number
    number = tree_refusal(u)
    if number:
        return 100 + number
    if t[0] != u[0]:
        return 8
    return 9 if cells < needed(t, u) else 0


def climb(t: Table, label: int) -> list[int]:
    """The edges between a label's tip and node 0: those that the label lies beyond."""
    m = t[1]
    node, edges = t[2 + m:].index(label), []
    while node:
        edges.append(node)
        node = t[2 + node]
    return edges


def cells_after(t: Table, u: Table, cells: int) -> list[int]:
    """The cells after a call, refused or not."""
    after = lent_cells(cells)
    if pair_refusal(t, u, cells) == 0:
        after[:needed(t, u)] = [0] * needed(t, u)
        for label in range(t[0]):
            for i, j in itertools.product(climb(t, label), climb(u, label)):
                after[(i - 1) * (u[1] - 1) + (j - 1)] += 1
    return after


def splits_of(t: Table) -> set[frozenset[frozenset[int]]]:
    """The splits, each a set of two tip sets: edges that part the tips alike have one split."""
    tips, found = frozenset(range(t[0])), set()
    climbs = [climb(t, label) for label in range(t[0])]
    for edge in range(1, t[1]):
        beyond = frozenset(label for label in tips if edge in climbs[label])
        if len(beyond) >= 2 and len(tips - beyond) >= 2:
            found.add(frozenset([beyond, tips - beyond]))
    return found


def split_counts(t: Table, u: Table) -> list[int]:
    first, second = splits_of(t), splits_of(u)
    return [len(first), len(second), len(first & second), len(first ^ second)]


# ---- one case

def crossings(t: Table, u: Table, cells: int) -> Case:
    return Case(line(Kind.CROSSINGS, t, u, cells), ["crossings", pair_refusal(t, u, cells), *cells_after(t, u, cells)])


def splits(t: Table, u: Table, cells: int) -> Case:
    number = pair_refusal(t, u, cells)
    counts = [0, 0, 0, 0] if number else split_counts(t, u)
    return Case(line(Kind.SPLITS, t, u, cells), ["splits", number, *counts, *cells_after(t, u, cells)])


def both(t: Table, u: Table, cells: int) -> list[Case]:
    return [crossings(t, u, cells), splits(t, u, cells)]


def one_slice(t: Table, cells: int) -> Case:
    numbers = line(Kind.CROSSINGS_OF_ONE, [], t, cells)
    return Case(numbers, ["crossings", pair_refusal(t, t, cells), *cells_after(t, t, cells)])


# ---- the cases

def reference_cases() -> Iterator[Case]:
    # every pair of the reference tables, those of different n among them (8), with one cell more than needed
    for t, u in itertools.product(REFERENCE, repeat=2):
        yield from both(t, u, needed(t, u) + 1)
    # around the number of cells: 41 give 9, 42 pass; and no cells at all
    assert needed(P, Q) == needed(Q, P) == 42
    for cells in (0, 1, 41, 42, 43):
        yield from both(P, Q, cells)
        yield from both(Q, P, cells)
    for t in (W, TWO, THREE):
        yield from both(t, t, needed(t, t) - 1)
        yield from both(t, t, needed(t, t))


def one_slice_cases() -> Iterator[Case]:
    for t in REFERENCE:
        yield from (one_slice(t, needed(t, t) + more) for more in (-1, 0, 1))
    yield from (one_slice(t, needed(t, t) + 1) for t in OUTSIDE)


def refused_cases(rng: random.Random) -> Iterator[Case]:
    # the first table's number, the second's plus 100, and the first's where both are refused
    for t in damaged(P):
        yield from both(t, W, 36)
        yield from both(W, t, 36)
        yield one_slice(t, 2)
    for t, u in REFUSED:
        yield from both(t, u, 3)
    for t, number in LABEL_TROUBLE:
        for cases, expected in ((both(t, W, 3), number), (both(W, t, 3), 100 + number)):
            assert all(case.answer[1] == expected for case in cases), t
            yield from cases
    # the order of 8 and 9, of a refused second table and 9, and the same n with tables of different lengths
    yield from both(P, THREE, 0)
    yield from both(P, P[:-1], 0)
    yield from both(star(9), random_table(rng, 9), 200)


def outside_cases() -> Iterator[Case]:
    """The same tree in two numberings; the outside pairs."""
    for t in [P, Q, R] + OUTSIDE:
        yield splits(t, renumbered(t), needed(t, t) + 1)
    for t, u in itertools.product(OUTSIDE, repeat=2):
        if t[0] == u[0]:
            yield splits(t, u, needed(t, u))


def pass_through_cases() -> Iterator[Case]:
    """Pairs with pass-through nodes in one table or in both, with the split counts that they have without."""
    (p, _), (q, _), (w, _), *_, (two, _) = PASS_THROUGH
    for t, u, plain in ((p, P, (P, P)), (P, p, (P, P)), (p, q, (P, Q)), (q, w, (Q, W)), (two, two, (TWO, TWO))):
        assert split_counts(t, u) == split_counts(*plain), (t, u)
        yield splits(t, u, needed(t, u))
    yield from (crossings(p, q, needed(p, q) + more) for more in (-1, 0))
    rng = random.Random(42)
    for n in (4, 5, 6):
        pair = random_pair(rng, n)
        t, u = (randomly_chained(rng, one) for one in pair)
        assert split_counts(t, u) == split_counts(*pair), (t, u)
        yield splits(t, u, needed(t, u))


def random_cases(rng: random.Random) -> Iterator[Case]:
    for k in range(150):
        t, u = random_pair(rng, 4 + k % 9)
        yield from both(t, u, needed(t, u) + rng.choice([-1, 0, 0, 0, 1, 2]))


def bad_cases() -> Iterator[Case]:
    """Short lines, no kind, fewer words than are told, and too many cells to print."""
    yield from (bad(), bad(Kind.CROSSINGS), bad(Kind.CROSSINGS, 0, 1), bad(Kind.CROSSINGS_OF_ONE))
    yield bad(*line(Kind.NONE, [0], [], 1))
    yield from (bad(Kind.CROSSINGS, 0, 1, 2, 0), bad(Kind.SPLITS, 0, 1, 9, *TWO))
    yield from (bad(*line(Kind.CROSSINGS, TWO, TWO, MOST_PRINTED + 1)), bad(*line(Kind.SPLITS, TWO, TWO, X)))
    yield bad(*line(Kind.CROSSINGS_OF_ONE, [], TWO, MOST_PRINTED + 1))


def all_cases() -> Iterator[Case]:
    rng = random.Random(41)
    yield from reference_cases()
    yield from one_slice_cases()
    yield from refused_cases(rng)
    yield from outside_cases()
    yield from pass_through_cases()
    yield from random_cases(rng)
    yield from bad_cases()


def examples() -> list[Case]:
    """The cases; the published split counts, and that every number of a pair is met."""
    for t, u, counts in SPLITS:
        assert split_counts(t, u) == counts, (t, u, counts)
    cases = list(all_cases())
    numbers = {case.answer[1] for case in cases if case.answer[0] != "bad"}
    assert numbers == {0, *PAIR_NUMBERS}, numbers
    return cases
