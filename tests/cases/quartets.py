"""Cases of claim sums, quartet tables and triplet tables.

A tree is a graph in which each edge parts the labels into two sets. The claim sums go through the claims one by one, as
docs/SPECIFICATION.md, 'Claims', defines them. The five cases are counted apart from the claims, by the subtrees that hang on
the way between every two labels; up to 16 tips also by looking for an edge that parts each set of four. Each pair's sums
and cases are then held to the five formulas.
"""
import itertools
import random
from collections.abc import Iterator
from functools import cache, cached_property
from math import comb

from cases.lines import ENUMERATED, MOST_CELLS, Answer, Case, Kind, bad, line
from cases.pairs import PAIR_NUMBERS, REFUSED, climb, needed, pair_refusal
from cases.shapes import (balanced, bushy, caterpillar, chained, exchanged, randomly_chained, related_pair, renumbered, shuffled,
                          star, unrelated_pair, with_labels_exchanged)
from cases.tables import LABEL_TROUBLE, OUTSIDE, PASS_THROUGH, P, Q, R, REFERENCE, THREE, TWO, W, X, Table, damaged
from cases.triplets import triplet_table

# docs/SPECIFICATION.md, 'The figures K1 to K9': S S' S2 S3, A B C D E, distance, A B C D E of the triplets.
REFERENCE_PAIRS = [
    (P, Q, [10, 6, 6, 0], [3, 0, 2, 0, 0], 2, [3, 0, 1, 0, 0]),
    (P, R, [10, 10, 6, 8], [3, 2, 0, 0, 0], 2, [2, 2, 0, 0, 0]),
    (Q, R, [6, 10, 2, 8], [1, 2, 0, 2, 0], 4, [1, 2, 0, 1, 0]),
    (P, P, [10, 10, 10, 0], [5, 0, 0, 0, 0], 0, [4, 0, 0, 0, 0]),
    (W, W, [0, 0, 0, 0], [0, 0, 0, 0, 5], 0, [0, 0, 0, 0, 4]),
    (P, W, [10, 0, 0, 0], [0, 0, 5, 0, 0], 5, [0, 0, 4, 0, 0]),
    (W, P, [0, 10, 0, 0], [0, 0, 0, 5, 0], 5, [0, 0, 0, 4, 0]),
    (TWO, TWO, [0, 0, 0, 0], [0, 0, 0, 0, 0], 0, [0, 0, 0, 0, 0]),
    (THREE, THREE, [0, 0, 0, 0], [0, 0, 0, 0, 0], 0, [0, 0, 0, 0, 0]),
]

# Outside pairs: documents 004 and 000, and trees of mixed shape.
BALANCED_EIGHT, MIXED_EIGHT = OUTSIDE[4], OUTSIDE[5]
OUTSIDE_PAIRS = [
    (OUTSIDE[0], OUTSIDE[1], [30, 30, 16, 28], [8, 7, 0, 0, 0], 7, [5, 5, 0, 0, 0]),
    (OUTSIDE[2], OUTSIDE[3], [140, 140, 70, 140], [35, 35, 0, 0, 0], 35, [20, 15, 0, 0, 0]),
    (BALANCED_EIGHT, with_labels_exchanged(BALANCED_EIGHT, 1, 5), [140, 140, 48, 184], [24, 46, 0, 0, 0], 46, [12, 23, 0, 0, 0]),
    (MIXED_EIGHT, BALANCED_EIGHT, [102, 140, 58, 88], [29, 22, 0, 19, 0], 41, [14, 10, 0, 11, 0]),
]

PAIRS_OF = [comb(k, 2) for k in range(257)]  # how many pairs k labels make

# A set of labels is the bits of a number.
Labels = int

# What hangs on the way between two labels: the subtrees, and for each node of the way all of its subtrees together; those of
# two labels or more. The two are one list where they are equal.
Way = tuple[list[Labels], list[Labels]]


class Graph:
    """A tree as a graph. A side is what lies beyond an edge from one of its two ends, and is known by its place in `sides`."""

    def __init__(self, t: Table) -> None:
        self.n, self.m = t[0], t[1]
        self.labels = t[2 + self.m:]
        self.next: list[list[int]] = [[] for _ in range(self.m)]
        for i in range(1, self.m):
            self.next[i].append(t[2 + i])
            self.next[t[2 + i]].append(i)
        self.side: dict[tuple[int, int], Labels] = {}
        for v in range(self.m):
            for w in self.next[v]:
                self.labels_beyond(v, w)
        self.place = {edge: place for place, edge in enumerate(self.side)}
        self.sides = list(self.side.values())
        self.sizes = [side.bit_count() for side in self.sides]

    def labels_beyond(self, v: int, w: int) -> Labels:
        """The labels on w's side of the edge between two neighbours v and w, kept in `side`."""
        if (v, w) not in self.side:
            found = 0 if self.labels[w] == X else 1 << self.labels[w]
            for further in self.next[w]:
                if further != v:
                    found |= self.labels_beyond(w, further)
            self.side[v, w] = found
        return self.side[v, w]

    @cached_property
    def claims(self) -> list[tuple[int, list[tuple[int, int]]]]:
        """T1 behind a directed edge, and each unordered pair of other subtrees at the node that it points to.

        Every term of the sums asks for two labels of T1, so a claim with one label behind adds nothing: in large trees those
        are left out."""
        least = 1 if self.n <= ENUMERATED else 2
        found = []
        for v in range(self.m):
            around = [self.place[v, w] for w in self.next[v]]
            for behind in around:
                if self.sizes[behind] >= least:
                    others = [other for other in around if other != behind]
                    found.append((behind, list(itertools.combinations(others, 2))))
        return found

    @cached_property
    def large(self) -> list[list[int]]:
        """The neighbours of each node that have two labels or more on their side."""
        return [[w for w in self.next[v] if self.side[v, w].bit_count() > 1] for v in range(self.m)]

    @cached_property
    def ways(self) -> dict[tuple[int, int], Way]:
        """The way between every two labels a < b."""
        return {(a, b): way for a in range(self.n - 1) for b, way in self.ways_from(a)}

    def ways_from(self, a: int) -> Iterator[tuple[int, Way]]:
        """The larger labels, each with the way to it."""
        every, side, tip = (1 << self.n) - 1, self.side, self.labels.index(a)
        todo: list[tuple[int, int, list[Labels], list[Labels]]] = [(tip, self.next[tip][0], [], [])]
        while todo:
            u, v, parts, wholes = todo.pop()
            if self.labels[v] != X:
                yield self.labels[v], (parts, parts if parts == wholes else wholes)
                continue
            for w in self.next[v]:
                if w != u and side[v, w] >> a:
                    here = [side[v, x] for x in self.large[v] if x != u and x != w]
                    whole = every & ~side[v, u] & ~side[v, w]
                    todo.append((v, w, parts + here, wholes + [whole] if whole.bit_count() > 1 else wholes))


@cache
def graph_of(words: tuple[int, ...]) -> Graph:
    return Graph(list(words))


def graph(t: Table) -> Graph:
    return graph_of(tuple(t))


# ---- the claim sums, by their definition

def claim_sum(tree: Graph) -> int:
    size = tree.sizes
    return sum(PAIRS_OF[size[a]] * size[b] * size[c] for a, pairs in tree.claims for b, c in pairs)


def same_and_different(tree: Graph, other: Graph) -> list[int]:
    """S2 by equation (1), and S3 by dcount, of document 001: `ad` is the number of labels in T1 and T1', and so on."""
    met = [[(side & beside).bit_count() for beside in other.sides] for side in tree.sides]
    same = different = 0
    for a, pairs in tree.claims:
        in_a = met[a]
        reached = [(d, e, f, in_a[d], in_a[e], in_a[f]) for d, further in other.claims if in_a[d] for e, f in further]
        # a term has two labels of T1 and T1', or one with another of T1 in T2' or T3'
        reached = [one for one in reached if one[3] > 1 or one[4] or one[5]]
        for b, c in pairs:
            in_b, in_c = met[b], met[c]
            for d, e, f, ad, ae, af in reached:
                bd, be, bf, cd, ce, cf = in_b[d], in_b[e], in_b[f], in_c[d], in_c[e], in_c[f]
                same += PAIRS_OF[ad] * (be * cf + bf * ce)
                different += ad * af * be * cd + ad * ae * bf * cd + ad * ae * bd * cf + ad * af * bd * ce
    return [same, different]


def claim_sums(t: Table, u: Table) -> list[int]:
    """S S' S2 S3."""
    return [claim_sum(graph(t)), claim_sum(graph(u)), *same_and_different(graph(t), graph(u))]


# ---- the five cases: A B C D E

def butterfly(edges: set[Labels], four: Labels) -> Labels | None:
    """The two of four labels that an edge parts from the other two, those with the smallest label; None for a star."""
    found = {edge & four if edge & four & -four else four & ~edge for edge in edges if (edge & four).bit_count() == 2}
    assert len(found) <= 1
    return found.pop() if found else None


def case_of(one: Labels | None, other: Labels | None) -> int:
    if one is None:
        return 4 if other is None else 3
    if other is None:
        return 2
    return 0 if one == other else 1


def cases_by_fours(t: Table, u: Table) -> list[int]:
    first, second, counts = set(graph(t).sides), set(graph(u).sides), [0] * 5
    for labels in itertools.combinations(range(t[0]), 4):
        four = sum(1 << label for label in labels)
        counts[case_of(butterfly(first, four), butterfly(second, four))] += 1
    return counts


def pairs_in(sets: list[Labels], others: list[Labels]) -> int:
    """How many pairs of labels lie together in one of the sets and in one of the others."""
    return sum([PAIRS_OF[(one & other).bit_count()] for one in sets for other in others])


def cases_by_pairs(t: Table, u: Table) -> list[int]:
    """Two labels c and d face a and b in a butterfly where they hang in one subtree on the way from a to b; where they hang at
    one node in two subtrees, the four are a star; where at two nodes, a has another partner. Each butterfly is met twice,
    from either of its pairs."""
    first, second, n = graph(t).ways, graph(u).ways, t[0]
    same = other_star = star_other = different = different_again = 0
    for pair, (parts, wholes) in first.items():
        other_parts, other_wholes = second[pair]
        in_both = pairs_in(parts, other_parts)
        at_other_node = in_both if other_parts is other_wholes else pairs_in(parts, other_wholes)
        at_node = in_both if parts is wholes else pairs_in(wholes, other_parts)
        same += in_both
        other_star += at_other_node - in_both
        star_other += at_node - in_both
        different += sum([PAIRS_OF[part.bit_count()] for part in parts]) - at_other_node
        different_again += sum([PAIRS_OF[part.bit_count()] for part in other_parts]) - at_node
    assert different == different_again
    twice = [same, different, other_star, star_other]
    assert all(count % 2 == 0 for count in twice)
    return [count // 2 for count in twice] + [comb(n, 4) - sum(twice) // 2]


def quartet_table(t: Table, u: Table) -> list[int]:
    cases = cases_by_pairs(t, u)
    assert t[0] > ENUMERATED or cases == cases_by_fours(t, u), (t, u)
    return cases + [sum(cases[1:4])]


def hold(n: int, sums: list[int], cases: list[int]) -> None:
    """docs/SPECIFICATION.md, 'The five formulas' and 'The distance'."""
    a, b, c, d, e, distance = cases
    assert sums == [2 * (a + b + c), 2 * (a + b + d), 2 * a, 4 * b], (sums, cases)
    assert a + b + c + d + e == n * (n - 1) * (n - 2) * (n - 3) // 24 and distance == b + c + d, cases


# ---- one case

def cells_sum(t: Table, u: Table, cells: int) -> int:
    """The sum of the cells after a call: 7 in each that is not written, and how many labels lie beyond both edges."""
    if pair_refusal(t, u, cells):
        return 7 * cells
    beyond = sum(len(climb(t, label)) * len(climb(u, label)) for label in range(t[0]))
    return beyond + 7 * (cells - needed(t, u))


def answer(t: Table, u: Table, cells: int) -> Answer:
    number, total = pair_refusal(t, u, cells), cells_sum(t, u, cells)
    sums, cases, threes, verdict = [0] * 4, [0] * 6, [0] * 6, ["refused"]
    if number == 0:
        sums, cases, threes = claim_sums(t, u), quartet_table(t, u), triplet_table(t, u)
        hold(t[0], sums, cases)
        verdict = ["agrees"] if t[0] <= ENUMERATED else ["large", "agrees"]
    return ["claims", number, *sums, total, "quartets", number, *cases, total, *verdict, "triplets", number, *threes, total]


def pair(t: Table, u: Table, cells: int | None = None) -> Case:
    cells = needed(t, u) if cells is None else cells
    return Case(line(Kind.QUARTETS, t, u, cells), answer(t, u, cells))


def one_slice(t: Table, cells: int) -> Case:
    return Case(line(Kind.QUARTETS_OF_ONE, [], t, cells), answer(t, t, cells))


# ---- the cases

def refused_cases() -> Iterator[Case]:
    # 9, and around it; no cells at all
    assert needed(P, Q) == 42
    yield from (pair(P, Q, cells) for cells in (0, 41, 42, 43))
    yield from (pair(t, t, needed(t, t) - 1) for t in (P, W, TWO, THREE))
    # 1 to 7 and 31, the same of the second with 100 more, the first's number where both are refused
    for t in damaged(P):
        yield from (pair(t, W, 36), pair(W, t, 36))
    yield from (pair(t, u, 3) for t, u in REFUSED)
    for t, number in LABEL_TROUBLE:
        for case, expected in ((pair(t, W, 3), number), (pair(W, t, 3), 100 + number)):
            assert case.answer[1] == expected, t
            yield case
    # 8, also without cells; a refused second table without cells
    yield from (pair(P, THREE, 100), pair(P, THREE, 0), pair(TWO, P, 7), pair(P, P[:-1], 0))


def one_slice_cases() -> Iterator[Case]:
    for t in REFERENCE + OUTSIDE:
        yield from (one_slice(t, needed(t, t) + more) for more in (-1, 0, 1))
    yield from (one_slice(t, 36) for t in damaged(P))


def figures(t: Table, u: Table) -> list[list[int]]:
    """What is counted of a pair, but for the splits."""
    return [claim_sums(t, u), quartet_table(t, u), triplet_table(t, u)]


def pass_through_cases() -> Iterator[Case]:
    """Pairs with pass-through nodes in one table or in both, with the figures that they have without."""
    (p, _), (q, _), (w, _), *_, (two, _) = PASS_THROUGH
    for t, u, plain in ((p, q, (P, Q)), (q, R, (Q, R)), (w, p, (W, P)), (two, two, (TWO, TWO))):
        assert figures(t, u) == figures(*plain), (t, u)
        yield pair(t, u)
    rng = random.Random(60)
    for n in (5, 6):
        plain = related_pair(rng, n)
        t, u = (randomly_chained(rng, one) for one in plain)
        assert figures(t, u) == figures(*plain), (t, u)
        yield pair(t, u)


def random_cases(rng: random.Random) -> Iterator[Case]:
    for k in range(300):
        n = 2 + k % 11
        t, u = related_pair(rng, n) if k % 3 else unrelated_pair(rng, n)
        yield pair(t, u, needed(t, u) + rng.choice([0, 0, 0, 1, 2]))
    # around 16 tips, the most that the program enumerates
    for n in (13, 14, 15, 16, 17, 18):
        yield pair(*related_pair(rng, n))
        yield pair(*unrelated_pair(rng, n))


def large_cases(rng: random.Random) -> Iterator[Case]:
    n = 256
    worm, even = shuffled(rng, caterpillar(n)), shuffled(rng, balanced(n))
    yield pair(star(n), shuffled(rng, star(n)))
    yield pair(worm, caterpillar(n))
    yield pair(even, renumbered(exchanged(rng, even)))
    yield pair(even, balanced(n))
    yield pair(star(n), worm)
    yield pair(even, star(n))
    yield pair(worm, even)
    yield pair(*related_pair(rng, n))
    yield pair(*unrelated_pair(rng, n))
    yield one_slice(star(n), needed(star(n), star(n)) - 1)
    yield one_slice(star(n - 1), needed(star(n - 1), star(n - 1)) + 2)
    yield pair(bushy(rng, 48), bushy(rng, 48))
    yield one_slice(chained(rng, worm, 4 * n), MOST_CELLS)


def bad_cases() -> Iterator[Case]:
    """Short lines, no kind, fewer words than are told, and more cells than there are."""
    yield from (bad(), bad(Kind.QUARTETS), bad(Kind.QUARTETS, 0, 1), bad(Kind.QUARTETS_OF_ONE, 0, 1))
    yield from (bad(*line(Kind.NONE, [], TWO, 1)), bad(X, 0, 1, 6, *TWO, *TWO))
    yield from (bad(Kind.QUARTETS, 0, 1, 7, *TWO), bad(Kind.QUARTETS, 0, 1, 1))
    yield from (bad(*line(Kind.QUARTETS, TWO, TWO, MOST_CELLS + 1)), bad(Kind.QUARTETS, X, X, 6, *TWO, *TWO))
    yield bad(*line(Kind.QUARTETS_OF_ONE, [], TWO, 1050000))


def all_cases() -> Iterator[Case]:
    rng = random.Random(59)
    yield from (pair(t, u) for t, u, *_ in REFERENCE_PAIRS + OUTSIDE_PAIRS)
    yield from (pair(u, t, needed(t, u) + 1) for t, u, *_ in OUTSIDE_PAIRS)
    yield from refused_cases()
    yield from one_slice_cases()
    yield from pass_through_cases()
    yield from random_cases(rng)
    yield from large_cases(rng)
    yield from bad_cases()


def examples() -> list[Case]:
    """The cases; the published figures, and that every number of a pair is met."""
    for t, u, sums, cases, distance, threes in REFERENCE_PAIRS + OUTSIDE_PAIRS:
        assert claim_sums(t, u) == sums and quartet_table(t, u) == cases + [distance], (t, u)
        assert triplet_table(t, u) == threes + [sum(threes[1:4])], (t, u)
    found = list(all_cases())
    numbers = {case.answer[1] for case in found if case.answer[0] != "bad"}
    assert numbers == {0, *PAIR_NUMBERS}, numbers
    return found
