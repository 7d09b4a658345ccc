"""Cases of one table: a table is turned into a graph, paths are searched in it, and labels are parted by taking an edge
away."""
import itertools
import random
from collections.abc import Iterator
from functools import cached_property

from cases.lines import MOST_CELLS, MOST_PRINTED, Case, Kind, bad, lent_words, line
from cases.shapes import balanced, caterpillar, random_table, star
from cases.tables import (LABEL_TROUBLE, NUMBERS, OUTSIDE, PASS_THROUGH, P, Q, R, REFERENCE, THREE, TWO, X, Table, damaged,
                          tree_refusal)


class Tree:
    """An accepted table as a graph."""

    def __init__(self, t: Table) -> None:
        self.n, self.m = t[0], t[1]
        self.parents, self.labels = t[2:2 + self.m], t[2 + self.m:]
        self.node = {label: i for i, label in enumerate(self.labels) if label != X}
        self.next: dict[int, set[int]] = {i: set() for i in range(self.m)}
        for i in range(1, self.m):
            self.next[i].add(self.parents[i])
            self.next[self.parents[i]].add(i)

    def reach(self, start: int, edge: int) -> set[int]:
        """The nodes that can be reached from a node with an edge taken away."""
        found, todo = {start}, [start]
        while todo:
            v = todo.pop()
            for w in self.next[v]:
                if {v, w} != {edge, self.parents[edge]} and w not in found:
                    found.add(w)
                    todo.append(w)
        return found

    def path(self, a: int, b: int, behind: int = -1) -> list[int]:
        """The nodes on the path between two nodes."""
        if a == b:
            return [a]
        for w in self.next[a]:
            if w != behind:
                rest = self.path(w, b, a)
                if rest:
                    return [a] + rest
        return []

    def walk(self, v: int = 0) -> list[int]:
        own = [self.labels[v]] if self.labels[v] != X else []
        for w in range(1, self.m):
            if self.parents[w] == v:
                own += self.walk(w)
        return own

    @cached_property
    def beyond(self) -> list[set[int]]:
        """The labels beyond each edge; 0 is none."""
        return [set()] + [{self.labels[v] for v in self.reach(edge, edge)} - {X} for edge in range(1, self.m)]

    def centre(self, *tips: int) -> int:
        a, b, c = (self.node[x] for x in tips)
        joined = set(self.path(a, b)) & set(self.path(a, c)) & set(self.path(b, c))
        assert len(joined) == 1
        return joined.pop()

    def partner(self, *tips: int) -> int | None:
        """The partner of the smallest of four labels, or None for a star."""
        four, least = set(tips), min(tips)
        found: set[int] = set()
        for beyond in self.beyond:
            side = beyond & four
            if len(side) == 2:
                found |= (side if least in side else four - side) - {least}
        assert len(found) <= 1
        return found.pop() if found else None


# ---- one case

def check(t: Table) -> Case:
    number = tree_refusal(t)
    return Case(line(Kind.CHECK, [], t), ["check", number, *(t[:2] if number == 0 else [])])


def zeros(words: int) -> Case:
    return Case(line(Kind.ZEROS, [], [], words), ["check", tree_refusal([0] * words)])


def walk(t: Table, cells: int) -> Case:
    number = tree_refusal(t) or (12 if cells < t[0] else 0)
    after = lent_words(cells)
    if number == 0:
        after[:t[0]] = Tree(t).walk()
    return Case(line(Kind.WALK, [], t, cells), ["walk", number, *after])


def part(t: Table, edge: int, cells: list[int]) -> list[int]:
    number = tree_refusal(t) or (13 if edge == 0 or edge >= t[1] else 12 if len(cells) < t[0] else 0)
    if number:
        return [number]
    tree = Tree(t)
    labels = tree.beyond[edge]
    at = min(tree.walk().index(x) for x in labels)
    return [0] + cells[at:at + len(labels)]


def beyond(t: Table, edge: int, cells: int) -> Case:
    return Case(line(Kind.BEYOND, [edge], t, cells), ["beyond", *part(t, edge, lent_words(cells))])


def walked(t: Table, edge: int) -> Case:
    cells = lent_words(MOST_PRINTED)
    if tree_refusal(t) == 0:
        cells[:t[0]] = Tree(t).walk()
    return Case(line(Kind.WALKED, [edge], t, MOST_PRINTED), ["walked", *part(t, edge, cells)])


def asked(t: Table, labels: tuple[int, ...]) -> int:
    """The number of a question about labels."""
    number = tree_refusal(t)
    if number == 0 and any(x >= t[0] for x in labels):
        number = 10
    if number == 0 and len(set(labels)) < len(labels):
        number = 11
    return number


def centre(t: Table, *labels: int) -> Case:
    number = asked(t, labels)
    return Case(line(Kind.CENTRE, [*labels], t), ["centre", number, 0 if number else Tree(t).centre(*labels)])


def topology(t: Table, *labels: int) -> Case:
    number = asked(t, labels)
    mate = None if number else Tree(t).partner(*labels)
    return Case(line(Kind.TOPOLOGY, [*labels], t), ["topology", number, *([0] if mate is None else [1, mate])])


def centres(t: Table) -> Case:
    tree = Tree(t)
    every = itertools.combinations(range(t[0]), 3)
    return Case(line(Kind.CENTRES, [], t), ["centres", *(tree.centre(*three) for three in every)])


def topologies(t: Table) -> Case:
    tree = Tree(t)
    every = itertools.combinations(range(t[0]), 4)
    return Case(line(Kind.TOPOLOGIES, [], t), ["topologies", *(tree.partner(*four) or 0 for four in every)])


def changes(t: Table) -> Case:
    counts = {number: 0 for number in (0, *sorted(NUMBERS))}
    assert 4 * t[0] < 512
    for at in range(len(t)):
        # words from 512 to 65534 are too large for every rule alike
        for word in itertools.chain(range(512), [X]):
            if word != t[at]:
                counts[tree_refusal(t[:at] + [word] + t[at + 1:])] += 1
        counts[tree_refusal(t[:at] + [512] + t[at + 1:])] += X - 512
    return Case(line(Kind.CHANGES, [], t, len(t)), ["changes", *counts.values()])


# ---- the cases

def edge_cases() -> Iterator[Case]:
    """docs/SPECIFICATION.md, 'Edge cases', of one table; tables of zeros."""
    yield from map(check, ([1, 1, 0, 0], [257, 257], [2, 0], [256, 0], [5, 4], [5, 9], [5, 20], [5, 21], P + [0], []))
    yield from map(check, ([256, 255], [256, 511], [256, 1024], [256, 1025], [2, 1], [2, 3], [2, 8], [2, 9]))
    yield from map(zeros, (0, 1, 2, 3, 65535))


def whole_table_cases() -> Iterator[Case]:
    for t in REFERENCE + OUTSIDE:
        n, m = t[0], t[1]
        yield check(t)
        yield from (walk(t, cells) for cells in (0, n - 1, n, n + 3))
        yield from (walked(t, edge) for edge in range(1, m))
        yield from (beyond(t, edge, n) for edge in (1, m - 1))
        yield centres(t)
        yield topologies(t)


def pass_through_cases() -> Iterator[Case]:
    """Each call on tables with pass-through nodes. What is asked of labels alone is answered as without them."""
    for t, plain in PASS_THROUGH:
        n, m = t[0], t[1]
        yield from (check(t), walk(t, n), walked(t, m // 2), centres(t), topologies(t))
        assert topologies(t).answer == topologies(plain).answer, t
    yield from (changes(t) for t, _ in PASS_THROUGH[:1] + PASS_THROUGH[-1:])


def order_cases() -> Iterator[Case]:
    """The order of 13 and 12, and of 10 and 11; the largest words; every order of the labels."""
    yield from (beyond(P, edge, cells) for edge in (0, 7, 8, X) for cells in (0, 4, 5, 6))
    yield from (centre(P, *three) for three in [(5, 5, 1), (4, 1, 4), (1, 1, 1), (X, 0, 0), (0, 1, 2), (4, 3, 2)])
    yield from (topology(P, *four) for four in [(5, 5, 1, 2), (0, 1, 2, 0), (4, 4, 4, 4), (0, 1, X, X), (3, 3, 5, 1)])
    yield from (topology(t, *four) for t in (TWO, THREE) for four in [(0, 1, 0, 1), (0, 1, 2, 3)])
    yield from (centre(TWO, *three) for three in [(0, 1, 0), (0, 1, 2)])
    yield from (topology(P, *four) for four in itertools.permutations((0, 1, 2, 3)))
    yield from (topology(Q, *four) for four in itertools.permutations((1, 2, 3, 4)))
    yield from (topology(R, *four) for four in itertools.permutations((4, 3, 1, 0)))
    yield from (centre(R, *three) for three in itertools.permutations((1, 3, 4)))


def damaged_cases(rng: random.Random) -> Iterator[Case]:
    """Damage and label trouble, for every operation; every change of one word."""
    yield from map(check, damaged(P))
    for t in damaged(random_table(rng, 9)):
        yield from (check(t), walk(t, 9), beyond(t, 0, 0), centre(t, 9, 9, 0), topology(t, 9, 9, 0, 1))
    for t, number in LABEL_TROUBLE:
        for case in (check(t), walk(t, 0), beyond(t, 0, 0), centre(t, 9, 9, 0), topology(t, 9, 9, 0, 1)):
            assert case.answer[1] == number, t
            yield case
    yield from map(changes, REFERENCE + OUTSIDE)


def random_cases(rng: random.Random) -> Iterator[Case]:
    for n in [2, 3, 3, 4, 4, 5, 5, 6, 6, 7, 7, 8, 9, 10, 11, 12] * 2:
        t = random_table(rng, n)
        yield from (check(t), walk(t, n + 1), centres(t), topologies(t), walked(t, rng.randrange(1, t[1])))


def large_cases() -> Iterator[Case]:
    yield from (check(caterpillar(256)), walk(star(256), 256), walk(balanced(256), 256))
    yield from (centre(caterpillar(256), 255, 0, 128), topology(balanced(256), 200, 3, 255, 100))
    yield from (walked(balanced(256), 5), topology(star(256), 255, 254, 253, 252))


def bad_cases() -> Iterator[Case]:
    """Short lines, fewer words than are told, too many cells to print, and more than there are."""
    yield from (bad(Kind.CHECK), bad(Kind.CHECK, 0, 0), bad(Kind.CHANGES, 0, 6), bad(Kind.CHECK, 0, 0, 13, *TWO, *TWO))
    yield from (bad(*line(Kind.WALK, [], P, MOST_PRINTED + 1)), bad(*line(Kind.ZEROS, [], [], MOST_CELLS + 1)))


def all_cases() -> Iterator[Case]:
    rng = random.Random(20)
    yield from edge_cases()
    yield from whole_table_cases()
    yield from pass_through_cases()
    yield from order_cases()
    yield from damaged_cases(rng)
    yield from random_cases(rng)
    yield from large_cases()
    yield from bad_cases()


def hold(cases: list[Case]) -> None:
    """Every number of the operations on one table is met."""
    numbers = {case.answer[1] for case in cases if case.answer[0] in ("check", "walk", "beyond", "centre", "topology")}
    assert numbers == {0, *NUMBERS, 10, 11, 12, 13}, numbers


def examples() -> list[Case]:
    cases = list(all_cases())
    hold(cases)
    return cases
