"""The evidence for four labels in two trees, by a search over all edges and all nodes.

An edge parts four labels two and two if with it taken away each side has two of them; the lowest-numbered such edge is told. Where
there is none, the node is told that lies on all six paths between the four tips.
"""
import itertools
from functools import cache
from typing import NamedTuple

from cases.lines import MOST_CELLS
from cases.pairs import pair_refusal
from cases.tables import Table
from cases.trees import Tree

Pairs = frozenset[frozenset[int]]


class Witness(NamedTuple):
    """How a tree parts four labels, None for a star; whether an edge shows it, and the number of that edge or of the node."""
    pairs: Pairs | None
    edge: int
    number: int


class Parted(Tree):
    """An accepted table whose paths are kept."""

    def __init__(self, t: Table) -> None:
        super().__init__(t)
        self.paths = {frozenset(two): set(self.path(*(self.node[label] for label in two)))
                      for two in itertools.combinations(range(self.n), 2)}

    def parting(self, edge: int, four: frozenset[int]) -> Pairs | None:
        """The labels on the sides of the edge, if these are two and two."""
        side = self.beyond[edge] & four
        return frozenset([frozenset(side), four - side]) if len(side) == 2 else None

    def meeting(self, four: frozenset[int]) -> list[int]:
        """The nodes on every path between two of the labels."""
        paths = [self.paths[frozenset(two)] for two in itertools.combinations(four, 2)]
        return [v for v in range(self.m) if all(v in path for path in paths)]

    def witness(self, four: frozenset[int]) -> Witness:
        partings = {edge: self.parting(edge, four) for edge in range(1, self.m)}
        edges = [edge for edge, pairs in partings.items() if pairs]
        nodes = self.meeting(four)
        # of a butterfly all edges part it alike and no node is on all paths; of a star one node is
        assert len({partings[edge] for edge in edges}) == len(edges[:1]) and len(nodes) == (0 if edges else 1), four
        return Witness(partings[min(edges)], 1, min(edges)) if edges else Witness(None, 0, nodes[0])

    def parts(self, seen: Witness) -> set[frozenset[int]]:
        """The labels that stay joined with the edge taken away, or with the node."""
        if seen.edge:
            beyond = frozenset(self.beyond[seen.number])
            return {beyond, frozenset(range(self.n)) - beyond}
        return {frozenset(b for b in range(self.n) if a == b or seen.number not in self.paths[frozenset([a, b])])
                for a in range(self.n)}


@cache
def parted_of(words: tuple[int, ...]) -> Parted:
    return Parted(list(words))


def parted(t: Table) -> Parted:
    return parted_of(tuple(t))


def case_of(first: Pairs | None, second: Pairs | None) -> int:
    """0 to 4 for A to E."""
    if first and second:
        return 0 if first == second else 1
    return 2 if first else 3 if second else 4


def refusal(t: Table, u: Table, labels: tuple[int, ...]) -> int:
    """That of the pair, without 9; then 10, then 11."""
    number = pair_refusal(t, u, MOST_CELLS)
    if number:
        return number
    if any(label >= t[0] for label in labels):
        return 10
    return 11 if len(set(labels)) < len(labels) else 0


def evidence(t: Table, u: Table, labels: tuple[int, ...]) -> list[int]:
    """The refusal, the case, and for each tree whether an edge is told, and its number or that of the node."""
    number = refusal(t, u, labels)
    if number:
        return [number, 4, 0, 0, 0, 0]
    first, second = (parted(one).witness(frozenset(labels)) for one in (t, u))
    return [0, case_of(first.pairs, second.pairs), *first[1:], *second[1:]]
