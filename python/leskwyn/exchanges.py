"""Exchanges: how far a tree moves if two of its tips change names, tallied over all pairs of tips, and pair by pair."""
import dataclasses
import itertools
import typing
from collections.abc import Sequence
from math import comb

from leskwyn import _library
from leskwyn._library import TALLIES, Words
from leskwyn.figures import in_lists, normalised
from leskwyn.tables import tree_refusal

# The lowest and the highest distance of a tally; None if no whole number falls in it.
Bounds = typing.Optional[tuple[int, int]]
# In the order of docs/COMMANDS.md.
KEYS = ("tree", "tips", "sets_of_four", "exchanges", "tallies", "bounds")


@dataclasses.dataclass(frozen=True, kw_only=True)
class Exchange:
    """Two tips that change names.

    name, other           the two names, in the order of their labels
    distance              how many sets of four the tree parts differently then
    normalised_distance   the distance over all sets of four, from 0 to 1; 0.0 where there are none
    """

    name: str
    other: str
    distance: int
    normalised_distance: float


EXCHANGE_KEYS = tuple(field.name for field in dataclasses.fields(Exchange))


@dataclasses.dataclass(frozen=True, kw_only=True)
class ExchangeTallies:
    """How far a tree moves if two of its tips change names, for each pair of tips.

    tree      where the tree comes from, in words
    tips      n, how many populations the tree has
    tallies   eleven: how many pairs move the tree by less than a tenth of all sets of four, by one tenth to less than two, and so
              on; the last tells how many move all of them
    most      an Exchange for each of the pairs that move the tree most, the largest distance first; None if that is not asked for
    least     one for each of those that move it least, the smallest distance first; None if that is not asked for

    Equal distances stand in the order of the labels. sets_of_four, exchanges and bounds follow from these.
    """

    tree: str
    tips: int
    tallies: tuple[int, ...]
    most: tuple[Exchange, ...] | None = None
    least: tuple[Exchange, ...] | None = None

    @property
    def sets_of_four(self) -> int:
        """All sets of four tips."""
        return comb(self.tips, 4)

    @property
    def exchanges(self) -> int:
        """All pairs of tips, which the tallies add up to."""
        return comb(self.tips, 2)

    @property
    def bounds(self) -> tuple[Bounds, ...]:
        """The lowest and the highest distance of each tally; None for one in which no whole number falls."""
        return tally_bounds(self.sets_of_four)

    def as_dict(self) -> dict[str, typing.Any]:
        """All of it under its names, in the order of docs/COMMANDS.md, with lists for tuples. The pairs that move the tree most and
        least are there if they are asked for."""
        told = {key: in_lists(getattr(self, key)) for key in KEYS}
        for key, pairs in (("most", self.most), ("least", self.least)):
            if pairs is not None:
                told[key] = [dataclasses.asdict(one) for one in pairs]
        return told


def tally_bounds(sets_of_four: int) -> tuple[Bounds, ...]:
    """Tally t begins at t tenths of all sets of four, rounded up, and the last holds all of them alone. Where there are no sets of
    four, the one distance that there is falls in tally 0."""
    if sets_of_four == 0:
        return ((0, 0), *[None] * (TALLIES - 1))
    starts = [-(-tally * sets_of_four // 10) for tally in range(TALLIES)] + [sets_of_four + 1]
    return tuple((start, after - 1) if start < after else None for start, after in itertools.pairwise(starts))


# ---- the library's answers

def refused(number: int, table: Words) -> None:
    """Raises the refusal that the library tells, with its reason."""
    if number:
        raise tree_refusal(number, list(table.cells[:table.count]))


def distance(table: Words, x: int, y: int) -> int:
    """The distance by which the exchange of two labels moves a tree."""
    answer = _library.exchange_distance(table, x, y)
    refused(answer.refusal, table)
    return answer.distance


def every_exchange(table: Words, names: Sequence[str]) -> list[Exchange]:
    """An Exchange for each pair of labels, in their order."""
    sets_of_four, found = comb(len(names), 4), []
    for x, y in itertools.combinations(range(len(names)), 2):
        moved = distance(table, x, y)
        found.append(Exchange(name=names[x], other=names[y], distance=moved, normalised_distance=normalised(moved, sets_of_four)))
    return found


def of_table(place: str, table: Words, names: Sequence[str], pairs: int | None = None) -> ExchangeTallies:
    """The tallies of a tree, and so many of the pairs that move it most and least, or all where there are fewer. `place` tells
    where the tree comes from; `names` are in the order of their labels."""
    answer = _library.exchange_tallies(table, _library.work(_library.work_cells(table, table)))
    refused(answer.refusal, table)
    found = ExchangeTallies(tree=place, tips=len(names), tallies=tuple(answer.tallies))
    if pairs is None:
        return found
    every = every_exchange(table, names)
    falling = sorted(every, key=lambda one: -one.distance)
    rising = sorted(every, key=lambda one: one.distance)
    return dataclasses.replace(found, most=tuple(falling[:pairs]), least=tuple(rising[:pairs]))
