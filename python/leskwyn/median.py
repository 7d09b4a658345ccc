"""The tree nearest to all of several, their median tree: the one with the least summed quartet distance, and that sum of each."""
import dataclasses
import typing
from collections.abc import Sequence
from math import comb

from leskwyn import _library, counting
from leskwyn.counting import Progress
from leskwyn.errors import Refusal, Trouble, counted
from leskwyn.figures import STRUCK_KEYS, KeptTips, in_lists, normalised
from leskwyn.trees import Table

# How many trees the library's call takes. It counts all labels.
FEWEST_TREES, MOST_TREES = 2, 16
# What tells which tree it is.
BY_CALL, BY_PAIRS = "leskwyn_nearest", "pairs"
# In the order of docs/COMMANDS.md.
KEYS = ("tree", "position", "sum", "mean_normalised_distance", "as_near", "tips", "sets_of_four", "rows", "counted_by")


@dataclasses.dataclass(frozen=True, kw_only=True)
class TreeSum:
    """One of several trees.

    tree                       where it comes from, in words
    sum                        its quartet distances to all trees, added up
    mean_normalised_distance   the mean of its normalised distances to the other trees, from 0 to 1; 0.0 where there are no sets of
                               four
    """

    tree: str
    sum: int
    mean_normalised_distance: float


ROW_KEYS = tuple(field.name for field in dataclasses.fields(TreeSum))


@dataclasses.dataclass(frozen=True, kw_only=True)
class NearestTree(KeptTips):
    """The tree with the least summed quartet distance to all of several trees on the same tips.

    position     which it is, from 0; of equal sums the earliest
    sum          its quartet distances to all trees, added up
    rows         a TreeSum for each tree, in their order
    tips         n, how many populations the trees have, struck ones too
    counted_by   'leskwyn_nearest' if the library tells position and sum in one call, and the pairs agree; 'pairs' if the pairs
                 alone tell them
    struck       the names that are struck from all trees, sorted; None if none are given

    tree, mean_normalised_distance, as_near, kept and sets_of_four follow from these.
    """

    position: int
    sum: int
    rows: tuple[TreeSum, ...]
    tips: int
    counted_by: str
    struck: tuple[str, ...] | None = None

    @property
    def tree(self) -> str:
        """Where the tree comes from, in words."""
        return self.rows[self.position].tree

    @property
    def mean_normalised_distance(self) -> float:
        """The mean of its normalised distances to the other trees."""
        return self.rows[self.position].mean_normalised_distance

    @property
    def as_near(self) -> tuple[int, ...]:
        """The positions of the other trees with the same sum; all come later."""
        return tuple(at for at, one in enumerate(self.rows) if one.sum == self.sum and at != self.position)

    def as_dict(self) -> dict[str, typing.Any]:
        """All of it under its names, in the order of docs/COMMANDS.md, with lists for tuples. Struck names are there if some are
        given."""
        keys = KEYS + STRUCK_KEYS * (self.struck is not None)
        return {key: in_lists(getattr(self, key)) for key in keys} | {"rows": [dataclasses.asdict(one) for one in self.rows]}


# ---- the library's answers

class Least(typing.NamedTuple):
    """The position of the tree with the least sum, and that sum."""
    position: int
    sum: int


def check_enough(count: int) -> None:
    if count < FEWEST_TREES:
        raise Refusal(f"{counted(count, 'tree')}; two or more are needed", 38)


def least_by_call(tables: Sequence[Table]) -> Least:
    """As the library tells it of a shelf of trees."""
    shelf = _library.words([len(tables), *(word for table in tables for word in table)])
    most = max(table[1] for table in tables)
    answer = _library.nearest(shelf, _library.work((most - 1) ** 2))
    if answer.refusal:
        raise Refusal("the library refuses the trees, and README.md, 'Refusals', has the number", answer.refusal)
    return Least(answer.position, answer.sum)


def least_of(sums: Sequence[int]) -> Least:
    """Of equal sums the earliest."""
    return Least(sums.index(min(sums)), min(sums))


def of_tables(places: Sequence[str], tables: Sequence[Table], names: Sequence[str], jobs: int, progress: Progress | None = None,
              struck: Sequence[int] | None = None) -> NearestTree:
    """The nearest of two tables or more. `places` tells where the trees come from; `struck` are the labels that are struck, each
    once and in their order. The sums come from the pairs. Where the library's call can tell the least of them, it does, and both
    must agree."""
    has_call = len(tables) <= MOST_TREES and not struck
    told = least_by_call(tables) if has_call else None
    square = counting.distances(tables, "quartet", False, jobs, progress, struck=struck)
    sums = [sum(map(int, row)) for row in square]
    least = least_of(sums)
    if told is not None and told != least:
        raise Trouble(f"internal error: leskwyn_nearest tells position {told.position} and the sum {told.sum}, and the pairs tell "
                      f"position {least.position} and the sum {least.sum}")
    whole = (len(tables) - 1) * comb(len(names) - len(struck or ()), 4)
    rows = tuple(TreeSum(tree=place, sum=one, mean_normalised_distance=normalised(one, whole))
                 for place, one in zip(places, sums, strict=True))
    return NearestTree(position=least.position, sum=least.sum, rows=rows, tips=len(names),
                       counted_by=BY_CALL if has_call else BY_PAIRS,
                       struck=None if struck is None else tuple(names[label] for label in struck))
