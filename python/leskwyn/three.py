"""Three trees side by side: the sets of four of each two of them, their distances, and which two are closest."""
import dataclasses
import itertools
import typing
from collections.abc import Sequence

from leskwyn import _library, counting
from leskwyn._library import Marks, Words
from leskwyn.counting import Number
from leskwyn.figures import STRUCK_KEYS, KeptTips, in_lists, normalised
from leskwyn.holding import CASES, Counted, cases
from leskwyn.tables import ORDINALS
from leskwyn.weights import Weight

# The least weight with which no way through a third tree is shorter than the direct one, whatever the trees.
TRIANGLE_WEIGHT = 0.5
# In the order of docs/COMMANDS.md.
KEYS = ("first", "second", "third", "tips", "sets_of_four", "pairs", "closest")
PAIR_KEYS = ("pair", *CASES, "distance", "normalised_distance")
WEIGHTED_PAIR_KEYS = ("weighted_distance", "normalised_weighted_distance")
Two = tuple[str, str]


@dataclasses.dataclass(frozen=True, kw_only=True)
class TreePair(Counted):
    """Two of three trees.

    pair                which two, as ('first', 'third')
    same, different, first_only, second_only, neither   A to E of all sets of four kept tips; C are those that only the first of
                        the two parts, D those that only the second does
    weighted_distance   B + p (C + D), exactly; None if no weight is given

    sets_of_four, distance, normalised_distance and normalised_weighted_distance follow from these.
    """

    pair: Two
    weighted_distance: float | None = None

    @property
    def normalised_weighted_distance(self) -> float | None:
        """The weighted distance over all sets of four, from 0 to 1; 0.0 where there is no set of four."""
        return None if self.weighted_distance is None else normalised(self.weighted_distance, self.sets_of_four)

    def as_dict(self) -> dict[str, typing.Any]:
        """All of it under its names, in the order of docs/COMMANDS.md. What comes of a weight is there if one is given."""
        keys = PAIR_KEYS + WEIGHTED_PAIR_KEYS * (self.weighted_distance is not None)
        return {key: in_lists(getattr(self, key)) for key in keys}


def length(pair: TreePair) -> Number:
    """The distance by which pairs are held to each other: the weighted one if a weight is given."""
    return pair.distance if pair.weighted_distance is None else pair.weighted_distance


@dataclasses.dataclass(frozen=True, kw_only=True)
class ThreeTrees(KeptTips):
    """Three trees on the same tips, side by side.

    first, second, third   where the trees come from, in words
    tips     n, how many populations the trees have, struck ones too
    pairs    a TreePair for the first and the second tree, the first and the third, the second and the third
    weight   p, what a set of four of C or D weighs, from 0.0 to 1.0; None if no weight is given
    struck   the names that are struck from all three, sorted; None if none are given

    kept, sets_of_four and closest follow from these.
    """

    first: str
    second: str
    third: str
    tips: int
    pairs: tuple[TreePair, ...]
    weight: float | None = None
    struck: tuple[str, ...] | None = None

    @property
    def closest(self) -> tuple[Two, ...]:
        """The two trees with the least distance, the least weighted one if a weight is given; several twos if they are equal."""
        least = min(map(length, self.pairs))
        return tuple(one.pair for one in self.pairs if length(one) == least)

    def as_dict(self) -> dict[str, typing.Any]:
        """All of it under its names, in the order of docs/COMMANDS.md; names stand in lists. The weight is there if one is given,
        and so are struck names."""
        keys = KEYS + ("weight",) * (self.weight is not None) + STRUCK_KEYS * (self.struck is not None)
        return {key: in_lists(getattr(self, key)) for key in keys} | {"pairs": [one.as_dict() for one in self.pairs]}


# ---- the library's answers

def pair_of(pair: Two, first: Words, second: Words, marks: Marks, weight: Weight | None) -> TreePair:
    """Two of the trees, counted once; the weighted distance if there is a weight."""
    lent = _library.work(_library.work_cells(first, second))
    table = _library.quartet_table(first, second, marks, lent)
    counting.refused(table.refusal, first, second, marks)
    weighted = None if weight is None else counting.weighted_by(weight)(first, second, marks, lent, False)
    return TreePair(pair=pair, **cases(table), weighted_distance=weighted)


def of_tables(places: Sequence[str], tables: Sequence[Words], names: Sequence[str], weight: Weight | None = None,
              struck: Sequence[int] | None = None) -> ThreeTrees:
    """Three tables side by side. `places` tells where the trees come from; `struck` are the labels that are struck, each once and
    in their order."""
    marks = _library.marks(len(names), struck or ())
    pairs = tuple(pair_of((ORDINALS[i], ORDINALS[j]), tables[i], tables[j], marks, weight)
                  for i, j in itertools.combinations(range(3), 2))
    return ThreeTrees(first=places[0], second=places[1], third=places[2], tips=len(names), pairs=pairs,
                      weight=None if weight is None else weight.fraction,
                      struck=None if struck is None else tuple(names[label] for label in struck))
