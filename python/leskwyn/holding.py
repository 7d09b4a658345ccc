"""The influence of each tip on the distance of two trees: the sets of four that hold it, and those that are left as the most
influential tips are struck one after the other."""
import dataclasses
import typing
from collections.abc import Sequence

from leskwyn import _library, counting
from leskwyn._library import FiveCounts, Marks, QuartetTable, ViewAnswer, Words
from leskwyn.figures import KeptTips, normalised

# LESKWYN_STRUCK of the header.
STRUCK = 0
CASES = ("same", "different", "first_only", "second_only", "neither")
# In the order of docs/COMMANDS.md.
COUNTED_KEYS = ("sets_of_four", *CASES, "distance", "normalised_distance")
HOLDING_KEYS = ("name", *COUNTED_KEYS)
DROPPED_KEYS = ("name", "kept", *COUNTED_KEYS)
KEYS = ("first", "second", "tips", *COUNTED_KEYS)


@dataclasses.dataclass(frozen=True, kw_only=True)
class Counted:
    """Some sets of four in the five cases of a Comparison."""

    same: int
    different: int
    first_only: int
    second_only: int
    neither: int

    @property
    def sets_of_four(self) -> int:
        """All of these sets: A + B + C + D + E."""
        return self.same + self.distance + self.neither

    @property
    def distance(self) -> int:
        """Those that the trees see differently: B + C + D."""
        return self.different + self.first_only + self.second_only

    @property
    def normalised_distance(self) -> float:
        """The distance over all of these sets, from 0 to 1; 0.0 where there are none."""
        return normalised(self.distance, self.sets_of_four)


@dataclasses.dataclass(frozen=True, kw_only=True)
class Holding(Counted):
    """The sets of four that hold one tip and three other kept ones. The normalised distance is the tip's influence: the share of
    these sets that the trees see differently.

    name   the tip's name, for a comparison file its label
    same, different, first_only, second_only, neither   A to E of these sets

    sets_of_four, distance and normalised_distance follow from these.
    """

    name: str


@dataclasses.dataclass(frozen=True, kw_only=True)
class Dropped(Counted):
    """The sets of four that are left after a tip is struck.

    name   the tip's name, for a comparison file its label
    kept   how many tips are left
    same, different, first_only, second_only, neither   A to E of the sets of four of these

    sets_of_four, distance and normalised_distance follow from these.
    """

    name: str
    kept: int


@dataclasses.dataclass(frozen=True, kw_only=True)
class Influence(Counted, KeptTips):
    """Which tips drive the distance of two trees.

    first, second   where the trees come from, in words
    tips            n, how many populations the trees have, struck ones too
    same, different, first_only, second_only, neither   A to E of all sets of four kept tips
    populations     a Holding for each kept tip: the most influential first, equal ones in the order of their labels
    dropped         a Dropped for each tip that is struck in turn, the most influential of those that are left; None if that is
                    not asked for
    struck          the names that are struck before, in the order of their labels, and for a comparison file their labels; None if
                    none are given

    sets_of_four, distance, normalised_distance and kept follow from these.
    """

    first: str
    second: str
    tips: int
    populations: tuple[Holding, ...]
    dropped: tuple[Dropped, ...] | None = None
    struck: tuple[str, ...] | None = None

    def as_dict(self) -> dict[str, typing.Any]:
        """All of it under its names, in the order of docs/COMMANDS.md. What is dropped is there if that is asked for, and struck
        names if such are given."""
        told = {**under(KEYS, self), "populations": [under(HOLDING_KEYS, one) for one in self.populations]}
        if self.dropped is not None:
            told["dropped"] = [under(DROPPED_KEYS, one) for one in self.dropped]
        if self.struck is not None:
            told |= {"kept": self.kept, "struck": list(self.struck)}
        return told


def under(keys: Sequence[str], counted: Counted) -> dict[str, typing.Any]:
    return {key: getattr(counted, key) for key in keys}


# ---- the library's answers

def cases(answer: QuartetTable | FiveCounts | ViewAnswer) -> dict[str, int]:
    """A to E under their names."""
    return dict(zip(CASES, (answer.a, answer.b, answer.c, answer.d, answer.e)))


def holdings(first: Words, second: Words, marks: Marks, names: Sequence[str]) -> list[Holding]:
    """A Holding for each kept label, the most influential first. All hold equally many sets of four, so the distance decides;
    equal ones stay in the order of their labels."""
    found = []
    for label, name in enumerate(names):
        if marks.cells[label] != STRUCK:
            answer = _library.holding(first, second, marks, label)
            counting.refused(answer.refusal, first, second, marks)
            found.append(Holding(name=name, **cases(answer)))
    return sorted(found, key=lambda one: -one.distance)


def struck_in_turn(first: Words, second: Words, marks: Marks, names: Sequence[str], start: Influence, most: int) -> list[Dropped]:
    """Strikes the most influential label of those that are left, so often at most and as long as there is a distance. The marks
    change, and each count follows from the one before: no table is counted again."""
    found: list[Dropped] = []
    left: Counted = start
    while left.distance and len(found) < most:
        held = holdings(first, second, marks, names) if found else start.populations
        label = names.index(held[0].name)
        answer = _library.change_mark(first, second, marks, list(under(CASES, left).values()), label, STRUCK)
        counting.refused(answer.refusal, first, second, marks)
        left = Dropped(name=names[label], kept=marks.kept(), **cases(answer))
        found.append(left)
    return found


def of_tables(places: tuple[str, str], first: Words, second: Words, names: Sequence[str], struck: Sequence[int] | None = None,
              drop: int | None = None) -> Influence:
    """The influence of each label that is not struck; without names, labels stand for them. `places` tells where the trees come
    from, `drop` how many labels are to be struck in turn."""
    marks = _library.marks(first.cells[0], struck or ())
    table = _library.quartet_table(first, second, marks, _library.work(_library.work_cells(first, second)))
    counting.refused(table.refusal, first, second, marks)
    told = names or [str(label) for label in range(first.cells[0])]
    found = Influence(first=places[0], second=places[1], tips=len(told), **cases(table),
                      populations=tuple(holdings(first, second, marks, told)),
                      struck=None if struck is None else tuple(told[label] for label in struck))
    if drop is None:
        return found
    return dataclasses.replace(found, dropped=tuple(struck_in_turn(first, second, marks, told, found, drop)))
