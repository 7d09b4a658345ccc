"""The figures of two trees."""
import dataclasses
import typing
from math import comb


class KeptTips:
    """Trees on the same tips, some of which may be struck."""

    tips: int
    struck: tuple[str, ...] | None

    @property
    def kept(self) -> int:
        """How many tips are kept: all that are not struck."""
        return self.tips - len(self.struck or ())

    @property
    def sets_of_four(self) -> int:
        """All sets of four kept tips."""
        return comb(self.kept, 4)


@dataclasses.dataclass(frozen=True)
class Comparison(KeptTips):
    """Two trees on the same tips, counted against each other by every set of four tips, and by every set of three under an
    outgroup. If tips are struck, sets of four and splits are of kept tips alone; the triplets count all tips.

    A tree parts four tips two and two if one of its edges has two of them on each side; else it leaves them open. It parts
    three tips two and one if one of its edges has two of them on one side, and the third with the outgroup on the other: if
    the lowest common ancestor of the two is not an ancestor of the third. The letters are those of the field.

    first, second          where the trees come from, in words
    tips                   n, how many populations the trees have, struck ones too
    same                   A: sets of four that both trees part in the same way
    different              B: that the two trees part in different ways
    first_only             C: that only the first tree parts
    second_only            D: that only the second tree parts
    neither                E: that both trees leave open
    distance               the quartet distance, B + C + D
    first_splits           edges of the first tree with two tips or more on each side
    second_splits          those of the second tree
    common_splits          those of both
    robinson_foulds        those of one tree only: first + second - 2 common
    first_claims           S, twice the sets of four that the first tree parts
    second_claims          S', twice those that the second tree parts
    same_claims            S2 = 2 A
    different_claims       S3 = 4 B
    names                  the tips' names in the order of their labels; empty for a comparison file, which has none
    same_triplets          A: sets of three without the outgroup that both trees part in the same way
    different_triplets     B: that the two trees part in different ways
    first_only_triplets    C: that only the first tree parts
    second_only_triplets   D: that only the second tree parts
    neither_triplets       E: that both trees leave open
    triplet_distance       the triplet distance, B + C + D of these
    weight                 p, what a set of four of C or D weighs, from 0.0 to 1.0; None if no weight is given
    weighted_distance      the weighted quartet distance, B + p (C + D), exactly; None if no weight is given
    struck                 the names that are struck, in the order of their labels, and for a comparison file their labels; None if
                           none are given

    sets_of_four, normalised_distance, normalised_robinson_foulds, outgroup, sets_of_three, normalised_triplet_distance,
    normalised_weighted_distance and kept follow from these.
    """

    first: str
    second: str
    tips: int
    same: int
    different: int
    first_only: int
    second_only: int
    neither: int
    distance: int
    first_splits: int
    second_splits: int
    common_splits: int
    robinson_foulds: int
    first_claims: int
    second_claims: int
    same_claims: int
    different_claims: int
    names: tuple[str, ...] = dataclasses.field(default=(), repr=False)
    same_triplets: int = dataclasses.field(kw_only=True)
    different_triplets: int = dataclasses.field(kw_only=True)
    first_only_triplets: int = dataclasses.field(kw_only=True)
    second_only_triplets: int = dataclasses.field(kw_only=True)
    neither_triplets: int = dataclasses.field(kw_only=True)
    triplet_distance: int = dataclasses.field(kw_only=True)
    weight: float | None = dataclasses.field(default=None, kw_only=True)
    weighted_distance: float | None = dataclasses.field(default=None, kw_only=True)
    struck: tuple[str, ...] | None = dataclasses.field(default=None, kw_only=True)

    @property
    def normalised_distance(self) -> float:
        """The distance over all sets of four, from 0 to 1; 0.0 where there is no set of four."""
        return normalised(self.distance, self.sets_of_four)

    @property
    def normalised_robinson_foulds(self) -> float:
        """The Robinson-Foulds distance over the splits of both trees, from 0 to 1; 0.0 where neither has a split."""
        return normalised(self.robinson_foulds, self.first_splits + self.second_splits)

    @property
    def outgroup(self) -> str:
        """The name that the triplets take for the outgroup, that of label 0; empty for a comparison file, which has no names."""
        return self.names[0] if self.names else ""

    @property
    def sets_of_three(self) -> int:
        """All sets of three tips without the outgroup: A + B + C + D + E of the triplets."""
        return comb(self.tips - 1, 3)

    @property
    def normalised_triplet_distance(self) -> float:
        """The triplet distance over all sets of three, from 0 to 1; 0.0 where there is no set of three."""
        return normalised(self.triplet_distance, self.sets_of_three)

    @property
    def normalised_weighted_distance(self) -> float | None:
        """The weighted distance over all sets of four, from 0 to 1; 0.0 where there is no set of four."""
        return None if self.weighted_distance is None else normalised(self.weighted_distance, self.sets_of_four)

    def listing(self) -> str:
        """The six lines that the proved program compare prints. Raises ValueError if tips are struck: the program keeps all."""
        if self.struck:
            raise ValueError("there is no listing of struck tips: the proved program keeps all")
        return (f"leaves {self.tips}\n"
                f"claims {self.first_claims} {self.second_claims} {self.same_claims} {self.different_claims}\n"
                f"quartets {self.same} {self.different} {self.first_only} {self.second_only} {self.neither}\n"
                f"distance {self.distance}\n"
                f"splits {self.first_splits} {self.second_splits} {self.common_splits} {self.robinson_foulds}\n"
                f"triplets {self.same_triplets} {self.different_triplets} {self.first_only_triplets} "
                f"{self.second_only_triplets} {self.neither_triplets}\n")

    def as_dict(self) -> dict[str, typing.Any]:
        """All figures under their names, in the order of docs/COMMANDS.md; names stand in lists. Those of a weight are there if one
        is given, and those of struck names if such are given."""
        return {key: in_lists(getattr(self, key)) for key in keys_of(self)}


def in_lists(value: typing.Any) -> typing.Any:
    """The value with a list for each tuple, as JSON has it."""
    return [in_lists(one) for one in value] if isinstance(value, tuple) else value


def normalised(part: int | float, whole: int) -> float:
    """The part over the whole; 0.0 where there is no whole, and so nothing that differs."""
    return part / whole if whole else 0.0


# In the order of docs/COMMANDS.md, where a new key comes last.
KEYS = ("first", "second", "tips", "sets_of_four", "same", "different", "first_only", "second_only", "neither", "distance",
        "normalised_distance", "first_splits", "second_splits", "common_splits", "robinson_foulds",
        "normalised_robinson_foulds", "first_claims", "second_claims", "same_claims", "different_claims", "names", "outgroup",
        "sets_of_three", "same_triplets", "different_triplets", "first_only_triplets", "second_only_triplets",
        "neither_triplets", "triplet_distance", "normalised_triplet_distance")
WEIGHTED_KEYS = ("weight", "weighted_distance", "normalised_weighted_distance")
STRUCK_KEYS = ("kept", "struck")


def keys_of(comparison: Comparison) -> tuple[str, ...]:
    """The keys of a comparison in their order; those of a weight and of struck names only if such are given."""
    return KEYS + WEIGHTED_KEYS * (comparison.weight is not None) + STRUCK_KEYS * (comparison.struck is not None)
