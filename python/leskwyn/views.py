"""Views: what a viewer is told of two trees, and of four tips of one tree, where tips above the viewer's level are hidden.

Nothing here tells of a hidden tip, nor where a tree comes from: a path could name one.
"""
import dataclasses
import typing
from collections.abc import Sequence

from leskwyn import _library, counting
from leskwyn._library import MOST_WORD, Words
from leskwyn.errors import Refusal, quoted
from leskwyn.figures import in_lists, normalised
from leskwyn.holding import Counted, cases, under
from leskwyn.labels import tip_named, told_again
from leskwyn.tables import tree_refusal
from leskwyn.trees import repeated

MOST_LEVEL = 3
# The refusals of names that a viewer asks about. All others are of the desk's files.
NOT_SEEN, NOT_DIFFERENT = 10, 11
# In the order of docs/COMMANDS.md.
KEYS = ("visible", "sets_of_four", "same", "different", "first_only", "second_only", "neither", "distance", "normalised_distance",
        "first_splits", "second_splits", "common_splits", "robinson_foulds", "normalised_robinson_foulds", "names")
TOPOLOGY_KEYS = ("names", "topology", "pairs")
Pairs = tuple[tuple[str, str], tuple[str, str]]


@dataclasses.dataclass(frozen=True, kw_only=True)
class View(Counted):
    """What a viewer is told of two trees: the figures of the visible tips, as if the hidden ones were cut off both trees.

    visible           how many tips are visible
    same, different, first_only, second_only, neither   A to E of all sets of four visible tips
    first_splits      splits of visible tips of the first tree
    second_splits     those of the second tree
    common_splits     those of both
    robinson_foulds   those of one tree only
    names             the visible names, sorted

    sets_of_four, distance, normalised_distance and normalised_robinson_foulds follow from these.
    """

    visible: int
    first_splits: int
    second_splits: int
    common_splits: int
    robinson_foulds: int
    names: tuple[str, ...]

    @property
    def normalised_robinson_foulds(self) -> float:
        """The Robinson-Foulds distance over the splits of both trees, from 0 to 1; 0.0 where neither has a split."""
        return normalised(self.robinson_foulds, self.first_splits + self.second_splits)

    def as_dict(self) -> dict[str, typing.Any]:
        """All of it under its names, in the order of docs/COMMANDS.md; names stand in a list."""
        return {key: in_lists(value) for key, value in under(KEYS, self).items()}


@dataclasses.dataclass(frozen=True, kw_only=True)
class Topology:
    """How a tree parts four visible tips.

    names   the four names, sorted
    pairs   the four two and two, the pair with the first name first; None if the tree leaves them open

    topology follows from these.
    """

    names: tuple[str, ...]
    pairs: Pairs | None

    @property
    def topology(self) -> str:
        """'butterfly' if the tree parts them two and two, else 'star'."""
        return "star" if self.pairs is None else "butterfly"

    def as_dict(self) -> dict[str, typing.Any]:
        """All of it under its names, in the order of docs/COMMANDS.md; names stand in lists."""
        return {key: in_lists(getattr(self, key)) for key in TOPOLOGY_KEYS}


# ---- the library's answers

def wrong_levels(names: Sequence[str], levels: Sequence[int], viewer: int) -> Refusal:
    """The refusal 37. It is the desk's, and names the tip."""
    for name, level in zip(names, levels):
        if not 0 <= level <= MOST_LEVEL:
            return Refusal(f"the level of {quoted(name)} is {level}, not 0 to {MOST_LEVEL}", 37)
    return Refusal(f"the viewer's level is {viewer}, not 0 to {MOST_LEVEL}", 37)


def visible_names(names: Sequence[str], levels: Sequence[int], viewer: int) -> list[str]:
    return [name for name, level in zip(names, levels) if level <= viewer]


def of_tables(first: Words, second: Words, names: Sequence[str], levels: Sequence[int], viewer: int) -> View:
    """What a viewer of that level is told of two tables; `names` and `levels` are in the order of the labels."""
    lent = _library.work(_library.work_cells(first, second))
    answer = _library.view(first, second, _library.levels(levels), viewer, lent)
    if answer.refusal == 37:
        raise wrong_levels(names, levels, viewer)
    counting.refused(answer.refusal, first, second)
    return View(visible=answer.visible, **cases(answer), first_splits=answer.first_splits, second_splits=answer.second_splits,
                common_splits=answer.common_splits, robinson_foulds=answer.robinson_foulds,
                names=tuple(visible_names(names, levels, viewer)))


def refused(number: int, table: Words, names: Sequence[str], levels: Sequence[int], viewer: int, asked: list[str]) -> None:
    """Raises the refusal that the library tells, with its reason. The words of 10 are the same for hidden and unknown names, and
    repeat none of them; with 11 all names are visible."""
    if number == 37:
        raise wrong_levels(names, levels, viewer)
    if number == NOT_SEEN:
        raise Refusal("not all of the four names are populations that this viewer sees", number)
    if number == NOT_DIFFERENT:
        raise Refusal(told_again(repeated(asked), "four"), number)
    if number:
        raise tree_refusal(number, list(table.cells[:table.count]))


def topology(table: Words, names: Sequence[str], levels: Sequence[int], viewer: int, words: Sequence[str]) -> Topology:
    """How a table parts four visible tips. Words are looked up among the visible names alone, so that a hidden name, like one that
    does not exist, is no label of the table; and no hidden name takes a word away from a visible one."""
    seen = visible_names(names, levels, viewer)
    found = [tip_named(word, seen) for word in words]
    labels = [MOST_WORD if name is None else names.index(name) for name in found]
    answer = _library.view_topology(table, _library.levels(levels), viewer, labels)
    refused(answer.refusal, table, names, levels, viewer, [name for name in found if name is not None])
    four = sorted(labels)
    return Topology(names=tuple(names[label] for label in four),
                    pairs=pairs_of(four, answer.partner, names) if answer.butterfly else None)


def pairs_of(four: Sequence[int], partner: int, names: Sequence[str]) -> Pairs:
    """Four labels in their order two and two, by the partner of the smallest."""
    c, d = (names[label] for label in four[1:] if label != partner)
    return (names[four[0]], names[partner]), (c, d)
