"""The evidence for four tips in two trees: how each tree parts them, by which edge, or at which node they meet."""
import dataclasses
import typing
from collections.abc import Iterable, Sequence

from leskwyn import _library, counting
from leskwyn._library import Words
from leskwyn.errors import Refusal
from leskwyn.figures import in_lists
from leskwyn.tables import labels_of, parents_of
from leskwyn.trees import INNER, Table, repeated

CASES = "ABCDE"
Names = tuple[str, ...]


@dataclasses.dataclass(frozen=True)
class Witness:
    """What shows how one tree parts four tips.

    pairs   the four two and two, as the edge has them on its sides; None if the tree leaves them open
    edge    the edge that parts them, of several the lowest-numbered one: edge i joins node i and its parent; None for a node
    node    the node where the paths between the four meet; None for an edge
    parts   all names, as the tree falls apart if the edge or the node is taken away: the two sides of the edge in the order of
            the pairs, or the branches at the node, those of the four first

    Edges and nodes have the numbers of the tree's table, which `leskwyn table` writes and `leskwyn show` prints.
    """

    pairs: tuple[Names, Names] | None
    edge: int | None
    node: int | None
    parts: tuple[Names, ...]


@dataclasses.dataclass(frozen=True)
class Evidence:
    """Why two trees part four tips alike or differently.

    first, second   where the trees come from, in words
    names           the four names; all names here stand in the order of their labels, and are labels for a comparison file
    case            A: both trees part them, in the same way; B: in different ways; C: only the first tree parts them; D: only
                    the second; E: both leave them open
    first_tree      what shows it in the first tree, a Witness
    second_tree     in the second
    """

    first: str
    second: str
    names: Names
    case: str
    first_tree: Witness
    second_tree: Witness

    def as_dict(self) -> dict[str, typing.Any]:
        """All of it under its names, in the order of docs/COMMANDS.md; names stand in lists."""
        return dataclasses.asdict(self, dict_factory=lambda fields: {key: in_lists(value) for key, value in fields})


# ---- what is left of a tree with an edge or a node taken away

def labels_beyond(table: Table) -> list[set[int]]:
    """The labels beyond each edge of a checked table. Children have greater numbers, so the last node comes first."""
    parents = parents_of(table)
    beyond = [set() if label == INNER else {label} for label in labels_of(table)]
    for node in range(len(parents) - 1, 0, -1):
        beyond[parents[node]] |= beyond[node]
    return beyond


def parts_of(table: Table, is_edge: bool, number: int) -> list[set[int]]:
    """The labels of each part."""
    beyond, every = labels_beyond(table), set(range(table[0]))
    away = [node for node, parent in enumerate(parents_of(table)) if node > 0 and parent == number]
    inside = [beyond[number]] if is_edge else [beyond[node] for node in away]
    return [every - beyond[number], *inside]


def witness(table: Table, is_edge: bool, number: int, four: Sequence[int], names: Sequence[str]) -> Witness:
    def named(labels: Iterable[int]) -> Names:
        return tuple(names[label] for label in sorted(labels))

    def place(part: set[int]) -> tuple[bool, int]:
        return (not part & held, min(part & held or part))

    held = set(four)
    parts = sorted(parts_of(table, is_edge, number), key=place)
    pairs = (named(parts[0] & held), named(parts[1] & held)) if is_edge else None
    return Witness(pairs, number if is_edge else None, None if is_edge else number, tuple(map(named, parts)))


# ---- the library's answer

def refused(number: int, first: Words, second: Words, labels: Sequence[int]) -> None:
    """Raises the refusal that the library tells, with its reason."""
    tips = first.cells[0]
    if number == 10:
        wrong = ", ".join(str(label) for label in dict.fromkeys(labels) if label >= tips)
        raise Refusal(f"there is no label {wrong}: the labels are 0 to {tips - 1}", number)
    if number == 11:
        again = ", ".join(repeated(list(map(str, labels))))
        raise Refusal(f"label {again} stands more than once; four different ones are needed", number)
    counting.refused(number, first, second)


def of_labels(places: tuple[str, str], first: Table, second: Table, labels: Sequence[int], names: Sequence[str]) -> Evidence:
    """The evidence for four labels; without names, labels stand for them. `places` tells where the trees come from."""
    words = _library.words(first), _library.words(second)
    answer = _library.evidence(*words, labels)
    refused(answer.refusal, *words, labels)
    told, four = names or [str(label) for label in range(first[0])], sorted(labels)
    return Evidence(
        first=places[0], second=places[1], names=tuple(told[label] for label in four), case=CASES[answer.which],
        first_tree=witness(first, bool(answer.first_edge), answer.first_number, four, told),
        second_tree=witness(second, bool(answer.second_edge), answer.second_number, four, told))
