"""Canonical copies: the kept part of one tree in the one form that all trees with its splits have, and whether two trees are the
same on the kept tips."""
import dataclasses
import typing
from collections.abc import Sequence

from leskwyn import _library, counting
from leskwyn._library import Marks, Words
from leskwyn.tables import RULES, copy_refusal, newick_text


@dataclasses.dataclass(frozen=True, kw_only=True)
class CanonicalCopy:
    """The kept part of a tree as all trees with the same splits of the kept tips have it.

    tree     where the tree comes from, in words
    tips     n, how many populations the tree has, struck ones too
    names    the kept names, sorted; a name's place here, from 0, is its label in the copy
    table    the words of the copy: the number of its tips, m, m parents, m labels. Node 0 is the first name, inner nodes have two
             children or more, and nodes are numbered depth first, children in the order of their smallest label
    struck   the names that are struck, sorted; None if none are given

    kept and newick follow from these.
    """

    tree: str
    tips: int
    names: tuple[str, ...]
    table: tuple[int, ...]
    struck: tuple[str, ...] | None = None

    @property
    def kept(self) -> int:
        """How many tips are kept: all that are not struck."""
        return len(self.names)

    @property
    def newick(self) -> str:
        """The copy as Newick text, with its names: the same text for all trees with the same splits of the kept tips."""
        return newick_text(list(self.table), self.names)


class Sameness(typing.NamedTuple):
    """Whether two trees are the same on the kept tips, how many these are, and the struck names or labels; None if none are
    given."""
    is_same: bool
    kept: int
    struck: tuple[str, ...] | None


# ---- the library's answers

def copied(table: Words, marks: Marks) -> tuple[int, tuple[int, ...]]:
    """The refusal, or 0, and the words of the copy."""
    lent = _library.words([0] * _library.COPY_WORDS)
    answer = _library.canonical_copy(table, marks, lent)
    return answer.refusal, tuple(lent.cells[:answer.words])


def of_table(place: str, table: Words, names: Sequence[str], struck: Sequence[int] | None = None) -> CanonicalCopy:
    """The copy without the labels that are struck, each of which stands once and in its order. `place` tells where the tree comes
    from; `names` are in the order of their labels."""
    marks = _library.marks(table.cells[0], struck or ())
    number, words = copied(table, marks)
    if number:
        raise copy_refusal(number, list(table.cells[:table.count]), marks.cells[:marks.count])
    return CanonicalCopy(tree=place, tips=len(names), table=words,
                         names=tuple(name for name, mark in zip(names, marks.cells) if mark),
                         struck=None if struck is None else tuple(names[label] for label in struck))


def sameness(first: Words, second: Words, struck: Sequence[int] | None = None) -> Sameness:
    """Whether two tables have the same copy without the labels that are struck. They are refused as a pair is: the first table,
    the second with 100 more, then 8, then the marks."""
    marks = _library.marks(first.cells[0], struck or ())
    (one, words), (other, other_words) = copied(first, marks), copied(second, marks)
    of_tables = one if one in RULES else 100 + other if other in RULES else 0
    counting.refused(of_tables or (8 if first.cells[0] != second.cells[0] else one), first, second, marks)
    return Sameness(words == other_words, marks.kept(), None if struck is None else tuple(map(str, struck)))
