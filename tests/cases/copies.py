"""The canonical copy of the kept part of a tree, from sets of labels or names alone.

All that is known of a tree are the names on one side of each edge. What lies beyond the edges of the kept part, seen from the first
kept name, are sets of which two either lie one within the other or have nothing in common. The copy writes these, each before those
within it.
"""
import re
from collections.abc import Collection, Iterable
from typing import Any

from cases.tables import X, Table, table

# A label or a name; all of one tree are of one kind, and compare.
Name = Any
Part = frozenset[Name]
PLAIN = re.compile("[A-Za-z0-9.-]*[A-Za-z0-9][A-Za-z0-9.-]*")


def kept_parts(sides: Iterable[Part], kept: Collection[Name]) -> set[Part]:
    """The kept names on the one side of each edge that the first of them is not on."""
    every, first = frozenset(kept), min(kept)
    tips = {frozenset([name]) for name in every - {first}}
    return ({every - side if first in side else side & every for side in sides} | tips | {every - {first}}) - {frozenset()}


def kept_splits(sides: Iterable[Part], kept: Collection[Name]) -> set[frozenset[Part]]:
    """The splits of the kept names, two names or more on each side."""
    every = frozenset(kept)
    both = [(side & every, every - side) for side in sides]
    return {frozenset(two) for two in both if min(map(len, two)) >= 2}


def nested(parts: set[Part]) -> dict[Part, list[Part]]:
    """The parts right within each part, in the order of their first names."""
    within: dict[Part, list[Part]] = {part: [] for part in parts}
    for part in sorted(parts, key=min):
        around = [other for other in parts if part < other]
        if around:
            within[min(around, key=len)].append(part)
    return within


def copy_table(sides: Iterable[Part], kept: Collection[Name]) -> Table:
    """The words of the copy: labels are the places among the sorted names that are kept."""
    order, within = sorted(kept), nested(kept_parts(sides, kept))
    parents, labels, ahead = [0], [0], [(frozenset(order[1:]), 0)]
    while ahead:
        part, above = ahead.pop()
        parents.append(above)
        labels.append(X if len(part) > 1 else order.index(*part))
        node = len(parents) - 1
        ahead += [(further, node) for further in reversed(within[part])]
    return table(len(order), len(parents), parents, labels)


def copy_text(sides: Iterable[Part], kept: Collection[str]) -> str:
    """The copy as Newick text: a name is in quotes unless it has letters, digits, points and hyphens alone."""
    within = nested(kept_parts(sides, kept))

    def name(one: str) -> str:
        return one if PLAIN.fullmatch(one) else "'" + one.replace("'", "''") + "'"

    def text(part: Part) -> str:
        return "(" + ",".join(map(text, within[part])) + ")" if len(part) > 1 else name(*part)

    top = frozenset(kept) - {min(kept)}
    return f"({name(min(kept))},{text(top)[1:] if len(top) > 1 else text(top) + ')'};"
