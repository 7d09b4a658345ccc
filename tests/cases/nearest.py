"""The tree nearest to all of several, by looking at every set of four kept names in each two of them.

All that is known of a tree are the names on one side of each edge. A set of four counts in the distance of two trees if they do not
part it alike.
"""
import itertools
from collections.abc import Collection, Sequence
from typing import Any

from cases.newick import parting

Sides = Collection[frozenset[str]]
Told = dict[str, Any]
# How many trees one call of the library takes.
MOST_TREES = 16
COLUMNS = ["position", "tree", "sum", "mean_normalised_distance", "nearest", "tips", "sets_of_four", "counted_by"]
STRUCK_COLUMNS = ["kept", "struck"]


def sums_of(trees: Sequence[Sides], names: Collection[Any]) -> list[int]:
    """The distances of each tree to all trees, added up."""
    fours = list(map(frozenset, itertools.combinations(names, 4)))
    parted = [[parting(sides, four) for four in fours] for sides in trees]
    return [sum(a != b for other in parted for a, b in zip(one, other)) for one in parted]


def nearest(places: Sequence[str], trees: Sequence[Sides], names: Collection[str], struck: Collection[str] | None = None) -> Told:
    """All that is told of two trees or more; of equal sums the earliest tree is named."""
    kept = sorted(set(names) - set(struck or ()))
    sums, fours = sums_of(trees, kept), len(list(itertools.combinations(kept, 4)))
    rows = [{"tree": place, "sum": one, "mean_normalised_distance": one / ((len(trees) - 1) * fours) if fours else 0.0}
            for place, one in zip(places, sums, strict=True)]
    least, *others = [at for at, one in enumerate(sums) if all(one <= other for other in sums)]
    told = {**rows[least], "as_near": others, "tips": len(names), "sets_of_four": fours, "rows": rows,
            "counted_by": "leskwyn_nearest" if len(trees) <= MOST_TREES and not struck else "pairs"}
    told = {"tree": told.pop("tree"), "position": least, **told}
    return told if struck is None else told | {"kept": len(kept), "struck": sorted(set(struck))}


def table_rows(told: Told) -> list[Told]:
    """A row for each tree, as a table has it."""
    columns = COLUMNS + STRUCK_COLUMNS * ("struck" in told)
    rows = [{**told, **row, "position": at, "nearest": "yes" if at == told["position"] else "no"}
            for at, row in enumerate(told["rows"])]
    return [{column: row[column] for column in columns} for row in rows]
