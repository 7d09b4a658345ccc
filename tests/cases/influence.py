"""The influence of each name on the distance of two trees, by looking at every set of four.

All that is known of a tree are the names on one side of each edge.
"""
import itertools
from collections.abc import Collection, Iterable, Sequence
from typing import Any

from cases.evidence import case_of
from cases.newick import parting

Sides = Collection[frozenset[str]]
Figures = dict[str, Any]
CASES = ["same", "different", "first_only", "second_only", "neither"]


def figures(cases: list[int]) -> Figures:
    """What is told of sets of four, by the case of each."""
    counts = [cases.count(case) for case in range(5)]
    distance = sum(counts[1:4])
    return {"sets_of_four": len(cases), **dict(zip(CASES, counts)), "distance": distance,
            "normalised_distance": distance / len(cases) if cases else 0.0}


class Fours:
    """The sets of four names in two trees; `names` are in the order of their labels."""

    def __init__(self, first: Sides, second: Sides, names: Sequence[str]) -> None:
        fours = map(frozenset, itertools.combinations(names, 4))
        self.case = {four: case_of(parting(first, four), parting(second, four)) for four in fours}

    def of(self, kept: Iterable[str], held: Iterable[str] = ()) -> Figures:
        """The figures of the sets of four kept names that hold these."""
        kept, held = set(kept), set(held)
        return figures([case for four, case in self.case.items() if held <= four <= kept])

    def rows(self, kept: Sequence[str]) -> list[Figures]:
        """The figures of each kept name, the greatest share first; equal ones stay in the order of their labels."""
        return sorted(({"name": name, **self.of(kept, [name])} for name in kept), key=lambda row: -row["normalised_distance"])

    def dropped(self, kept: Sequence[str], most: int) -> list[Figures]:
        """The figures that are left after each strike of the first row, until nothing differs."""
        if most == 0 or self.of(kept)["distance"] == 0:
            return []
        name = self.rows(kept)[0]["name"]
        left = [one for one in kept if one != name]
        return [{"name": name, "kept": len(left), **self.of(left)}, *self.dropped(left, most - 1)]


def influence(first: Sides, second: Sides, names: Sequence[str], struck: Collection[str] | None = None,
              drop: int | None = None) -> Figures:
    """All that is told of two trees, but for where they come from."""
    fours, kept = Fours(first, second, names), [name for name in names if name not in (struck or ())]
    told = {"tips": len(names), **fours.of(kept), "populations": fours.rows(kept)}
    if drop is not None:
        told["dropped"] = fours.dropped(kept, drop)
    if struck is not None:
        told |= {"kept": len(kept), "struck": [name for name in names if name in struck]}
    return told
