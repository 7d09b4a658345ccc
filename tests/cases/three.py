"""Three trees side by side, by looking at every set of four kept names in each two of them.

All that is known of a tree are the names on one side of each edge. Distances are held to each other as fractions.
"""
import itertools
from collections.abc import Collection, Sequence
from fractions import Fraction
from typing import Any

from cases.evidence import case_of
from cases.influence import CASES
from cases.newick import parting

Sides = Collection[frozenset[str]]
Told = dict[str, Any]
TREES = ["first", "second", "third"]
COLUMNS = ["pair", "first", "second", "tips", "sets_of_four", *CASES, "distance", "normalised_distance", "closest"]
WEIGHTED_COLUMNS = ["weight", "weighted_distance", "normalised_weighted_distance"]
STRUCK_COLUMNS = ["kept", "struck"]


def counts_of(first: Sides, second: Sides, kept: Collection[str]) -> list[int]:
    """A to E of the sets of four kept names."""
    cases = [case_of(parting(first, four), parting(second, four)) for four in map(frozenset, itertools.combinations(kept, 4))]
    return [cases.count(case) for case in range(5)]


def distance_of(counts: Sequence[int], weight: Fraction | None) -> Fraction:
    """B + p (C + D), where p is 1 if there is no weight."""
    return counts[1] + (Fraction(1) if weight is None else weight) * (counts[2] + counts[3])


def pair_told(pair: Sequence[str], counts: Sequence[int], weight: Fraction | None) -> Told:
    def over_all(number: int | float) -> float:
        return number / sum(counts) if sum(counts) else 0.0
    distance, weighted = int(distance_of(counts, None)), float(distance_of(counts, weight))
    told = {"pair": list(pair), **dict(zip(CASES, counts)), "distance": distance, "normalised_distance": over_all(distance)}
    return told if weight is None else told | {"weighted_distance": weighted, "normalised_weighted_distance": over_all(weighted)}


def three(trees: Sequence[Sides], names: Collection[str], weight: Fraction | None = None,
          struck: Collection[str] | None = None) -> Told:
    """All that is told of three trees, but for where they come from."""
    kept = sorted(set(names) - set(struck or ()))
    counts = {two: counts_of(trees[two[0]], trees[two[1]], kept) for two in ((0, 1), (0, 2), (1, 2))}
    distances = {two: distance_of(counts[two], weight) for two in counts}
    pairs = {two: [TREES[at] for at in two] for two in counts}
    told = {"tips": len(names), "sets_of_four": len(list(itertools.combinations(kept, 4))),
            "pairs": [pair_told(pairs[two], counts[two], weight) for two in counts],
            "closest": [pairs[two] for two in counts if all(distances[two] <= other for other in distances.values())]}
    if weight is not None:
        told["weight"] = float(weight)
    if struck is not None:
        told |= {"kept": len(kept), "struck": sorted(set(struck))}
    return told


def rows(told: Told) -> list[Told]:
    """A row for each pair; `told` has the places of the trees."""
    found = []
    for pair in told["pairs"]:
        first, second = pair["pair"]
        row = {**told, **pair, "pair": f"{first},{second}", "first": told[first], "second": told[second],
               "closest": "yes" if [first, second] in told["closest"] else "no"}
        columns = COLUMNS + WEIGHTED_COLUMNS * ("weight" in told) + STRUCK_COLUMNS * ("struck" in told)
        found.append({column: row[column] for column in columns})
    return found
