"""How far exchanges of two names move a tree, by looking at every set of four.

All that is known of a tree are the names on one side of each edge. Two names are exchanged on all of them.
"""
import itertools
from collections.abc import Collection, Sequence
from math import comb
from typing import Any

from cases.newick import parting
from cases.tables import P, Q, THREE, TWO, W

# A label or a name.
Name = Any
Sides = Collection[frozenset[Name]]
Told = dict[str, Any]

# By hand. P is (0,1,(2,(3,4))): 0 and 1 move nothing, and neither do 3 and 4; 2 and another move 2 of the 5 sets of four, and two
# others move all. Q is (0,1,(2,3,4)): two from either side move 4, and two from one side nothing. In a star nothing moves.
REFERENCE_TALLIES = [(P, [2, 0, 0, 0, 4, 0, 0, 0, 0, 0, 4]), (Q, [4, 0, 0, 0, 0, 0, 0, 0, 6, 0, 0]), (W, [10] + [0] * 10),
                     (TWO, [1] + [0] * 10), (THREE, [3] + [0] * 10)]


def exchanged(sides: Sides, x: Name, y: Name) -> list[frozenset[Name]]:
    names = {x: y, y: x}
    return [frozenset(names.get(name, name) for name in side) for side in sides]


def exchange_distance(sides: Sides, names: Sequence[Name], x: Name, y: Name) -> int:
    """How many sets of four the tree parts differently with two names exchanged."""
    others = exchanged(sides, x, y)
    return sum(parting(sides, four) != parting(others, four) for four in map(frozenset, itertools.combinations(names, 4)))


def exchange_distances(sides: Sides, names: Sequence[Name]) -> dict[tuple[Name, Name], int]:
    """The distance of each two names, which are in the order of their labels."""
    return {two: exchange_distance(sides, names, *two) for two in itertools.combinations(names, 2)}


def tally_of(distance: int, sets_of_four: int) -> int:
    """Tally t begins at t tenths of all sets of four; the last that begins at the distance or before has it."""
    return max(t for t in range(11) if t * sets_of_four <= 10 * distance) if sets_of_four else 0


def tallies(distances: Collection[int], sets_of_four: int) -> list[int]:
    held = [tally_of(distance, sets_of_four) for distance in distances]
    return [held.count(tally) for tally in range(11)]


def bounds(sets_of_four: int) -> list[list[int] | None]:
    """The first and the last of the distances that fall in each tally, None for none."""
    held = [[one for one in range(sets_of_four + 1) if tally_of(one, sets_of_four) == tally] for tally in range(11)]
    return [[one[0], one[-1]] if one else None for one in held]


def exchanges(sides: Sides, names: Sequence[str], pairs: int | None = None) -> Told:
    """All that is told of a tree, but for where it comes from; `names` are in the order of their labels."""
    distances, sets_of_four = exchange_distances(sides, names), comb(len(names), 4)
    rows = [{"name": x, "other": y, "distance": distance,
             "normalised_distance": distance / sets_of_four if sets_of_four else 0.0} for (x, y), distance in distances.items()]
    told = {"tips": len(names), "sets_of_four": sets_of_four, "exchanges": len(rows),
            "tallies": tallies(distances.values(), sets_of_four), "bounds": bounds(sets_of_four)}
    if pairs is None:
        return told
    order = sorted(range(len(rows)), key=lambda at: (rows[at]["distance"], at))
    back = sorted(range(len(rows)), key=lambda at: (-rows[at]["distance"], at))
    return told | {"most": [rows[at] for at in back[:pairs]], "least": [rows[at] for at in order[:pairs]]}
