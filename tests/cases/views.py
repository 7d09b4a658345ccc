"""What a viewer may see of two trees, and of four names of one, by looking at every set of four visible names.

All that is known of a tree are the names on one side of each edge.
"""
import random
from collections.abc import Collection, Sequence
from typing import Any

from cases.copies import kept_splits
from cases.influence import Fours
from cases.newick import Tree, parting

Sides = Collection[frozenset[str]]
Levels = dict[str, int]
Told = dict[str, Any]


def visible(levels: Levels, viewer: int) -> list[str]:
    return sorted(name for name, level in levels.items() if level <= viewer)


def view(first: Sides, second: Sides, levels: Levels, viewer: int) -> Told:
    """All that is told of two trees."""
    names = visible(levels, viewer)
    one, other = (kept_splits(sides, names) for sides in (first, second))
    every = len(one) + len(other)
    return {"visible": len(names), **Fours(first, second, names).of(names), "first_splits": len(one), "second_splits": len(other),
            "common_splits": len(one & other), "robinson_foulds": len(one ^ other),
            "normalised_robinson_foulds": len(one ^ other) / every if every else 0.0, "names": names}


def topology(sides: Sides, four: Collection[str]) -> Told:
    """All that is told of four names of a tree."""
    pairs = parting(sides, frozenset(four))
    return {"names": sorted(four), "topology": "butterfly" if pairs else "star", "pairs": pairs and sorted(map(sorted, pairs))}


def with_tips(rng: random.Random, tree: Tree, names: Sequence[str]) -> Tree:
    """The tree with more tips, each joined to an inner node or to the midst of an edge. The tips that were there stay parted
    as they were."""
    more = Tree([])
    more.name = dict(tree.name)
    more.joined = {node: set(others) for node, others in tree.joined.items()}
    for name in names:
        tip, node = max(more.joined) + 1, rng.choice([node for node in more.joined if node not in more.name])
        if rng.random() < 0.7:
            a, b = rng.choice(more.edges())
            node = tip + 1
            more.part(a, b)
            more.join(a, node)
            more.join(node, b)
        more.join(tip, node)
        more.name[tip] = name
    return more
