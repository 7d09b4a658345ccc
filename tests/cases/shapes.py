"""Trees of many shapes: stars, caterpillars, balanced and random trees, trees with pass-through nodes, and pairs of trees that
share splits."""
import random
from collections import Counter
from collections.abc import Sequence
from typing import Any

from cases.tables import X, Table, table

# A tree beyond an edge: a label, or a list of such trees.
Nested = Any


def star(n: int) -> Table:
    return table(n, n + 1, [0, 0] + [1] * (n - 1), [0, X, *range(1, n)])


def caterpillar(n: int) -> Table:
    parents, labels, at = [0, 0], [0, X], 1
    for x in range(1, n - 2):
        parents += [at, at]
        labels += [x, X]
        at = len(parents) - 1
    return table(n, 2 * n - 2, parents + [at, at], labels + [n - 2, n - 1])


def balanced(n: int) -> Table:
    """Tip 0 above a tree that is halved until single tips are left; nodes numbered level by level."""
    parents, labels, level = [0], [0], [(0, list(range(1, n)))]
    while level:
        below = []
        for above, tips in level:
            parents.append(above)
            labels.append(tips[0] if len(tips) == 1 else X)
            if len(tips) > 1:
                half = len(tips) // 2
                below += [(len(parents) - 1, tips[:half]), (len(parents) - 1, tips[half:])]
        level = below
    return table(n, len(parents), parents, labels)


# ---- one tree from another

def shuffled(rng: random.Random, t: Table) -> Table:
    """The same shape with the labels other than 0 in another order."""
    m = t[1]
    order = list(range(1, t[0]))
    rng.shuffle(order)
    return t[:2 + m] + [label if label in (0, X) else order[label - 1] for label in t[2 + m:]]


def with_labels_exchanged(t: Table, a: int, b: int) -> Table:
    m = t[1]
    return t[:2 + m] + [{a: b, b: a}.get(label, label) for label in t[2 + m:]]


def exchanged(rng: random.Random, t: Table) -> Table:
    """The same shape with two labels exchanged: most splits stay."""
    a, b = rng.sample(range(1, t[0]), 2)
    return with_labels_exchanged(t, a, b)


def renumbered(t: Table) -> Table:
    """The same tree with its nodes in another numbering: the last child first."""
    m, order, todo = t[1], [0], [1]
    while todo:
        node = todo.pop()
        order.append(node)
        todo += [i for i in range(2, m) if t[2 + i] == node]
    at = {node: i for i, node in enumerate(order)}
    return t[:2] + [at[t[2 + node]] for node in order] + [t[2 + m + node] for node in order]


def nested(t: Table, v: int = 1) -> Nested:
    """The tree beyond an edge."""
    m = t[1]
    if t[2 + m + v] != X:
        return t[2 + m + v]
    return [nested(t, w) for w in range(2, m) if t[2 + w] == v]


def numbered(rng: random.Random, n: int, tree: Nested) -> Table:
    """A table of a nested tree, its nodes in a random numbering that keeps the rules."""
    parents, labels, ready = [0], [0], [(0, tree)]
    while ready:
        above, part = ready.pop(rng.randrange(len(ready)))
        inner = isinstance(part, list)
        parents.append(above)
        labels.append(X if inner else part)
        if inner:
            ready += [(len(parents) - 1, further) for further in part]
    return table(n, len(parents), parents, labels)


def contracted(rng: random.Random, tree: Nested, chance: float) -> Nested:
    """Some inner edges taken away."""
    if not isinstance(tree, list):
        return tree
    parts: list[Nested] = []
    for part in tree:
        part = contracted(rng, part, chance)
        parts += part if isinstance(part, list) and rng.random() < chance else [part]
    return parts


def resolved(rng: random.Random, tree: Nested, chance: float) -> Nested:
    """Some inner edges added, between two children and the rest."""
    if not isinstance(tree, list):
        return tree
    parts = [resolved(rng, part, chance) for part in tree]
    while len(parts) > 2 and rng.random() < chance:
        parts = rng.sample(parts, len(parts))
        parts = parts[2:] + [parts[:2]]
    return parts


# ---- pass-through nodes

def with_chains(rng: random.Random, t: Table, above: Sequence[int]) -> Table:
    """The tree with a pass-through node above each node of `above`, a chain above one that stands there several times. Its nodes
    are in a random numbering that keeps the rules."""
    chains = Counter(above)

    def part(v: int) -> Nested:
        m = t[1]
        tree = t[2 + m + v] if t[2 + m + v] != X else [part(w) for w in range(2, m) if t[2 + w] == v]
        for _ in range(chains[v]):
            tree = [tree]
        return tree

    return numbered(rng, t[0], part(1))


def chained(rng: random.Random, t: Table, m: int) -> Table:
    """The tree with pass-through nodes above some of its nodes, m nodes in all."""
    some = rng.sample(range(1, t[1]), rng.randint(1, t[1] - 1))
    return with_chains(rng, t, rng.choices(some, k=m - t[1]))


def chain_places(t: Table) -> set[str]:
    """Where pass-through nodes stand: at node 1, and above a tip, another inner node or, in a chain, one of themselves."""
    m = t[1]
    parents, labels = t[2:2 + m], t[2 + m:]
    passing = {v for v in range(1, m) if labels[v] == X and parents.count(v) == 1}
    below = [v for v in range(2, m) if parents[v] in passing]
    found = {"tip" if labels[v] != X else "chain" if v in passing else "inner node" for v in below}
    return found | {"node 1"} if 1 in passing else found


def randomly_chained(rng: random.Random, t: Table) -> Table:
    """With up to as many pass-through nodes as there may be, 4n nodes in all."""
    return chained(rng, t, rng.choice([4 * t[0], rng.randint(t[1], 4 * t[0])]))


# ---- random trees and pairs

def random_table(rng: random.Random, n: int) -> Table:
    """A tree of random degrees in a random numbering that keeps the rules."""
    groups: list[Nested] = list(range(1, n))
    while len(groups) > 1:
        size = min(len(groups), rng.choice([2, 2, 2, 3, 3, 4, 6]))
        groups.append([groups.pop(rng.randrange(len(groups))) for _ in range(size)])
    return numbered(rng, n, groups[0])


def random_pair(rng: random.Random, n: int) -> tuple[Table, Table]:
    """Two random trees, one tree with two labellings, or one tree with two labels exchanged in another numbering."""
    t = random_table(rng, n)
    kind = rng.randrange(3)
    if kind == 0:
        return shuffled(rng, t), shuffled(rng, random_table(rng, n))
    if kind == 1:
        return t, shuffled(rng, t)
    return t, renumbered(exchanged(rng, t))


def related_pair(rng: random.Random, n: int) -> tuple[Table, Table]:
    """Two trees that come from one by taking edges away and adding others; in some, two labels are exchanged."""
    common = contracted(rng, nested(random_table(rng, n)), 0.3)
    t = numbered(rng, n, contracted(rng, resolved(rng, common, 0.5), 0.15))
    u = numbered(rng, n, contracted(rng, resolved(rng, common, 0.5), 0.15))
    return t, exchanged(rng, u) if n > 3 and rng.random() < 0.4 else u


def unrelated_pair(rng: random.Random, n: int) -> tuple[Table, Table]:
    t = shuffled(rng, random_table(rng, n))
    return t, shuffled(rng, t) if rng.random() < 0.4 else random_table(rng, n)


def bushy(rng: random.Random, n: int) -> Table:
    """A caterpillar of small stars between two large ones."""
    labels, quarter = rng.sample(range(1, n), n - 1), n // 4
    tree, middle = labels[:quarter], labels[quarter:-quarter]
    for at in range(0, len(middle), 4):
        tree = [tree, *middle[at:at + 4]]
    return numbered(rng, n, [tree, *labels[-quarter:]])
