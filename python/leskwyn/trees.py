"""Trees with named tips: the names that trees share, pruning, and the table that the library reads."""
import collections
import typing
from collections.abc import Collection, Sequence

from leskwyn.errors import Refusal, counted, some_of

Table = list[int]
INNER = 65535
FEWEST_TIPS, MOST_TIPS = 2, 256
# A table of n tips has at most 4n nodes.
NODES_FOR_A_TIP = 4
COMMON_HINT = "; --common (in Python common=True) leaves them out"


class Tree:
    """A tree as it is written. Node 0 is the root; each node has its parent and, if it is a tip, its name."""

    def __init__(self) -> None:
        self.parents: list[int] = []
        self.names: list[str | None] = []

    def add(self, parent: int, name: str | None) -> int:
        self.parents.append(parent)
        self.names.append(name)
        return len(self.parents) - 1

    def tips(self) -> list[str]:
        return [name for name in self.names if name is not None]


class Placed(typing.NamedTuple):
    """A tree, and the words that tell in a message where it comes from."""
    place: str
    tree: Tree


# ---- names

def repeated(names: list[str]) -> list[str]:
    """The names that stand more than once, in order of appearance."""
    return [name for name, times in collections.Counter(names).items() if times > 1]


def check_repeats(place: str, names: list[str]) -> None:
    again = repeated(names)
    if again:
        raise Refusal(f"{place}: repeated tip names: {some_of(again)}; each population stands once in a tree")


def check_count(place: str, count: int) -> None:
    if not FEWEST_TIPS <= count <= MOST_TIPS:
        raise Refusal(f"{place}: {counted(count, 'tip')}; a tree needs {FEWEST_TIPS} to {MOST_TIPS}")


def composed(name: str) -> str:
    import unicodedata
    return unicodedata.normalize("NFC", name)


def form_hint(only_first: Collection[str], only_second: Collection[str]) -> str:
    """A sentence on names that are one name in two Unicode forms, or an empty text."""
    if all(name.isascii() for name in [*only_first, *only_second]):
        return ""
    twins = sorted({composed(name) for name in only_first} & {composed(name) for name in only_second})
    if not twins:
        return ""
    return (f"; {some_of(twins)} differ{'s' if len(twins) == 1 else ''} only in Unicode form: save both files in one form "
            "(NFC)")


def check_same_names(first: Placed, second: Placed, struck: Collection[str] = (), hint: str = COMMON_HINT) -> None:
    """Tells all names that only one of the trees has, but for struck ones; `hint` says what helps."""
    names = [set(placed.tree.tips()).difference(struck) for placed in (first, second)]
    only = [sorted(names[0] - names[1]), sorted(names[1] - names[0])]
    if not only[0] and not only[1]:
        return
    parts = [f"only {placed.place} has {some_of(left)}" for placed, left in zip((first, second), only) if left]
    raise Refusal(f"the trees have different tips: {'; '.join(parts)}{form_hint(*only)}{hint}")


def checked(trees: Sequence[Placed], hint: str = COMMON_HINT) -> list[str]:
    """The sorted names of the trees, which must all have the same; `hint` says what helps if they do not."""
    for placed in trees:
        tips = placed.tree.tips()
        check_repeats(placed.place, tips)
        check_count(placed.place, len(tips))
        check_same_names(trees[0], placed, hint=hint)
    return sorted(trees[0].tree.tips())


class Pruned(typing.NamedTuple):
    """Trees cut down to the names that all of them have, and what each lost."""
    trees: list[Placed]
    left_out: list[list[str]]
    hint: str


def pruned(trees: Sequence[Placed]) -> Pruned:
    """The trees on the names that all share; two or more names must be left."""
    held = []
    for placed in trees:
        check_repeats(placed.place, placed.tree.tips())
        held.append(set(placed.tree.tips()))
    shared = set.intersection(*held)
    if len(shared) < FEWEST_TIPS:
        raise Refusal(f"the trees share {counted(len(shared), 'name')}; {FEWEST_TIPS} or more are needed"
                      + form_hint(held[0] - shared, held[-1] - shared))
    left_out = [sorted(names - shared) for names in held]
    hint = form_hint(left_out[0], [name for names in left_out[1:] for name in names])
    return Pruned([Placed(place, restricted(tree, shared)) for place, tree in trees], left_out, hint.removeprefix("; "))


def restricted(tree: Tree, names: Collection[str]) -> Tree:
    """The tree with these tips only. Brackets that lose all their tips go, and those that lose all but one of their children
    are taken out. A node that has one child as it is written stays."""
    left, children = tips_left(tree, names), children_of(tree)
    smaller, number = Tree(), {-1: -1}
    for node, parent in enumerate(tree.parents):
        if left[node]:
            is_collapsed = len(children[node]) > 1 and sum(left[child] for child in children[node]) == 1
            number[node] = number[parent] if is_collapsed else smaller.add(number[parent], tree.names[node])
    return smaller


def tips_left(tree: Tree, names: Collection[str]) -> list[bool]:
    """For each node whether a tip with one of these names is at or below it."""
    left = [name in names for name in tree.names]
    for node in range(len(left) - 1, 0, -1):
        if left[node]:
            left[tree.parents[node]] = True
    return left


# ---- from a tree to its table

def children_of(tree: Tree) -> list[list[int]]:
    """The children of each node, in order of appearance."""
    children: list[list[int]] = [[] for _ in tree.parents]
    for node, parent in enumerate(tree.parents[1:], 1):
        children[parent].append(node)
    return children


def top_node(children: list[list[int]]) -> int:
    """The highest node that is not merely a bracket around one other node."""
    node = 0
    while len(children[node]) == 1:
        node = children[node][0]
    return node


class Written(typing.NamedTuple):
    """A tree as it is written, without the brackets around the whole of it: the children of each node, the top node, and the
    pass-through nodes, which are those below it with one child. All nodes from the top node on are of the tree."""
    children: list[list[int]]
    top: int
    pass_through: list[int]

    def nodes(self) -> int:
        """How many nodes the table has if it takes the pass-through nodes."""
        return len(self.children) - self.top - len(self.root_places())

    def root_places(self) -> list[int]:
        """The top node if it has two children: the place of the root in the midst of an edge, and no node of the table."""
        return [self.top] if len(self.children[self.top]) == 2 else []

    def most_nodes(self) -> int:
        """How many nodes a table of these tips may have."""
        return NODES_FOR_A_TIP * sum(not nodes for nodes in self.children)

    def is_whole(self) -> bool:
        """Whether the table takes the pass-through nodes. It takes all of them or, if there are too many, none."""
        return self.nodes() <= self.most_nodes()

    def passed_over(self) -> set[int]:
        """The nodes that the table does not take. Each joins two others."""
        return {*self.root_places(), *([] if self.is_whole() else self.pass_through)}


def written(tree: Tree) -> Written:
    children = children_of(tree)
    top = top_node(children)
    return Written(children, top, [node for node in range(top + 1, len(children)) if len(children[node]) == 1])


def table_of(tree: Tree, labels: dict[str, int]) -> Table:
    """The tree's table: rooted at the tip labelled 0, nodes numbered depth first; at each node its children in order of
    appearance, then its parent."""
    found = written(tree)
    passed_over = found.passed_over()
    outgroup = next(node for node, name in enumerate(tree.names) if name is not None and labels[name] == 0)
    parents, table_labels = [0], [0]
    ahead = [(tree.parents[outgroup], outgroup, 0)]
    while ahead:
        node, origin, parent = ahead.pop()
        following = [other for other in found.children[node] if other != origin]
        if node > found.top and tree.parents[node] != origin:
            following.append(tree.parents[node])
        if node not in passed_over:
            parents.append(parent)
            name = tree.names[node]
            table_labels.append(INNER if name is None else labels[name])
            parent = len(parents) - 1
        ahead += [(other, node, parent) for other in reversed(following)]
    return [len(labels), len(parents)] + parents + table_labels


def labels_of_names(names: Sequence[str]) -> dict[str, int]:
    return {name: label for label, name in enumerate(names)}
