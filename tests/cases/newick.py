"""Named trees as sets of edges, and the many ways to write one as Newick text."""
import random
from collections.abc import Iterable

Splits = set[frozenset[frozenset[int]]]


def splits_from(sets: Iterable[Iterable[int]], tips: Iterable[int]) -> Splits:
    """Splits as sets of two tip sets, from the tips on one side of each edge."""
    tips = frozenset(tips)
    sides = [frozenset(side) for side in sets]
    return {frozenset([side, tips - side]) for side in sides if len(side) >= 2 and len(tips - side) >= 2}


# ---- trees as sets of edges

class Tree:
    """Nodes with their neighbours; the nodes that are tips have names."""

    def __init__(self, names: list[str]) -> None:
        self.joined: dict[int, set[int]] = {}
        self.name = dict(enumerate(names))

    def join(self, a: int, b: int) -> None:
        self.joined.setdefault(a, set()).add(b)
        self.joined.setdefault(b, set()).add(a)

    def part(self, a: int, b: int) -> None:
        self.joined[a].remove(b)
        self.joined[b].remove(a)

    def edges(self) -> list[tuple[int, int]]:
        return [(a, b) for a in sorted(self.joined) for b in sorted(self.joined[a]) if a < b]

    def names_beyond(self, a: int, b: int) -> set[str]:
        """The names on b's side of the edge from a to b."""
        seen, todo = {a, b}, [b]
        while todo:
            more = self.joined[todo.pop()] - seen
            seen |= more
            todo += more
        return {self.name[node] for node in seen - {a} if node in self.name}

    def splits(self, label: dict[str, int]) -> Splits:
        sides = [[label[name] for name in self.names_beyond(a, b)] for a, b in self.edges()]
        return splits_from(sides, label.values())

    def edge_sets(self, label: dict[str, int]) -> list[list[int]]:
        """The labels beyond each edge, seen from the label 0; those of a chain of edges once for each."""
        sides = ({label[name] for name in self.names_beyond(a, b)} for a, b in self.edges())
        return sorted(sorted(set(label.values()) - side if 0 in side else side) for side in sides)


def random_tree(rng: random.Random, names: list[str], polytomies: float) -> Tree:
    """Three tips around a node; each further tip is joined to an inner node, or to the midst of an edge."""
    tree, n = Tree(names), len(names)
    for tip in range(min(n, 3)):
        tree.join(tip, n)
    for tip in range(3, n):
        node = rng.choice([node for node in tree.joined if node >= n])
        if rng.random() >= polytomies:
            a, b = rng.choice(tree.edges())
            node = n + tip
            tree.part(a, b)
            tree.join(a, node)
            tree.join(node, b)
        tree.join(tip, node)
    return tree


def with_pass_through(rng: random.Random, tree: Tree, count: int) -> Tree:
    """The tree with so many pass-through nodes, each put into the midst of an edge: several in one make a chain."""
    more = Tree(list(tree.name.values()))
    more.joined = {node: set(others) for node, others in tree.joined.items()}
    for _ in range(count):
        a, b = rng.choice(more.edges())
        node = max(more.joined) + 1
        more.part(a, b)
        more.join(a, node)
        more.join(node, b)
    return more


def caterpillar(names: list[str]) -> Tree:
    """Binary, as deep as it can be."""
    tree, n = Tree(names), len(names)
    for i in range(1, n - 1):
        tree.join(i, n + i)
        if i > 1:
            tree.join(n + i - 1, n + i)
    tree.join(0, n + 1)
    tree.join(n - 1, n + n - 2)
    return tree


# ---- how edges part names

def sides_of(tree: Tree) -> list[frozenset[str]]:
    """The names on one side of each edge."""
    return [frozenset(tree.names_beyond(a, b)) for a, b in tree.edges()]


def parting(sides: Iterable[frozenset[str]], four: frozenset[str]) -> frozenset[frozenset[str]] | None:
    """How an edge parts four names two and two, or None if no edge does."""
    for side in sides:
        if len(side & four) == 2:
            return frozenset([side & four, four - side])
    return None


# ---- Newick texts

PIECES = ["Parus", "major", "Cetti's", "ü", "Łódź", "a_b", " ", "''", "(x)", "[y]", ";", ",", ":1", "-", "\U0001F426",
          "9", "\"", "\t", "#", "/"]


def random_names(rng: random.Random, n: int) -> list[str]:
    found: set[str] = set()
    while len(found) < n:
        pieces = "".join(rng.choice(PIECES) for _ in range(rng.randint(1, 5)))
        found.add(pieces + rng.choice(["", str(len(found))]))
    names = sorted(found)
    rng.shuffle(names)
    return names


def written_name(rng: random.Random, name: str) -> str:
    """Quoted, or if the name allows it, plain with '_' for a blank. Digits alone could be the end of a number."""
    plain = name.replace(" ", "_")
    may_be_plain = "_" not in name and not plain.isdigit() and not any(c in "()[]'\",:;" or c.isspace() for c in plain)
    if may_be_plain and rng.random() < 0.7:
        return plain
    quote = rng.choice("'\"")
    return quote + name.replace(quote, quote * 2) + quote


def gap(rng: random.Random) -> str:
    return rng.choice([""] * 8 + [" ", "\n", "\r\n\t", "[a (b, c);]", "[&R [nested 'quote] ]", " [x]\n"])


def spaced(rng: random.Random, *parts: str) -> str:
    return "".join(gap(rng) + part for part in parts) + gap(rng)


def length(rng: random.Random) -> str:
    return rng.choice(["", "", spaced(rng, ":", rng.choice(["0.1", "1e-5", "3", "-0.25", "1E+2", "NaN"]))])


def support(rng: random.Random) -> str:
    return rng.choice(["", "", spaced(rng, rng.choice(["95", "0.5", "'inner; (name)'", "''", "clade_1"]))])


def written_group(rng: random.Random, texts: list[str]) -> str:
    rng.shuffle(texts)
    return spaced(rng, "(", ",".join(texts), ")") + support(rng)


def written_from(rng: random.Random, tree: Tree, node: int, origin: int | None) -> str:
    """The text of what lies beyond the edge from origin to node."""
    if node in tree.name:
        text = spaced(rng, written_name(rng, tree.name[node]))
    else:
        text = written_group(rng, [written_from(rng, tree, other, node) for other in tree.joined[node] - {origin}])
    return text + length(rng)


def written_tree(rng: random.Random, tree: Tree) -> str:
    """The tree rooted anywhere: at a node of three edges or more, or in the midst of an edge. At times there are brackets
    around the whole."""
    partings = [node for node in sorted(tree.joined) if len(tree.joined[node]) > 2]
    if partings and rng.random() < 0.5:
        text = written_from(rng, tree, rng.choice(partings), None)
    else:
        a, b = rng.choice(tree.edges())
        text = written_group(rng, [written_from(rng, tree, a, b), written_from(rng, tree, b, a)])
    while rng.random() < 0.2:
        text = written_group(rng, [text]) + length(rng)
    return text + gap(rng) + ";" + gap(rng)


def star_text(names: Iterable[str]) -> str:
    return "(" + ",".join(names) + ");"
