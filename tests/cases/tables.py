"""Tree tables as lists of words: the reference tables, the refusal of a table, and tables damaged for each refusal."""
from collections.abc import Iterator

Table = list[int]

X = 65535  # the label word of a node that is no tip


def table(n: int, m: int, parents: list[int], labels: list[int]) -> Table:
    return [n, m, *parents, *labels]


# docs/SPECIFICATION.md, 'The reference tables'.
P = table(5, 8, [0, 0, 1, 1, 3, 3, 5, 5], [0, X, 1, X, 2, X, 3, 4])
Q = table(5, 7, [0, 0, 1, 1, 3, 3, 3], [0, X, 1, X, 2, 3, 4])
R = table(5, 8, [0, 0, 1, 1, 3, 3, 5, 5], [0, X, 2, X, 1, X, 3, 4])
W = table(5, 6, [0, 0, 1, 1, 1, 1], [0, X, 1, 2, 3, 4])
TWO = table(2, 2, [0, 0], [0, 1])
THREE = table(3, 4, [0, 0, 1, 1], [0, X, 1, 2])
REFERENCE = [P, Q, R, W, TWO, THREE]

# Outside examples: documents 004 and 000, and two trees of mixed shape.
OUTSIDE = [
    table(6, 10, [0, 0, 1, 2, 2, 4, 4, 1, 7, 7], [0, X, X, 1, X, 3, 5, X, 2, 4]),
    table(6, 10, [0, 0, 1, 2, 2, 1, 5, 6, 6, 5], [0, X, X, 3, 5, X, X, 1, 2, 4]),
    table(8, 14, [0, 0, 1, 1, 3, 3, 5, 5, 7, 7, 9, 9, 11, 11], [0, X, 1, X, 2, X, 3, X, 4, X, 5, X, 6, 7]),
    table(8, 14, [0, 0, 1, 1, 3, 3, 5, 5, 7, 7, 9, 9, 11, 11], [0, X, 7, X, 1, X, 2, X, 3, X, 4, X, 5, 6]),
    table(8, 14, [0, 0, 1, 2, 3, 3, 2, 6, 6, 1, 9, 10, 10, 9], [0, X, X, X, 1, 2, X, 3, 4, X, X, 5, 6, 7]),
    table(8, 11, [0, 0, 1, 2, 2, 2, 1, 6, 6, 6, 1], [0, X, X, 1, 2, 3, X, 4, 5, 6, 7]),
]

# Tables with pass-through nodes, which are inner nodes with one child, each with the table that is left without them: P with one
# at node 1, a chain above an inner node and one above a tip; Q with one at node 1 and one above each further tip; W with two
# chains, m being 4n; the two-tip tree with one, and with as many as there may be.
PASS_THROUGH = [
    (table(5, 12, [0, 0, 1, 2, 2, 3, 5, 6, 6, 7, 7, 9], [0, X, X, X, 1, X, X, X, 2, X, 3, 4]), P),
    (table(5, 12, [0, 0, 1, 2, 2, 3, 4, 4, 4, 6, 7, 8], [0, X, X, X, X, 1, X, X, X, 2, 3, 4]), Q),
    (table(5, 20, [0, 0, 1, 2, 3, 4, 5, 6, 7, 8, 8, 8, 8, 12, 13, 14, 15, 16, 17, 18],
           [0, X, X, X, X, X, X, X, X, 1, 2, 3, X, X, X, X, X, X, X, 4]), W),
    (table(2, 3, [0, 0, 1], [0, X, 1]), TWO),
    (table(2, 8, [0, 0, 1, 2, 3, 4, 5, 6], [0, X, X, X, X, X, X, 1]), TWO),
]

# The numbers of the tree check in the order in which they decide.
NUMBERS = [1, 2, 3, 4, 5, 6, 31, 7]

# Tables with label trouble, each with its number. All but the last two have P's parents.
LABEL_TROUBLE = [
    (table(5, 8, P[2:10], [0, X, 1, X, 1, X, 3, 9]), 6),  # a label out of range, and another repeated
    (table(5, 8, P[2:10], [0, X, 1, X, 1, X, 3, 4]), 31),  # one repeated
    (table(5, 8, P[2:10], [1, X, 1, X, 2, X, 3, 4]), 6),  # node 0's label wrong, and thereby repeated
    (table(5, 8, P[2:10], [X, X, 1, X, 2, X, 3, 4]), 6),  # node 0's label that of an inner node, and 0 missing
    (table(5, 8, P[2:10], [0, X, 1, 2, 2, X, 3, 4]), 31),  # one repeated, and a tip with children
    (table(5, 8, P[2:10], [0, X, 1, X, 2, X, 3, X]), 31),  # one missing and none repeated, and an inner node without a child
    (table(5, 6, [0, 0, 1, 1, 3, 3], [0, X, 1, X, 2, 3]), 31),  # one missing and none repeated: a tree of four tips, n too large
    (table(5, 6, [0, 0, 1, 1, 3, 3], [0, X, 1, X, 2, 5]), 6),  # the same with a label out of range
]


def tree_refusal(t: Table) -> int:
    """The number of the tree check, by docs/SPECIFICATION.md, 'Rules', in their order; 0 stands for accepted."""
    if len(t) < 2:
        return 1
    n, m = t[0], t[1]
    if not 2 <= n <= 256:
        return 2
    if not n <= m <= 4 * n:
        return 3
    if len(t) != 2 + 2 * m:
        return 4
    parents, labels = t[2:2 + m], t[2 + m:]
    if parents[0] != 0 or parents[1] != 0:
        return 5
    if any(not 1 <= parents[i] < i for i in range(2, m)):
        return 5
    if labels[0] != 0 or any(label != X and label >= n for label in labels):
        return 6
    if sorted(label for label in labels if label != X) != list(range(n)):
        return 31
    for i in range(m):
        children = parents[1:].count(i)
        if labels[i] == X and children < 1 or labels[i] != X and i != 0 and children > 0:
            return 7
    return 0


def damaged(t: Table) -> Iterator[Table]:
    """The table with damage that each number of the tree check refuses."""
    n, m = t[0], t[1]
    tip = next(i for i in range(1, m) if t[2 + m + i] != X)
    inner = next(i for i in range(1, m) if t[2 + m + i] == X)
    last = 2 + 2 * m - 1

    def put(*changes: tuple[int, int]) -> Table:
        u = list(t)
        for at, word in changes:
            u[at] = word
        return u

    yield from ([], [n], put((0, 1)), put((0, 257)), put((1, n - 1)), put((1, 4 * n + 1)))  # 1 1 2 2 3 3
    yield from (t + [0], t[:-1], put((1, m - 1)))  # 4
    yield from (put((2, 1)), put((3, 1)), put((2 + m - 1, 0)), put((2 + m - 1, m - 1)), put((2 + m - 1, X)))  # 5
    yield from (put((2 + m, 1)), put((2 + m, X)), put((last, n)), put((last, 300)))  # 6
    yield put((last, n), (2 + m + tip, 0))  # 6, and not 31, though 0 stands twice
    yield put((last, 0))  # 31
    yield put((last, X))  # 31, and not 7, though an inner node has no child
    yield put((2 + m + inner, t[2 + m + tip]))  # 31, and not 7, though a tip has children
    yield put((2 + m + tip, X), (2 + m + inner, t[2 + m + tip]))  # 7
    yield put((2 + m - 1, tip if tip < m - 1 else 1))  # 7, where a tip gets a child
    yield [n, m + 1, *t[2:2 + m], 1, *t[2 + m:], X]  # 7, where an inner node more has no child
