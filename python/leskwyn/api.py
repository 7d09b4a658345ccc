"""What Python callers use: compare, against, matrix, nearest, three_trees, why, influence, canonical_copy, same, exchange_tallies,
exchange_distance, view and view_topology."""
import contextlib
from collections.abc import Iterable, Iterator, Mapping, Sequence

from leskwyn import _library, copies, counting, evidence, exchanges, files, holding, median, three, views
from leskwyn._library import Words
from leskwyn.copies import CanonicalCopy, Sameness
from leskwyn.counting import Number, Progress
from leskwyn.errors import Refusal
from leskwyn.evidence import Evidence
from leskwyn.exchanges import ExchangeTallies
from leskwyn.figures import Comparison
from leskwyn.holding import Influence
from leskwyn.labels import labels_given, labels_of_tips, labels_struck, levels_of_tips, outgroup_first, tips_struck
from leskwyn.median import NearestTree
from leskwyn.sources import ComparisonFile, Given, is_comparison_file, named_file, told_apart, trees_given, trees_of_bytes
from leskwyn.tables import ORDINALS, tables_of_file
from leskwyn.three import ThreeTrees
from leskwyn.trees import Placed, check_same_names, checked, labels_of_names, pruned, table_of
from leskwyn.views import Topology, View
from leskwyn.weights import GivenWeight, Weight, weight_of


def compare(a: Given, b: Given = None, *, common: bool = False, outgroup: str | None = None, weight: GivenWeight = None,
            struck: Iterable[str | int] | None = None) -> Comparison:
    """The figures of two trees, as a Comparison.

    Each of `a` and `b` is Newick text, the path of a Newick or NEXUS file (an os.PathLike, or a str that names a file that
    is there), or a tree object of DendroPy or ETE. Without `b`, `a` holds both trees, or is the path of a comparison file.

    The trees have 2 to 256 tips, with the same names. With `common` each is cut down to the names that both have. Where a
    tree has its root plays no part, and neither do branch lengths and nodes with one child. The triplets take the name
    `outgroup` for the outgroup, by default the first of the sorted names; no other figure depends on it. With a `weight` p the
    weighted distance B + p (C + D) is told: 'none', 'full', or a number or text that is k/256 with a k from 0 to 256, as 0.5
    and '1/2'.

    The names in `struck` are struck from the count, for a comparison file the labels: sets of four and splits are those of the
    kept tips, as if the struck ones were cut off both trees. A name that stands twice is struck once, and any number of tips may
    be struck. The triplets count all tips.

    Raises Refusal for trees that are turned away, and Trouble for a file that cannot be read; both have `number` and
    `reason`. Raises ValueError for a weight that is none of these.

        >>> leskwyn.compare("((a,b),(c,d));", "((a,c),(b,d));").different
        1
        >>> leskwyn.compare("((a,b),(c,d));", "(a,b,c,d);", weight="1/2").weighted_distance
        0.5
        >>> leskwyn.compare("((a,b),(c,(d,e)));", "((a,b),(d,(c,e)));", struck=["e"]).distance
        0
    """
    given, words, pair = optional_weight(weight), struck_words(struck), pair_given(a, b, outgroup)
    if isinstance(pair, ComparisonFile):
        return compare_file(*pair, given, words)
    return compare_trees(*pair, common=common, outgroup=outgroup, weight=given, struck=words)


def against(reference: Given, trees: Iterable[Given], *, common: bool = False, jobs: int | None = None,
            outgroup: str | None = None, weight: GivenWeight = None,
            struck: Iterable[str | int] | None = None) -> list[Comparison]:
    """The figures of one tree against each of many, in their order; the reference is the first tree of each Comparison.

    A tree is given as to compare; a file or a text may hold several. `jobs` is the number of threads, by default one for
    each processor. `outgroup`, `weight` and `struck` are as for compare.
    """
    given, words = optional_weight(weight), struck_words(struck)
    held = trees_given(reference, "the reference", 1) + all_trees(trees)
    held, names = same_names(held, common, outgroup)
    labels = labels_of_names(names)
    placed = [(tree.place, table_of(tree.tree, labels)) for tree in held]
    return counting.compared_to_one(placed[0], placed[1:], names, threads(jobs), weight=given, struck=optional_struck(words, names))


def matrix(trees: Iterable[Given], *, measure: str = "quartet", normalised: bool = False, common: bool = False,
           jobs: int | None = None, outgroup: str | None = None, weight: GivenWeight = None,
           struck: Iterable[str | int] | None = None) -> list[list[Number]]:
    """The distances of all pairs of trees: a square of numbers, row i and column j for the trees i and j.

    A tree is given as to compare; a file or a text may hold several. `measure` is 'quartet' for the quartet distance,
    'splits' for the Robinson-Foulds distance, 'triplets' for the triplet distance or 'weighted' for the weighted quartet
    distance, which takes a `weight`; with `normalised` it is divided by all sets of four, by the splits of both trees, or by
    all sets of three without the outgroup. `jobs` is the number of threads, by default one for each processor. `outgroup`,
    `weight` and `struck` are as for compare; the triplet distance counts all tips.

        >>> leskwyn.matrix(["((a,b),(c,d));", "((a,c),(b,d));", "(a,b,c,d);"])
        [[0, 1, 1], [1, 0, 1], [1, 1, 0]]
    """
    if measure not in counting.MEASURES:
        raise ValueError(f"measure is {measure!r}, not one of {', '.join(map(repr, counting.MEASURES))}")
    given, fault, words = optional_weight(weight), counting.wrong_weight(measure, weight), struck_words(struck)
    if fault:
        raise ValueError(fault)
    held, names = same_names(all_trees(trees), common, outgroup)
    labels = labels_of_names(names)
    tables = [table_of(tree.tree, labels) for tree in held]
    return counting.distances(tables, measure, normalised, threads(jobs), weight=given, struck=optional_struck(words, names))


def nearest(trees: Iterable[Given], *, common: bool = False, jobs: int | None = None,
            struck: Iterable[str | int] | None = None) -> NearestTree:
    """The tree nearest to all of several, their median tree, as a NearestTree: the one whose quartet distances to all of them have
    the least sum, and that sum for each tree. Of equal sums it is the earliest tree.

    A tree is given as to compare; a file or a text may hold several, and there are two or more in all. `common` and `struck` are as
    for compare, for all trees, and `jobs` as for matrix. Of 2 to 16 trees with no tip struck the library tells the nearest in one
    call, and the pairs must agree; else the pairs alone tell it.

    Raises what compare raises, and Refusal, with the number 38, for fewer than two trees.

        >>> found = leskwyn.nearest(["((a,b),(c,(d,e)));", "((a,b),(d,(c,e)));", "((a,b),c,d,e);", "(a,b,c,d,e);"])
        >>> found.position, found.sum, [one.sum for one in found.rows]
        (2, 7, [9, 9, 7, 13])
    """
    words, at_once = struck_words(struck), threads(jobs)
    return nearest_tree(all_trees(trees), common=common, jobs=at_once, struck=words)


def three_trees(a: Given, b: Given = None, c: Given = None, *, common: bool = False, weight: GivenWeight = None,
                struck: Iterable[str | int] | None = None) -> ThreeTrees:
    """Three trees side by side, as a ThreeTrees: for each two of them the sets of four by the cases A to E and the distance, and
    which two are closest.

    The trees are given as to compare, but are no comparison file; without `b` and `c`, `a` holds all three. `common` and `struck`
    are as there, for all three trees. With a `weight` p each two have their weighted distance too, and the closest are those with
    the least weighted one. Of equal distances all pairs are told.

    The distance of two trees is at most the sum of their distances to the third. So is the weighted one with a weight of 1/2 or
    more; with a smaller weight the way through the third tree can be shorter.

    Raises what compare raises.

        >>> found = leskwyn.three_trees("((a,b),(c,d));", "((a,c),(b,d));", "(a,b,c,d);", weight="1/2")
        >>> [(one.pair, one.distance, one.weighted_distance) for one in found.pairs]
        [(('first', 'second'), 1, 1.0), (('first', 'third'), 1, 0.5), (('second', 'third'), 1, 0.5)]
        >>> found.closest
        (('first', 'third'), ('second', 'third'))
    """
    given, words = optional_weight(weight), struck_words(struck)
    if b is None and c is None:
        held = trees_given(a, "the text", 3)
    else:
        held = [placed for one, ordinal in zip((a, b, c), ORDINALS) for placed in trees_given(one, f"the {ordinal} tree", 1)]
    return compare_three(held, common=common, weight=given, struck=words)


def why(a: Given, b: Given, names: Iterable[str | int], *, common: bool = False, outgroup: str | None = None) -> Evidence:
    """Why two trees part four populations alike or differently, as an Evidence: the case A to E and, for each tree, the edge that
    parts the four two and two, or the node where they meet.

    The trees are given as to compare; with None for `b`, `a` holds both trees, or is the path of a comparison file. `names` are
    four tips in any order, for a comparison file four labels. `common` is as for compare; on `outgroup` depends how edges and
    nodes are numbered, and so which of several edges that part the four is told.

    Raises Refusal and Trouble as compare does, and ValueError if there are not four names.

        >>> found = leskwyn.why("((a,b),(c,d));", "(a,b,c,d);", ["a", "b", "c", "d"])
        >>> found.case, found.first_tree.pairs, found.second_tree.pairs
        ('C', (('a', 'b'), ('c', 'd')), None)
    """
    four, pair = four_words(names), pair_given(a, b, outgroup)
    if isinstance(pair, ComparisonFile):
        return why_file(*pair, four)
    return why_trees(*pair, four, common=common, outgroup=outgroup)


def influence(a: Given, b: Given = None, *, common: bool = False, struck: Iterable[str | int] | None = None,
              drop: int | None = None) -> Influence:
    """Which populations drive the distance of two trees, as an Influence: for each kept tip the sets of four that hold it and
    three other kept ones, by the cases A to E.

    The trees are given as to compare, and `common` and `struck` are as there. The tips come by the share of these sets that the
    trees see differently, their normalised distance: the greatest first, equal ones by name, of a comparison file by label.

    With a `drop`, 1 or more, so many tips are struck in turn, each time the first of those that are left, and the Influence has
    the counts after each. It ends where the distance is 0.

    Raises Refusal and Trouble as compare does, and ValueError for a `drop` below 1.

        >>> found = leskwyn.influence("((a,b),(c,(d,e)));", "((a,b),(d,(c,e)));", drop=1)
        >>> [(one.name, one.distance, one.sets_of_four) for one in found.populations]
        [('c', 2, 4), ('d', 2, 4), ('e', 2, 4), ('a', 1, 4), ('b', 1, 4)]
        >>> [(one.name, one.kept, one.distance) for one in found.dropped]
        [('c', 4, 0)]
    """
    check_positive("drop", drop)
    words, pair = struck_words(struck), pair_given(a, b, None)
    if isinstance(pair, ComparisonFile):
        return influence_file(*pair, words, drop)
    return influence_trees(*pair, common=common, struck=words, drop=drop)


def canonical_copy(tree: Given, *, struck: Iterable[str | int] | None = None) -> CanonicalCopy:
    """The kept part of one tree in its canonical form, as a CanonicalCopy: two trees on the same kept tips have the same `newick`
    and the same `table` exactly if they have the same splits of these.

    The tree is given as to compare. The names in `struck` are left out of the copy; two names or more must be kept. Labels go by
    the sorted names, so that the order in which a file has them plays no part.

    Raises Refusal and Trouble as compare does.

        >>> leskwyn.canonical_copy("((d,c),x,(b,a));", struck=["x"]).newick
        '(a,b,(c,d));'
    """
    words = struck_words(struck)
    return copy_tree(*trees_given(tree, "the tree", 1), words)


def same(a: Given, b: Given = None, *, common: bool = False, struck: Iterable[str | int] | None = None) -> bool:
    """Whether two trees are the same on the kept tips: whether their canonical copies have the same words.

    The trees are given as to compare, and `common` and `struck` are as there, but for this: a struck name may be a tip of one tree
    alone. Two names or more must be kept.

    Raises Refusal and Trouble as compare does.

        >>> leskwyn.same("((a,b),(c,d));", "(d,c,(b,a));"), leskwyn.same("((a,b),(c,d));", "((a,c),(b,d));")
        (True, False)
        >>> leskwyn.same("((a,b),(c,d));", "((a,c),(b,(d,x)));", struck=["d", "x"])
        True
    """
    words, pair = struck_words(struck), pair_given(a, b, None)
    if isinstance(pair, ComparisonFile):
        return same_file(*pair, words).is_same
    return same_trees(*pair, common=common, struck=words).is_same


def exchange_tallies(tree: Given, *, pairs: int | None = None) -> ExchangeTallies:
    """How far one tree moves if two of its tips change names, as if two envelopes were mixed up: the quartet distance of the tree
    with the names exchanged to the tree as it is, tallied over all pairs of tips, as an ExchangeTallies.

    The tree is given as to compare. There are eleven tallies: that of a distance is ten times the distance over all sets of four,
    rounded down, and with fewer than four tips 0.

    With `pairs`, 1 or more, the ExchangeTallies has so many of the pairs that move the tree most, and of those that move it least,
    with their distances, or all of them where there are fewer. Equal distances come by name.

    Raises Refusal and Trouble as compare does, and ValueError for `pairs` below 1.

        >>> found = leskwyn.exchange_tallies("((a,b),(c,(d,e)));", pairs=1)
        >>> found.tallies
        (2, 0, 0, 0, 4, 0, 0, 0, 0, 0, 4)
        >>> [(one.name, one.other, one.distance) for one in found.most + found.least]
        [('a', 'd', 5), ('a', 'b', 0)]
    """
    check_positive("pairs", pairs)
    return exchange_tree(*trees_given(tree, "the tree", 1), pairs)


def exchange_distance(tree: Given, x: str, y: str) -> int:
    """How many sets of four one tree parts differently if the tips `x` and `y` change names: the quartet distance of the tree with
    the names exchanged to the tree as it is.

    The tree is given as to compare. Raises Refusal and Trouble as compare does, and Refusal for a name that is no tip, or for one
    that stands twice.

        >>> leskwyn.exchange_distance("((a,b),(c,d));", "a", "b"), leskwyn.exchange_distance("((a,b),(c,d));", "a", "c")
        (0, 1)
    """
    table, names = table_and_names(*trees_given(tree, "the tree", 1))
    return exchanges.distance(table, *labels_of_tips([x, y], names, "the tree", "two"))


def view(a: Given, b: Given, levels: Mapping[str, int], viewer: int) -> View:
    """What a viewer may see of two trees of which some populations are confidential, as a View: the figures of the visible tips, as
    if the hidden ones were cut off both trees.

    The trees are given as to compare, but are no comparison file; with None for `b`, `a` holds both. `levels` has the level of each
    name, 0 to 3, and `viewer` is the level of the viewer. Tips above it are hidden, the others visible.

    Two pairs of trees with the same visible names, of which the first trees part every four alike and the second ones too, give the
    same View, whatever is hidden. What is raised is for the desk that has the files: it may name any tip.

    Raises Refusal and Trouble as compare does, and Refusal for a name without a level, for a level of no tip, and for a level that
    is not 0 to 3.

        >>> levels = {"a": 0, "b": 0, "c": 1, "d": 0, "e": 2}
        >>> found = leskwyn.view("((a,b),(c,(d,e)));", "((a,b),(d,(c,e)));", levels, 1)
        >>> found.visible, found.names, found.same, found.distance
        (4, ('a', 'b', 'c', 'd'), 1, 0)
    """
    listed = levels_given(levels, viewer)
    if b is None:
        return view_trees(*trees_given(a, "the text", 2), listed, viewer)
    return view_trees(*trees_given(a, "the first tree", 1), *trees_given(b, "the second tree", 1), listed, viewer)


def view_topology(tree: Given, levels: Mapping[str, int], viewer: int, names: Iterable[str]) -> Topology:
    """How a tree parts four populations that a viewer may see, as a Topology: two and two, or not at all.

    The tree, `levels` and `viewer` are given as to view. `names` are four visible tips in any order.

    Raises what view does, ValueError if there are not four names, and Refusal, with the number 10, for a name that is hidden or no
    tip: the reason is the same for both and repeats no name. A name that stands twice has the number 11.

        >>> leskwyn.view_topology("((a,b),(c,(d,e)));", {"a": 0, "b": 0, "c": 0, "d": 1, "e": 3}, 1, ["d", "a", "c", "b"]).pairs
        (('a', 'b'), ('c', 'd'))
    """
    listed, four = levels_given(levels, viewer), four_words(names)
    return view_tree(*trees_given(tree, "the tree", 1), listed, viewer, four)


# ---- what these share with the commands

def pair_given(a: Given, b: Given, outgroup: str | None) -> list[Placed] | ComparisonFile:
    """Two trees, or the comparison file that holds them."""
    if b is not None:
        return trees_given(a, "the first tree", 1) + trees_given(b, "the second tree", 1)
    path = named_file(a)
    if path is None:
        return trees_given(a, "the text", 2)
    content = files.read_bytes(path)
    if not is_comparison_file(content):
        return trees_of_bytes(path, content, 2)
    if outgroup is not None:
        raise Refusal(f"{path} is a comparison file, without names: its outgroup is label 0")
    return ComparisonFile(path, content)


def optional_weight(weight: GivenWeight) -> Weight | None:
    return None if weight is None else weight_of(weight)


def struck_words(struck: Iterable[str | int] | None) -> list[str] | None:
    """The names or labels that are struck, as text."""
    if isinstance(struck, str):
        raise TypeError("struck is a str; names are needed, as a list")
    return None if struck is None else [str(name) for name in struck]


def optional_struck(words: Sequence[str] | None, names: list[str]) -> list[int] | None:
    return None if words is None else labels_struck(words, names)


def optional_labels(words: Sequence[str] | None) -> list[int] | None:
    """The labels of a comparison file that are struck, each once and in their order."""
    return None if words is None else sorted(set(labels_given(words)))


def places_in(place: str) -> tuple[str, str]:
    """Where the trees of a comparison file come from."""
    return f"{place}, first tree", f"{place}, second tree"


@contextlib.contextmanager
def refusals_of(place: str) -> Iterator[None]:
    """A refusal inside tells the file."""
    try:
        yield
    except Refusal as refusal:
        raise Refusal(f"{place}: {refusal.reason}", refusal.number) from None


def compare_trees(first: Placed, second: Placed, *, common: bool = False, outgroup: str | None = None,
                  weight: Weight | None = None, struck: Sequence[str] | None = None) -> Comparison:
    (first, second), names = same_names([first, second], common, outgroup)
    labels = labels_of_names(names)
    tables = [_library.words(table_of(placed.tree, labels)) for placed in (first, second)]
    return counting.compared((first.place, second.place), tables[0], tables[1], names, weight, optional_struck(struck, names))


def compare_file(place: str, content: bytes, weight: Weight | None = None, struck: Sequence[str] | None = None) -> Comparison:
    """The figures of a comparison file of any length, without the labels that are struck."""
    first, second = map(_library.words, tables_of_file(place, content))
    with refusals_of(place):
        return counting.compared(places_in(place), first, second, (), weight, optional_labels(struck))


def compare_three(trees: Sequence[Placed], *, common: bool = False, weight: Weight | None = None,
                  struck: Sequence[str] | None = None) -> ThreeTrees:
    held, names = same_names(trees, common, None)
    labels = labels_of_names(names)
    tables = [_library.words(table_of(placed.tree, labels)) for placed in held]
    return three.of_tables([placed.place for placed in held], tables, names, weight, optional_struck(struck, names))


def nearest_tree(trees: Sequence[Placed], *, common: bool = False, jobs: int, progress: Progress | None = None,
                 struck: Sequence[str] | None = None) -> NearestTree:
    median.check_enough(len(trees))
    held, names = same_names(trees, common, None)
    labels = labels_of_names(names)
    tables = [table_of(placed.tree, labels) for placed in held]
    places = told_apart([placed.place for placed in held])
    return median.of_tables(places, tables, names, jobs, progress, optional_struck(struck, names))


def four_words(names: Iterable[str | int]) -> list[str]:
    """Four names or labels as text."""
    if isinstance(names, str):
        raise TypeError("names is a str; four names are needed, as a list")
    four = [str(name) for name in names]
    if len(four) != 4:
        raise ValueError(f"there are {len(four)} names; four are needed")
    return four


def why_trees(first: Placed, second: Placed, four: Sequence[str], *, common: bool = False,
              outgroup: str | None = None) -> Evidence:
    (first, second), names = same_names([first, second], common, outgroup)
    labels = labels_of_names(names)
    tables = [table_of(placed.tree, labels) for placed in (first, second)]
    asked = labels_of_tips(four, names, "both trees", "four")
    return evidence.of_labels((first.place, second.place), tables[0], tables[1], asked, names)


def why_file(place: str, content: bytes, four: Sequence[str]) -> Evidence:
    """The evidence for four labels of a comparison file."""
    first, second = tables_of_file(place, content)
    with refusals_of(place):
        return evidence.of_labels(places_in(place), first, second, labels_given(four), ())


def influence_trees(first: Placed, second: Placed, *, common: bool = False, struck: Sequence[str] | None = None,
                    drop: int | None = None) -> Influence:
    (first, second), names = same_names([first, second], common, None)
    labels = labels_of_names(names)
    tables = [_library.words(table_of(placed.tree, labels)) for placed in (first, second)]
    return holding.of_tables((first.place, second.place), tables[0], tables[1], names, optional_struck(struck, names), drop)


def influence_file(place: str, content: bytes, struck: Sequence[str] | None = None, drop: int | None = None) -> Influence:
    """The influence of each label of a comparison file that is not struck."""
    first, second = map(_library.words, tables_of_file(place, content))
    with refusals_of(place):
        return holding.of_tables(places_in(place), first, second, (), optional_labels(struck), drop)


def copy_without(placed: Placed, names: list[str], struck: Sequence[int] | None) -> CanonicalCopy:
    """The copy of a tree, of its names in the order of their labels, without the labels that are struck."""
    return copies.of_table(placed.place, _library.words(table_of(placed.tree, labels_of_names(names))), names, struck)


def copy_tree(placed: Placed, struck: Sequence[str] | None = None) -> CanonicalCopy:
    names = checked([placed])
    labels = None if struck is None else labels_struck(struck, names, "the tree")
    with refusals_of(placed.place):
        return copy_without(placed, names, labels)


def same_trees(first: Placed, second: Placed, *, common: bool = False, struck: Sequence[str] | None = None) -> Sameness:
    """Whether two trees are the same. Each has labels of its own, by its sorted names; in the copies kept names have the same
    labels, since the struck ones, which one tree alone may have, are gone."""
    trees = pruned([first, second]).trees if common else [first, second]
    names = [checked([placed]) for placed in trees]
    every = sorted(set(names[0] + names[1]))
    gone = tips_struck(struck or (), every, "either tree")
    check_same_names(*trees, gone)
    one, other = (copy_without(placed, own, [label for label, name in enumerate(own) if name in gone])
                  for placed, own in zip(trees, names))
    return Sameness(one.table == other.table, one.kept, None if struck is None else tuple(sorted(gone)))


def same_file(place: str, content: bytes, struck: Sequence[str] | None = None) -> Sameness:
    """Whether the trees of a comparison file are the same without the labels that are struck."""
    first, second = map(_library.words, tables_of_file(place, content))
    with refusals_of(place):
        return copies.sameness(first, second, optional_labels(struck))


def table_and_names(placed: Placed) -> tuple[Words, list[str]]:
    """The table of a tree, and its names in the order of their labels."""
    names = checked([placed])
    return _library.words(table_of(placed.tree, labels_of_names(names))), names


def exchange_tree(placed: Placed, pairs: int | None = None) -> ExchangeTallies:
    return exchanges.of_table(placed.place, *table_and_names(placed), pairs)


Listed = Sequence[tuple[str, int]]
LEVELS = "the list of levels"


def levels_given(levels: Mapping[str, int], viewer: int) -> Listed:
    """The levels with their names. The library judges whether there are such levels."""
    if not isinstance(levels, Mapping):
        raise TypeError(f"levels is a {type(levels).__name__}; a dict of names and their levels is needed")
    for level in (*levels.values(), viewer):
        if not isinstance(level, int):
            raise TypeError(f"a level is a {type(level).__name__}; an int is needed")
    return list(levels.items())


def view_trees(first: Placed, second: Placed, levels: Listed, viewer: int, place: str = LEVELS) -> View:
    """`place` tells in a message where the levels stand."""
    names = checked([first, second], hint="")
    labels = labels_of_names(names)
    tables = [_library.words(table_of(placed.tree, labels)) for placed in (first, second)]
    return views.of_tables(tables[0], tables[1], names, levels_of_tips(levels, names, place), viewer)


def view_tree(placed: Placed, levels: Listed, viewer: int, four: Sequence[str], place: str = LEVELS) -> Topology:
    table, names = table_and_names(placed)
    return views.topology(table, names, levels_of_tips(levels, names, place), viewer, four)


def all_trees(trees: Iterable[Given]) -> list[Placed]:
    if isinstance(trees, str) or named_file(trees) is not None:
        trees = [trees]
    return [placed for at, given in enumerate(trees, 1) for placed in trees_given(given, f"tree {at}", None)]


def same_names(trees: Sequence[Placed], common: bool, outgroup: str | None) -> tuple[list[Placed], list[str]]:
    """The trees, cut down to the names that all have if that is wanted, and their names in the order of the labels."""
    if not trees:
        return [], []
    held = pruned(trees).trees if common else list(trees)
    return held, outgroup_first(checked(held), outgroup)


def check_positive(name: str, number: int | None) -> None:
    if number is not None and number < 1:
        raise ValueError(f"{name} is {number}, not 1 or more")


def threads(jobs: int | None) -> int:
    check_positive("jobs", jobs)
    return counting.default_jobs() if jobs is None else jobs
