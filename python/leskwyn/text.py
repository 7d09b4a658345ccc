"""Figures as text: for people, as TSV, as JSON, and squares of distances; the evidence for four tips; the influence of each;
whether two trees are the same; how far exchanges of two tips move a tree; what a viewer may see; three trees side by side; the tree
nearest to all of several."""
from collections.abc import Iterable, Sequence

from leskwyn.copies import Sameness
from leskwyn.counting import Number
from leskwyn.errors import one_line
from leskwyn.evidence import Evidence, Witness
from leskwyn.exchanges import EXCHANGE_KEYS, Bounds, Exchange, ExchangeTallies
from leskwyn.figures import KEYS, STRUCK_KEYS, WEIGHTED_KEYS, Comparison, keys_of
from leskwyn.holding import CASES as CASE_KEYS, DROPPED_KEYS, HOLDING_KEYS, Counted, Influence
from leskwyn.median import BY_CALL, FEWEST_TREES, MOST_TREES, ROW_KEYS, NearestTree
from leskwyn.tables import ORDINALS, written_name
from leskwyn.three import TRIANGLE_WEIGHT, ThreeTrees, length
from leskwyn.views import KEYS as VIEW_KEYS, Topology, View
from leskwyn.weights import told_fraction

CASES = [("A", "parted alike by both trees"), ("B", "parted differently"), ("C", "parted by the first tree only"),
         ("D", "parted by the second tree only"), ("E", "left open by both trees")]
WIDTH = 36
NAMES_ON_A_SIDE = 10


def row(name: str, figure: str, note: str = "") -> str:
    return f"{name:{WIDTH}} {figure:>10}" + (f"   {note}" if note else "") + "\n"


def share(part: int, whole: int) -> str:
    return f"{100 * part / whole:.1f} %" if whole else "none"


def case_rows(counts: Sequence[int]) -> str:
    """The five cases, each with its share of all sets."""
    return "".join(row(f"  {letter}  {name}", str(count), f"{share(count, sum(counts)):>7}")
                   for (letter, name), count in zip(CASES, counts, strict=True))


def quartets_for_people(c: Comparison | Influence | View) -> str:
    return (row("sets of four", str(c.sets_of_four))
            + case_rows([c.same, c.different, c.first_only, c.second_only, c.neither])
            + row("distance", str(c.distance), "B + C + D")
            + row("normalised distance", f"{c.normalised_distance:.4f}",
                  "distance / sets of four" if c.sets_of_four else "there are no sets of four"))


def exactly(number: float) -> str:
    """All decimals of a number of 256ths, and none that is not needed."""
    return f"{number:.8f}".rstrip("0").rstrip(".")


def weighted_for_people(c: Comparison) -> str:
    """The weighted distance with its weight, if there is one."""
    if c.weight is None or c.weighted_distance is None:
        return ""
    return (row("weighted distance", exactly(c.weighted_distance), f"B + p (C + D), p = {told_fraction(c.weight)}")
            + row("normalised weighted distance", f"{c.normalised_weighted_distance:.4f}",
                  "weighted distance / sets of four" if c.sets_of_four else "there are no sets of four"))


def splits_for_people(c: Comparison | View) -> str:
    return (row("splits of the first tree", str(c.first_splits)) + row("splits of the second tree", str(c.second_splits))
            + row("splits of both", str(c.common_splits))
            + row("Robinson-Foulds distance", str(c.robinson_foulds), "splits of one tree only")
            + row("normalised Robinson-Foulds", f"{c.normalised_robinson_foulds:.4f}",
                  "distance / splits of the first and the second" if c.first_splits + c.second_splits else
                  "neither tree has a split"))


def told_outgroup(names: Sequence[str]) -> str:
    """The outgroup in words, of the names in the order of their labels."""
    if not names:
        return "label 0"
    hint = ", the first of the sorted names; --outgroup NAME takes another"
    return one_line(names[0]) + (hint if names[0] == min(names) else "")


def told_triplets(tips: int) -> str:
    return f"the triplets count all {tips} populations, struck ones too"


def triplets_for_people(c: Comparison) -> str:
    return (f"outgroup: {told_outgroup(c.names)}\n"
            + (f"{told_triplets(c.tips)}\n" if c.struck else "")
            + row("sets of three without the outgroup", str(c.sets_of_three))
            + case_rows([c.same_triplets, c.different_triplets, c.first_only_triplets, c.second_only_triplets,
                         c.neither_triplets])
            + row("triplet distance", str(c.triplet_distance), "B + C + D")
            + row("normalised triplet distance", f"{c.normalised_triplet_distance:.4f}",
                  "distance / sets of three" if c.sets_of_three else "there are no sets of three"))


def told_struck(names: Sequence[str], tips: int) -> str:
    """How many tips are kept, and all names that are struck."""
    return (f"kept {tips - len(names)} of {tips} populations"
            + (f"; struck: {told_names(names, len(names))}" if names else ""))


def struck_for_people(c: Comparison | Influence | ThreeTrees | NearestTree) -> str:
    return f"struck: {told_names(c.struck, len(c.struck))}\n" if c.struck else ""


def tips_for_people(c: Comparison | Influence | ThreeTrees | NearestTree, of_kept: str) -> str:
    """How many populations the trees have; if some are struck, what counts only the kept ones."""
    return (row("populations", str(c.tips))
            + (row("kept", str(c.kept), f"of {c.tips}; {of_kept} count these alone") if c.struck is not None else ""))


def trees_for_people(c: Comparison | Influence | ThreeTrees, places: Sequence[str], of_kept: str) -> str:
    """Where the trees come from, and how many populations they have."""
    return ("".join(f"{ordinal} tree: {one_line(place)}\n" for ordinal, place in zip(ORDINALS, places))
            + struck_for_people(c) + "\n" + tips_for_people(c, of_kept))


def for_people(c: Comparison) -> str:
    """The figures with their names, one a line."""
    return (trees_for_people(c, [c.first, c.second], "sets of four and splits")
            + "\n".join([quartets_for_people(c) + weighted_for_people(c), splits_for_people(c), triplets_for_people(c)]))


# ---- for programs

def cell(value: object) -> str:
    """A value as a TSV field: no TAB and no line end stands in it. Names are written as in Newick text, with a comma after each but
    the last."""
    return one_line(",".join(map(written_name, value)) if isinstance(value, tuple) else str(value))


def lines_tsv(rows: Iterable[Iterable[object]]) -> str:
    return "".join("\t".join(map(cell, row)) + "\n" for row in rows)


def rows_tsv(columns: Sequence[str], records: Iterable[Comparison | Counted]) -> str:
    """A header of the columns, then a row for each record."""
    return lines_tsv([columns, *([getattr(record, column) for column in columns] for record in records)])


def as_tsv(comparisons: Sequence[Comparison]) -> str:
    """The columns are the keys but the names. All have a weight, or none, and so with struck names."""
    keys = keys_of(comparisons[0]) if comparisons else KEYS
    return rows_tsv([key for key in keys if key != "names"], comparisons)


def line_json(answer: Comparison | Evidence | Influence | ExchangeTallies | View | Topology | ThreeTrees | NearestTree) -> str:
    """One object on one line."""
    import json
    return json.dumps(answer.as_dict(), ensure_ascii=False) + "\n"


def as_json(comparisons: Sequence[Comparison]) -> str:
    return "".join(map(line_json, comparisons))


def as_people_read(comparisons: Sequence[Comparison]) -> str:
    return "\n".join(map(for_people, comparisons))


def as_listing(comparisons: Sequence[Comparison]) -> str:
    return "".join(c.listing() for c in comparisons)


FORMATS = {"text": as_people_read, "tsv": as_tsv, "json": as_json, "listing": as_listing}


# ---- squares

def square_tsv(places: Sequence[str], square: Sequence[Sequence[Number]]) -> str:
    """A header of places, then a row for each tree, which its place starts."""
    header = "\t".join(["tree", *map(cell, places)]) + "\n"
    return header + "".join("\t".join([cell(place), *map(str, numbers)]) + "\n" for place, numbers in zip(places, square))


def square_phylip(places: Sequence[str], square: Sequence[Sequence[Number]]) -> str:
    """The number of trees, then a row for each; a blank in a place is written _, and names have any length."""
    names = ["_".join(cell(place).split()) for place in places]
    width = max(map(len, names), default=0)
    rows = (" ".join([f"{name:{width}} ", *map(str, numbers)]) + "\n" for name, numbers in zip(names, square))
    return f"{len(names)}\n" + "".join(rows)


SQUARES = {"tsv": square_tsv, "phylip": square_phylip}


# ---- the evidence for four tips

def told_name(name: str) -> str:
    """The name, in quotes where it could be read as more than one."""
    return f"'{one_line(name)}'" if any(mark in name for mark in ",+") or name != name.strip() else one_line(name)


def told_names(names: Sequence[str], most: int) -> str:
    """So many names at most, and how many more there are."""
    more = len(names) - most
    return ", ".join(map(told_name, names[:most])) + (f" and {more} more" if more > 0 else "")


def part_rows(parts: Sequence[Sequence[str]], four: Sequence[str]) -> str:
    """A row for each part with some of the four: these, then the others with them; a last row for the parts without any."""
    own = [[name for name in part if name in four] for part in parts]
    others = [[name for name in part if name not in four] for part in parts]
    heads = [" + ".join(map(told_name, names)) for names in own if names]
    width, rows = max(map(len, heads)), []
    for head, names, with_them in zip(heads, own, others):
        rows.append(f"{head:{width}}   with {told_names(with_them, NAMES_ON_A_SIDE - len(names))}" if with_them else head)
    apart = others[len(heads):]
    if apart:
        rows.append(f"on {len(apart)} other {'branch' if len(apart) == 1 else 'branches'}: "
                    + told_names([name for part in apart for name in part], NAMES_ON_A_SIDE))
    return "".join(f"  {row}\n" for row in rows)


def witness_for_people(w: Witness, four: Sequence[str]) -> str:
    told = (f"parts them two and two, by edge {w.edge}:" if w.edge is not None else
            f"leaves them open; they meet at node {w.node}, on four branches:")
    return f"{told}\n{part_rows(w.parts, four)}\n"


def evidence_for_people(e: Evidence) -> str:
    return (f"first tree: {one_line(e.first)}\n" + witness_for_people(e.first_tree, e.names)
            + f"second tree: {one_line(e.second)}\n" + witness_for_people(e.second_tree, e.names)
            + f"case {e.case}: {dict(CASES)[e.case]}\n")


EVIDENCE_FORMATS = {"text": evidence_for_people, "json": line_json}


# ---- the influence of each tip

def columns(heads: Sequence[str], rows: Sequence[Sequence[str]]) -> str:
    """Rows under their heads; the first column starts at the left, the others end at the right."""
    widths = [max(map(len, column)) for column in zip(heads, *rows)]
    return "".join("   ".join([f"{first:{widths[0]}}", *map(str.rjust, others, widths[1:])]) + "\n"
                   for first, *others in [heads, *rows])


def counted_cells(c: Counted) -> list[str]:
    counts = [c.sets_of_four, c.same, c.different, c.first_only, c.second_only, c.neither, c.distance]
    return [*map(str, counts), f"{c.normalised_distance:.4f}"]


def told_end(i: Influence) -> str:
    """Why no more are dropped, if the distance says so; else an empty text."""
    if i.dropped is None or (i.dropped or [i])[-1].distance:
        return ""
    return f"{'no more populations are' if i.dropped else 'no population is'} dropped: the distance is 0"


def influence_for_people(i: Influence) -> str:
    """The figures of all sets of four, then a row for each population, and one for each that is dropped."""
    heads = [*"ABCDE", "distance", "normalised"]
    parts = [trees_for_people(i, [i.first, i.second], "sets of four") + quartets_for_people(i)]
    if i.populations:
        parts.append(columns(["population", "sets that hold it", *heads],
                             [[told_name(one.name), *counted_cells(one)] for one in i.populations]))
    if i.dropped:
        parts.append(columns(["dropped", "kept", "sets of four", *heads],
                             [[told_name(one.name), str(one.kept), *counted_cells(one)] for one in i.dropped]))
    if told_end(i):
        parts.append(f"{told_end(i)}\n")
    return "\n".join(parts)


def influence_tsv(i: Influence) -> str:
    """A row for each population, or for each that is dropped if that is asked for."""
    return rows_tsv(HOLDING_KEYS, i.populations) if i.dropped is None else rows_tsv(DROPPED_KEYS, i.dropped)


INFLUENCE_FORMATS = {"text": influence_for_people, "tsv": influence_tsv, "json": line_json}


# ---- whether two trees are the same

def told_sameness(s: Sameness) -> str:
    told = f"the trees {'are the same' if s.is_same else 'differ'}"
    if s.struck is None:
        return told
    return f"{told} on the {s.kept} kept populations" + (f"; struck: {told_names(s.struck, len(s.struck))}" if s.struck else "")


# ---- how far exchanges of two tips move a tree

def told_share(tally: int) -> str:
    """The share of all sets of four at which a tally begins, and that at which the next does."""
    return f"{10 * tally} to {10 * tally + 10} %" if tally < 10 else "100 %"


def told_bounds(bounds: Bounds) -> str:
    if bounds is None:
        return "-"
    return str(bounds[0]) if bounds[0] == bounds[1] else f"{bounds[0]} to {bounds[1]}"


def exchange_rows(head: str, exchanges: Sequence[Exchange]) -> str:
    return columns([head, "distance", "normalised"], [[f"{told_name(one.name)} + {told_name(one.other)}", str(one.distance),
                                                       f"{one.normalised_distance:.4f}"] for one in exchanges])


def exchanges_for_people(e: ExchangeTallies) -> str:
    """A row for each tally, then one for each pair that moves the tree most and least."""
    tallies = [[told_share(at), told_bounds(bounds), str(tally)] for at, (bounds, tally) in enumerate(zip(e.bounds, e.tallies))]
    parts = [f"tree: {one_line(e.tree)}\n",
             row("populations", str(e.tips)) + row("sets of four", str(e.sets_of_four))
             + row("exchanges", str(e.exchanges), "pairs of populations"),
             columns(["share of the sets", "distance", "exchanges"], tallies)]
    if e.most is not None and e.least is not None:
        parts += [exchange_rows("moves the tree most", e.most), exchange_rows("moves the tree least", e.least)]
    return "\n".join(parts)


def exchanges_tsv(e: ExchangeTallies) -> str:
    """A row for each tally, or for each pair that moves the tree most and least if these are asked for."""
    if e.most is None or e.least is None:
        return lines_tsv([["tally", "lowest", "highest", "exchanges"],
                          *([at, *(bounds or ("", "")), tally] for at, (bounds, tally) in enumerate(zip(e.bounds, e.tallies)))])
    return lines_tsv([["moves", *EXCHANGE_KEYS],
                      *([moves, *(getattr(one, key) for key in EXCHANGE_KEYS)]
                        for moves, exchanges in (("most", e.most), ("least", e.least)) for one in exchanges)])


EXCHANGE_FORMATS = {"text": exchanges_for_people, "tsv": exchanges_tsv, "json": line_json}


# ---- what a viewer may see

def view_for_people(v: View) -> str:
    """The figures of the visible populations. Where the trees come from is not told: a path could name a hidden one."""
    return row("visible populations", str(v.visible)) + quartets_for_people(v) + "\n" + splits_for_people(v)


def view_tsv(v: View) -> str:
    """The columns are the keys but the names."""
    return rows_tsv([key for key in VIEW_KEYS if key != "names"], [v])


VIEW_FORMATS = {"text": view_for_people, "tsv": view_tsv, "json": line_json}


def topology_for_people(t: Topology) -> str:
    """A line for each pair, or for each population that is left open."""
    told = "leaves them open:" if t.pairs is None else "parts them two and two:"
    parts = [(name,) for name in t.names] if t.pairs is None else t.pairs
    return f"{told}\n" + "".join(f"  {' + '.join(map(told_name, part))}\n" for part in parts)


def topology_tsv(t: Topology) -> str:
    """The pairs have a column each, and are empty for a star."""
    return lines_tsv([["names", "topology", "first_pair", "second_pair"], [t.names, t.topology, *(t.pairs or ("", ""))]])


TOPOLOGY_FORMATS = {"text": topology_for_people, "tsv": topology_tsv, "json": line_json}


# ---- three trees side by side

PAIR_CASES = ["A  parted alike by both", "B  parted differently", "C  parted by the first of the two only",
              "D  parted by the second of the two only", "E  left open by both"]
THREE_COLUMNS = ("pair", "first", "second", "tips", "sets_of_four", *CASE_KEYS, "distance", "normalised_distance", "closest")


def told_pair(pair: Sequence[str]) -> str:
    return f"the {pair[0]} and the {pair[1]} tree"


def told_closest(t: ThreeTrees) -> str:
    """Which two trees are closest; of equal distances all pairs."""
    least = min(map(length, t.pairs))
    distance = f"the distance {least}" if t.weight is None else f"the weighted distance {exactly(least)}"
    if len(t.closest) == len(t.pairs):
        return f"no two are closest: all three pairs have {distance}"
    return f"closest: {', and as close '.join(map(told_pair, t.closest))}, with {distance}"


def told_triangle(t: ThreeTrees) -> str:
    """What a small weight does to distances, or an empty text."""
    if t.weight is None or t.weight >= TRIANGLE_WEIGHT:
        return ""
    return ("with a weight below 1/2 the way through a third tree can be shorter than the direct one: the triangle inequality "
            "holds only from 1/2 on")


def with_notes(table: str, notes: Sequence[str]) -> str:
    """The lines of a table, each with its note if it has one."""
    return "".join(line + (f"   {note}" if note else "") + "\n" for line, note in zip(table.splitlines(), notes, strict=True))


def pairs_for_people(t: ThreeTrees) -> str:
    """A column for each pair: the five cases and the distances."""
    over = "{} / sets of four" if t.sets_of_four else "there are no sets of four"
    rows = [(name, [str(getattr(one, key)) for one in t.pairs], "") for name, key in zip(PAIR_CASES, CASE_KEYS, strict=True)]
    rows += [("distance", [str(one.distance) for one in t.pairs], "B + C + D"),
             ("normalised distance", [f"{one.normalised_distance:.4f}" for one in t.pairs], over.format("distance"))]
    if t.weight is not None:
        rows += [("weighted distance", [exactly(length(one)) for one in t.pairs], f"B + p (C + D), p = {told_fraction(t.weight)}"),
                 ("normalised weighted distance", [f"{one.normalised_weighted_distance:.4f}" for one in t.pairs],
                  over.format("weighted distance"))]
    table = columns(["trees", *(", ".join(one.pair) for one in t.pairs)], [[name, *cells] for name, cells, _ in rows])
    return with_notes(table, ["", *(note for *_, note in rows)])


def three_for_people(t: ThreeTrees) -> str:
    last = "".join(f"{line}\n" for line in (told_closest(t), told_triangle(t)) if line)
    head = trees_for_people(t, [t.first, t.second, t.third], "sets of four") + row("sets of four", str(t.sets_of_four))
    return "\n".join([head, pairs_for_people(t), last])


def three_tsv(t: ThreeTrees) -> str:
    """A row for each pair, with where its two trees come from and whether no pair is closer."""
    keys = THREE_COLUMNS + WEIGHTED_KEYS * (t.weight is not None) + STRUCK_KEYS * (t.struck is not None)
    rows = []
    for one in t.pairs:
        first, second = (getattr(t, ordinal) for ordinal in one.pair)
        told = t.as_dict() | one.as_dict() | {"pair": one.pair, "first": first, "second": second, "struck": t.struck,
                                              "closest": "yes" if one.pair in t.closest else "no"}
        rows.append([told[key] for key in keys])
    return lines_tsv([keys, *rows])


THREE_FORMATS = {"text": three_for_people, "tsv": three_tsv, "json": line_json}


# ---- the tree nearest to all of several

NEAREST_COLUMNS = ("position", *ROW_KEYS, "nearest", "tips", "sets_of_four", "counted_by")


def told_counting(n: NearestTree) -> str:
    """What tells which tree is nearest; if the library's one call does not, why."""
    if n.counted_by == BY_CALL:
        return f"counted by {BY_CALL}, and pair by pair"
    if len(n.rows) > MOST_TREES:
        return f"counted pair by pair: {BY_CALL} takes {FEWEST_TREES} to {MOST_TREES} trees"
    return f"counted pair by pair: {BY_CALL} strikes no populations"


def nearest_row(n: NearestTree) -> str:
    """The tree, its sum, and the later ones that have it too."""
    others = len(n.rows) - 1
    as_near = told_names([n.rows[at].tree for at in n.as_near], NAMES_ON_A_SIDE)
    return (f"nearest to all: {one_line(n.tree)}\n"
            + row("summed distance", str(n.sum), f"to {others} other {'tree' if others == 1 else 'trees'}")
            + row("mean normalised distance", f"{n.mean_normalised_distance:.4f}",
                  "summed distance / other trees / sets of four" if n.sets_of_four else "there are no sets of four")
            + (f"with the same sum: {as_near}\n" if as_near else ""))


def nearest_for_people(n: NearestTree) -> str:
    """The tree with its sum, then a row for each tree."""
    parts = [struck_for_people(n),
             row("trees", str(len(n.rows))) + tips_for_people(n, "sets of four") + row("sets of four", str(n.sets_of_four)),
             nearest_row(n),
             columns(["tree", "summed distance", "mean normalised"],
                     [[one_line(one.tree), str(one.sum), f"{one.mean_normalised_distance:.4f}"] for one in n.rows]),
             f"{told_counting(n)}\n"]
    return "\n".join(part for part in parts if part)


def nearest_tsv(n: NearestTree) -> str:
    """A row for each tree, with whether it is the nearest."""
    keys = NEAREST_COLUMNS + STRUCK_KEYS * (n.struck is not None)
    rows = []
    for at, one in enumerate(n.rows):
        told = n.as_dict() | {key: getattr(one, key) for key in ROW_KEYS}
        told |= {"position": at, "nearest": "yes" if at == n.position else "no", "struck": n.struck}
        rows.append([told[key] for key in keys])
    return lines_tsv([keys, *rows])


NEAREST_FORMATS = {"text": nearest_for_people, "tsv": nearest_tsv, "json": line_json}
