#!/usr/bin/env python3
"""Tests of the Python package leskwyn over the proved library.

    python3 tests/package_tests.py                            the program is target/bin/compare
    LESKWYN_COMPARE=FILE python3 tests/package_tests.py       the program is FILE

Needs target/libleskwyn.so, or what LESKWYN_LIBRARY names, and the proved program. Figures are held to the program's listing,
to a brute force over sets of four that looks at the edges of named trees, and to one over sets of three that climbs to their
lowest common ancestors; where names are struck, over sets of four of trees that are cut down here; the evidence for four tips to a
search over all edges and all nodes; the influence of each tip to a look at every set of four that holds it; canonical copies to
nested sets of names; exchanges to every set of four with two names exchanged, and to comparisons of the two trees; views to every
set of four visible names, and to each other where only hidden tips differ; three trees side by side, and the tree nearest to all of
several, to every set of four of each two; Robinson-Foulds distances to DendroPy and to ETE where they are installed.
"""
import ctypes
import dataclasses
import decimal
import fractions
import importlib.util
import io
import itertools
import json
import math
import os
import pathlib
import pickle
import random
import re
import subprocess
import sys
import tempfile
import types
import typing
import unittest
import unittest.mock

sys.dont_write_bytecode = True
ROOT = pathlib.Path(__file__).resolve().parent.parent
sys.path.insert(0, str(ROOT / "python"))
from command_runs import CommandTest
from cases import skips
from cases.copies import copy_table, copy_text, kept_splits
from cases.evidence import Witness, evidence, parted
from cases.exchanges import REFERENCE_TALLIES, bounds, exchange_distances, exchanges, tallies, tally_of
from cases.influence import influence
from cases.nearest import nearest, sums_of
from cases.newick import Tree, parting, random_names, random_tree, sides_of, star_text, with_pass_through, written_tree
from cases.pairs import climb, needed, split_counts
from cases.quartets import OUTSIDE_PAIRS, REFERENCE_PAIRS, cases_by_pairs
from cases.shapes import (balanced, caterpillar, chained, random_pair, random_table, randomly_chained, related_pair, renumbered,
                          shuffled, star, unrelated_pair, with_labels_exchanged)
from cases.tables import (LABEL_TROUBLE, NUMBERS, OUTSIDE, PASS_THROUGH, P, Q, R, REFERENCE, THREE, TWO, W, X, Table, damaged,
                          table, tree_refusal)
from cases.three import three
from cases.triplets import triplet_table
from cases.views import topology, view, visible, with_tips

import leskwyn
from leskwyn import _library, api, copies, counting, exchanges as exchanging, sources, trees, weights

PROGRAM = pathlib.Path(os.environ.get("LESKWYN_COMPARE") or ROOT / "target" / "bin" / "compare").absolute()
MOST_BYTES = 1016
HAS_DENDROPY, HAS_ETE = (importlib.util.find_spec(name) is not None for name in ("dendropy", "ete3"))
FEATHERS, WINGS = ROOT / "examples" / "feathers.nwk", ROOT / "examples" / "wings.nwk"


TRIPLET_KEYS = ["same_triplets", "different_triplets", "first_only_triplets", "second_only_triplets", "neither_triplets"]

WEIGHTED_KEYS = ["weight", "weighted_distance", "normalised_weighted_distance"]

CASE_KEYS = ["same", "different", "first_only", "second_only", "neither"]
SPLIT_KEYS = ["first_splits", "second_splits", "common_splits", "robinson_foulds"]
COUNTED_KEYS = ["sets_of_four", *CASE_KEYS, "distance", "normalised_distance"]


def triplets_of(found: leskwyn.Comparison) -> list[int]:
    return [getattr(found, key) for key in TRIPLET_KEYS]


def packed(*tables: list[int]) -> bytes:
    return b"".join(word.to_bytes(2, "little") for table in tables for word in table)


# ---- the figures of two named trees, worked out here

def split_sets(sides: list[frozenset[str]], names: frozenset[str]) -> set[frozenset[frozenset[str]]]:
    return {frozenset([side, names - side]) for side in sides if 2 <= len(side) <= len(names) - 2}


def cut_down(tree: Tree, kept: frozenset[str]) -> Tree:
    """The tree with these names only: ends without one of them go, one after the other, and then nodes that join two others."""
    left = Tree([])
    left.name = {node: name for node, name in tree.name.items() if name in kept}
    left.joined = {node: set(others) for node, others in tree.joined.items()}
    todo = list(left.joined)
    while todo:
        node = todo.pop()
        if node in left.joined and node not in left.name and len(left.joined[node]) <= 2:
            ends = left.joined.pop(node)
            for end in ends:
                left.joined[end].remove(node)
            if len(ends) == 2:
                left.join(*ends)
            todo += ends
    return left


def nodes_above(tree: Tree, outgroup: str) -> dict[str, list[int]]:
    """The nodes above each name, upwards, in the tree as it hangs from its outgroup."""
    top = next(node for node, name in tree.name.items() if name == outgroup)
    above: dict[int, list[int]] = {top: []}
    todo = [top]
    while todo:
        node = todo.pop()
        for other in tree.joined[node] - set(above):
            above[other] = [node, *above[node]]
            todo.append(other)
    return {name: above[node] for node, name in tree.name.items()}


def apart(above: dict[str, list[int]], three: frozenset[str]) -> str | None:
    """The name that the lowest common ancestor of the other two is no ancestor of, or None if no name is."""
    for name in three:
        one, other = three - {name}
        lowest = next(node for node in above[one] if node in above[other])
        if lowest not in above[name]:
            return name
    return None


def triplet_cases(first: Tree, second: Tree, outgroup: str) -> list[int]:
    """A to E, by looking at every set of three without the outgroup."""
    one, other = nodes_above(first, outgroup), nodes_above(second, outgroup)
    cases = [0] * 5
    for three in map(frozenset, itertools.combinations(set(one) - {outgroup}, 3)):
        a, b = apart(one, three), apart(other, three)
        cases[(0 if a == b else 1) if a and b else 2 if a else 3 if b else 4] += 1
    return cases


def weighted_figures(cases: list[int], of_four: int, weight: fractions.Fraction | None) -> dict[str, typing.Any]:
    """The weighted distance of the five cases in whole numbers; a division by 256 is exact in floats."""
    if weight is None:
        return {}
    distance = int(256 * cases[1] + 256 * weight * (cases[2] + cases[3])) / 256
    return dict(zip(WEIGHTED_KEYS, [float(weight), distance, distance / of_four if of_four else 0.0]))


def expected_figures(first: Tree, second: Tree, outgroup: str | None = None, weight: fractions.Fraction | None = None,
                     struck: typing.Collection[str] | None = None) -> dict[str, typing.Any]:
    """All figures of the pair, by looking at every set of four and every set of three; sets of four and splits are those of the
    trees without the struck names."""
    names = frozenset(first.name.values())
    kept = names - frozenset(struck or ())
    one, other = (sides_of(cut_down(tree, kept) if struck else tree) for tree in (first, second))
    cases = [0] * 5
    for four in map(frozenset, itertools.combinations(sorted(kept), 4)):
        a, b = parting(one, four), parting(other, four)
        cases[(0 if a == b else 1) if a and b else 2 if a else 3 if b else 4] += 1
    same, different, first_only, second_only, neither = cases
    outgroup = min(names) if outgroup is None else outgroup
    triplets = triplet_cases(first, second, outgroup)
    of_three, triplet_distance = math.comb(len(names) - 1, 3), sum(triplets[1:4])
    splits, others = split_sets(one, kept), split_sets(other, kept)
    of_four, of_both = math.comb(len(kept), 4), len(splits) + len(others)
    distance, robinson_foulds = different + first_only + second_only, len(splits ^ others)
    order = [outgroup, *sorted(names - {outgroup})]
    of_struck = {} if struck is None else {"kept": len(kept), "struck": [name for name in order if name in struck]}
    return {"tips": len(names), "sets_of_four": of_four, "same": same, "different": different, "first_only": first_only,
            "second_only": second_only, "neither": neither, "distance": distance,
            "normalised_distance": distance / of_four if of_four else 0.0, "first_splits": len(splits),
            "second_splits": len(others), "common_splits": len(splits & others), "robinson_foulds": robinson_foulds,
            "normalised_robinson_foulds": robinson_foulds / of_both if of_both else 0.0,
            "first_claims": 2 * (same + different + first_only), "second_claims": 2 * (same + different + second_only),
            "same_claims": 2 * same, "different_claims": 4 * different, "names": order, "outgroup": outgroup,
            "sets_of_three": of_three, **dict(zip(TRIPLET_KEYS, triplets)), "triplet_distance": triplet_distance,
            "normalised_triplet_distance": triplet_distance / of_three if of_three else 0.0,
            **weighted_figures(cases, of_four, weight), **of_struck}


def random_named_trees(rng: random.Random, n: int, count: int = 2) -> list[Tree]:
    names = random_names(rng, n)
    return [random_tree(rng, names, rng.choice([0, 0.2, 0.5, 0.9])) for _ in range(count)]


# ---- named trees as others read them

def nodes_of(tree: Tree, make: typing.Callable[[str | None], typing.Any]) -> typing.Any:
    """The tree as nodes of another package, which `make` makes of a tip's name, or of None."""
    def beyond(node: int, origin: int) -> typing.Any:
        made = make(tree.name.get(node))
        for other in sorted(tree.joined[node] - {origin}):
            made.add_child(beyond(other, node))
        return made
    return beyond(min(node for node in tree.joined if node not in tree.name), -1)


def in_nodes(tree: Tree) -> typing.Any:
    """The tree as nodes with children and a name in quotes, as ETE has them."""
    def make(name: str | None) -> types.SimpleNamespace:
        below: list[typing.Any] = []
        quoted = "'" + name.replace("'", "''") + "'" if name else ""
        return types.SimpleNamespace(children=below, name=quoted, add_child=below.append)
    return nodes_of(tree, make)


def in_dendropy(trees: list[Tree]) -> list[typing.Any]:
    import dendropy
    taxa = dendropy.TaxonNamespace(is_case_sensitive=True)
    made = [nodes_of(tree, lambda name: dendropy.Node(taxon=taxa.require_taxon(label=name) if name else None)) for tree in trees]
    return [dendropy.Tree(seed_node=top, taxon_namespace=taxa, is_rooted=False) for top in made]


def in_ete(tree: Tree) -> typing.Any:
    import ete3
    return nodes_of(tree, lambda name: ete3.TreeNode(name=name or ""))


class FiguresTest(unittest.TestCase):
    def assert_figures(self, found: leskwyn.Comparison, first: Tree, second: Tree, outgroup: str | None = None,
                       weight: fractions.Fraction | None = None, struck: typing.Collection[str] | None = None) -> None:
        told = found.as_dict()
        self.assertEqual({key: told[key] for key in told if key not in ("first", "second")},
                         expected_figures(first, second, outgroup, weight, struck))


class Figures(FiguresTest):
    """The figures of named trees, by an enumeration that knows nothing of tables."""

    def test_random_trees(self) -> None:
        rng = random.Random(1)
        for case in range(60):
            first, second = random_named_trees(rng, 3 + case % 12)
            texts = [written_tree(rng, tree) for tree in (first, second)]
            with self.subTest(case=case, texts=texts):
                self.assert_figures(leskwyn.compare(*texts), first, second)
                self.assert_figures(leskwyn.compare("".join(texts)), first, second)

    def test_outgroups(self) -> None:
        """Each name in its turn, by itself and as a quoted word of Newick text; no figure but those of triplets changes."""
        rng, distances = random.Random(13), set()
        for case in range(12):
            first, second = random_named_trees(rng, 4 + case % 8)
            texts = [written_tree(rng, tree) for tree in (first, second)]
            figures = leskwyn.compare(*texts).as_dict()
            for name in first.name.values():
                with self.subTest(case=case, name=name, texts=texts):
                    found = leskwyn.compare(*texts, outgroup=name)
                    self.assert_figures(found, first, second, name)
                    self.assertEqual(found, leskwyn.compare(*texts, outgroup="'" + name.replace("'", "''") + "'"))
                    differing = {key for key, value in found.as_dict().items() if value != figures[key]}
                    self.assertLessEqual(differing, {"names", "outgroup", *TRIPLET_KEYS, "triplet_distance",
                                                     "normalised_triplet_distance"})
                    distances.add((case, found.triplet_distance))
        self.assertGreater(len(distances), 30)

    def test_pass_through_nodes(self) -> None:
        """In either tree or in both, up to 4n nodes and beyond, in texts and in objects: every figure is as without them."""
        rng = random.Random(16)
        for case in range(40):
            plain = random_named_trees(rng, 4 + case % 8)
            chains = [with_pass_through(rng, tree, rng.randint(1, 5 * len(tree.name))) for tree in plain]
            for first, second in (chains, (chains[0], plain[1]), (plain[0], chains[1])):
                texts = [written_tree(rng, tree) for tree in (first, second)]
                with self.subTest(case=case, texts=texts):
                    self.assert_figures(leskwyn.compare(*texts, weight="1/2"), *plain, weight=fractions.Fraction(1, 2))
                    self.assert_figures(leskwyn.compare(*map(in_nodes, (first, second))), *plain)

    def test_weights(self) -> None:
        """Each k/256, and no figure but the weighted distance changes."""
        rng, distances = random.Random(14), set()
        for case in range(257):
            first, second = random_named_trees(rng, 4 + case % 9)
            texts = [written_tree(rng, tree) for tree in (first, second)]
            weight = fractions.Fraction(case, 256)
            with self.subTest(case=case, texts=texts):
                found = leskwyn.compare(*texts, weight=weight)
                self.assert_figures(found, first, second, weight=weight)
                self.assertEqual(dataclasses.replace(found, weight=None, weighted_distance=None), leskwyn.compare(*texts))
                self.assertEqual(math.copysign(1, found.weighted_distance), 1)
                distances.add(found.weighted_distance)
        self.assertGreater(len(distances), 120)

    def test_triplets_of_a_caterpillar(self) -> None:
        """Under the name at its one end, the name at the other end moves to the top: its C(98, 2) sets of three are parted
        differently, and no other set changes."""
        names = [f"t{i:02}" for i in range(100)]
        moved = names[:1] + names[-1:] + names[1:-1]
        texts = ["".join(f"({name}," for name in order[:-1]) + order[-1] + ")" * 99 + ";" for order in (names, moved)]
        found = leskwyn.compare(*texts)
        self.assertEqual(triplets_of(found), [math.comb(99, 3) - math.comb(98, 2), math.comb(98, 2), 0, 0, 0])
        self.assertEqual((found.outgroup, found.sets_of_three), ("t00", math.comb(99, 3)))

    def test_caterpillars_of_200_levels(self) -> None:
        """One tip moved from one end to the other: it is in C(199, 3) sets of four, and no other set changes."""
        names = [f"t{i:03}" for i in range(200)]
        moved = names[1:] + names[:1]
        texts = ["".join(f"({name}," for name in order[:-1]) + order[-1] + ")" * 199 + ";" for order in (names, moved)]
        found = leskwyn.compare(*texts)
        # The moved tip is at the one end, or at the other: of x < y < z behind it, tx|yz or xy|zt.
        self.assertEqual((found.different, found.same), (math.comb(199, 3), math.comb(200, 4) - math.comb(199, 3)))
        self.assertEqual((found.first_splits, found.second_splits, found.common_splits), (197, 197, 0))

    def test_root_lengths_and_order_play_no_part(self) -> None:
        rng = random.Random(2)
        tree = random_named_trees(rng, 40, 1)[0]
        for _ in range(10):
            found = leskwyn.compare(written_tree(rng, tree), written_tree(rng, tree))
            self.assertEqual((found.distance, found.robinson_foulds), (0, 0))

    def test_no_sets_of_four_and_no_splits(self) -> None:
        for text in ("(A,B);", "(A,(B,C));"):
            found = leskwyn.compare(text, text)
            self.assertEqual((found.sets_of_four, found.normalised_distance), (0, 0.0))
            self.assertEqual((found.sets_of_three, found.triplet_distance, found.normalised_triplet_distance), (0, 0, 0.0))
            self.assertEqual((found.robinson_foulds, found.normalised_robinson_foulds), (0, 0.0))

    @unittest.skipUnless(HAS_DENDROPY, "DendroPy is not installed")
    def test_robinson_foulds_of_dendropy(self) -> None:
        from dendropy.calculate import treecompare
        rng, distances = random.Random(3), set()
        for case in range(60):
            pair = random_named_trees(rng, 4 + case)
            trees = in_dendropy(pair)
            found = leskwyn.compare(*trees)
            self.assertEqual(found.robinson_foulds, treecompare.symmetric_difference(*trees))
            self.assertEqual(found, leskwyn.compare(*(written_tree(rng, tree) for tree in pair)))
            distances.add(found.robinson_foulds)
        self.assertGreater(len(distances), 20)

    @unittest.skipUnless(HAS_ETE, "ETE is not installed")
    def test_robinson_foulds_of_ete(self) -> None:
        rng, distances = random.Random(11), set()
        for case in range(60):
            names = [name for name in random_names(rng, 10 + case) if "_" not in name and name[0] not in "'\""]
            pair = [random_tree(rng, names, rng.choice([0, 0.5])) for _ in range(2)]
            trees = [in_ete(tree) for tree in pair]
            found = leskwyn.compare(*trees)
            self.assertEqual(found.robinson_foulds, trees[0].robinson_foulds(trees[1], unrooted_trees=True)[0])
            self.assertEqual(found, leskwyn.compare(*(written_tree(rng, tree) for tree in pair)))
            distances.add(found.robinson_foulds)
        self.assertGreater(len(distances), 20)


class Listings(CommandTest):
    """The proved program's listing, on files that both take, of the command and of the package; beyond them, the counts of
    cases/."""

    def program(self, content: bytes) -> str:
        done = subprocess.run([PROGRAM], input=content, capture_output=True, check=True, timeout=20)
        self.assertEqual(done.stderr, b"")
        return done.stdout.decode()

    def listing(self, content: bytes) -> str:
        """What the command prints, with its status; of a refused file standard error has the reason."""
        done = self.run_here("-", "--listing", "--tables", command="compare", stdin=content)
        try:
            printed, status, told = api.compare_file("standard input", content).listing(), 0, ""
        except leskwyn.Refusal as refusal:
            self.assertTrue(refusal.reason.startswith("standard input: "))
            printed, status, told = f"refused {refusal.number}\n", 1, f"leskwyn: {refusal}\n"
        self.assertEqual((done.stdout.decode(), done.returncode, done.stderr.decode()), (printed, status, told))
        if status == 0 or sources.is_comparison_file(content):
            again = self.run_here("-", "--listing", command="compare", stdin=content)
            self.assertEqual((again.stdout, again.returncode), (done.stdout, status))
        return printed

    def assert_same_listing(self, content: bytes) -> str:
        self.assertLessEqual(len(content), MOST_BYTES)
        listing = self.listing(content)
        self.assertEqual(listing, self.program(content))
        return listing

    def test_every_beginning_of_a_file(self) -> None:
        content = packed(P, Q)
        for length in range(len(content)):
            self.assertRegex(self.assert_same_listing(content[:length]), r"^refused \d+\n$")
        self.assertTrue(self.assert_same_listing(content).startswith("leaves 5\n"))
        self.assertEqual(self.assert_same_listing(content + bytes(2)), "refused 104\n")

    def test_every_word_of_a_file_changed(self) -> None:
        for at in range(len(P + Q)):
            for word in (0, 1, 2, 7, 65535):
                self.assert_same_listing(packed([*(P + Q)[:at], word, *(P + Q)[at + 1:]]))

    def test_reference_pairs(self) -> None:
        for t, u in itertools.product(REFERENCE + OUTSIDE, repeat=2):
            self.assert_same_listing(packed(t, u))

    def test_every_size(self) -> None:
        rng, sizes = random.Random(4), set()
        for n in [*range(4, 65), *range(4, 65, 3)]:
            pair = rng.choice([related_pair, unrelated_pair])(rng, n)
            sizes.add(len(self.assert_same_listing(packed(*pair))) and len(packed(*pair)))
        for pair in ((star(125), star(125)), (caterpillar(64), balanced(64)), (balanced(84), star(84))):
            sizes.add(len(self.assert_same_listing(packed(*pair))) and len(packed(*pair)))
        self.assertEqual(max(sizes), MOST_BYTES)

    def test_pass_through_nodes(self) -> None:
        """The listing of the tables without them."""
        rng = random.Random(17)
        for (t, plain), (u, other) in itertools.product(PASS_THROUGH, repeat=2):
            self.assertEqual(self.assert_same_listing(packed(t, u)), self.assert_same_listing(packed(plain, other)))
        for n in range(2, 31):
            pair = related_pair(rng, n)
            chains = [randomly_chained(rng, t) for t in pair]
            self.assertEqual(self.assert_same_listing(packed(*chains)), self.assert_same_listing(packed(*pair)))

    def test_1024_nodes(self) -> None:
        """The largest tables, and the largest work: the figures of the tables without pass-through nodes."""
        rng, of_four, of_three = random.Random(18), math.comb(256, 4), math.comb(255, 3)
        worm, fan = (chained(rng, t, 1024) for t in (caterpillar(256), star(256)))
        same = api.compare_file("file", packed(worm, chained(rng, caterpillar(256), 1024)))
        self.assertEqual((same.same, same.distance, same.first_splits, same.common_splits), (of_four, 0, 253, 253))
        self.assertEqual((triplets_of(same), same.triplet_distance), ([of_three, 0, 0, 0, 0], 0))
        other = api.compare_file("file", packed(worm, fan))
        self.assertEqual((other.first_only, other.first_splits, other.second_splits, other.robinson_foulds), (of_four, 253, 0, 253))
        self.assertEqual(triplets_of(other), [0, 0, of_three, 0, 0])
        pair = related_pair(rng, 256)
        chains = [chained(rng, t, 1024) for t in pair]
        self.assertEqual(self.listing(packed(*chains)), self.listing(packed(*pair)))

    def test_damaged_files(self) -> None:
        rng, numbers = random.Random(5), set()
        spoiled = [*damaged(P), *(t for t, _ in LABEL_TROUBLE)]
        contents = [packed(*pair) for t in spoiled for pair in ((t, W), (W, t))]
        contents += [packed(P, [3, 4]), packed(P[:-3]), packed(P, REFERENCE[-1]), b"\5", b""]
        for case in range(150):
            content = bytearray(packed(P, Q) if case % 3 else rng.randbytes(rng.randrange(80)))
            for _ in range(case % 4):
                if content:
                    content[rng.randrange(len(content))] = rng.choice([0, 1, 3, 5, 255])
            contents.append(bytes(content[:len(content) - rng.choice([0, 0, 0, 1, 2, 5])]))
        for content in contents:
            numbers.add(self.assert_same_listing(content).split("\n")[0])
        refusals = [*NUMBERS, *(100 + number for number in NUMBERS), 8, 15]
        self.assertEqual({line for line in numbers if line.startswith("refused")}, {f"refused {number}" for number in refusals})

    def test_larger_than_the_program_takes(self) -> None:
        rng = random.Random(6)
        for pair in (related_pair(rng, 100), unrelated_pair(rng, 90), (caterpillar(80), balanced(80))):
            found = api.compare_file("file", packed(*pair))
            self.assertEqual([found.same, found.different, found.first_only, found.second_only, found.neither],
                             cases_by_pairs(*pair))
            self.assertEqual([found.first_splits, found.second_splits, found.common_splits, found.robinson_foulds],
                             split_counts(*pair))
            self.assertEqual([*triplets_of(found), found.triplet_distance], triplet_table(*pair))

    def test_triplets(self) -> None:
        """docs/SPECIFICATION.md, 'The figures K1 to K9', and pairs of documents 004 and 000 and of mixed shape."""
        for t, u, *_, expected in REFERENCE_PAIRS + OUTSIDE_PAIRS:
            found = api.compare_file("file", packed(t, u))
            self.assertEqual((triplets_of(found), found.triplet_distance, found.sets_of_three),
                             (expected, sum(expected[1:4]), sum(expected)))
            self.assertEqual((found.outgroup, found.names), ("", ()))

    def test_large_files(self) -> None:
        """Too long for the program. The number tells what is wrong inside: never 9, never 14."""
        table = caterpillar(256)
        whole = packed(table, table)
        self.assertEqual(self.listing(whole), "leaves 256\nclaims 349585280 349585280 349585280 0\n"
                                              "quartets 174792640 0 0 0 0\ndistance 0\nsplits 253 253 253 0\n"
                                              "triplets 2731135 0 0 0 0\n")
        for content, number in ((whole[1:], 15), (whole[:-2], 104), (whole + bytes(2), 104), (whole + bytes(2000000), 104),
                                (packed(table, caterpillar(255)), 8), (b"\xff" * 300000, 2)):
            self.assertEqual(self.listing(content), f"refused {number}\n")

    def test_work(self) -> None:
        """(m - 1)(m' - 1) cells, and never more than the header's number, whatever the words say."""
        most = chained(random.Random(15), caterpillar(256), 1024)
        for t, u, cells in ((P, Q, 42), (Q, P, 42), ([], P, 0), ([5], P, 0), ([5, 0], P, 0), ([5, 65535], [5, 65535], 1046529),
                            (caterpillar(256), caterpillar(256), 259081), (most, most, 1046529), (P, most, 7161)):
            self.assertEqual(_library.work_cells(_library.words(t), _library.words(u)), cells)
        header = (ROOT / "include" / "leskwyn.h").read_text(encoding="utf-8")
        self.assertEqual(header.split("\n#define LESKWYN_WORK_CELLS ")[1].split("\n")[0], str(_library.WORK_CELLS))

    def test_256_tips(self) -> None:
        of_four, of_three = math.comb(256, 4), math.comb(255, 3)
        same = api.compare_file("file", packed(caterpillar(256), caterpillar(256)))
        self.assertEqual((same.same, same.distance, same.first_splits, same.common_splits), (of_four, 0, 253, 253))
        self.assertEqual((triplets_of(same), same.triplet_distance), ([of_three, 0, 0, 0, 0], 0))
        other = api.compare_file("file", packed(caterpillar(256), star(256)))
        self.assertEqual((other.first_only, other.distance, other.robinson_foulds), (of_four, of_four, 253))
        self.assertEqual((triplets_of(other), other.normalised_triplet_distance), ([0, 0, of_three, 0, 0], 1.0))
        open_both = api.compare_file("file", packed(star(256), star(256)))
        self.assertEqual((open_both.neither, open_both.normalised_distance), (of_four, 0.0))
        self.assertEqual((triplets_of(open_both), open_both.normalised_triplet_distance), ([0, 0, 0, 0, of_three], 0.0))


class Many(unittest.TestCase):
    """Squares and rows hold what each pair has alone, on any number of threads."""

    def setUp(self) -> None:
        rng = random.Random(7)
        self.trees = random_named_trees(rng, 11, 9)
        self.texts = [written_tree(rng, tree) for tree in self.trees]

    def test_squares(self) -> None:
        figures = [[expected_figures(t, u) for u in self.trees] for t in self.trees]
        for measure, key in (("quartet", "distance"), ("splits", "robinson_foulds"), ("triplets", "triplet_distance")):
            for normalised in (False, True):
                name = f"normalised_{key}" if normalised else key
                expected = [[pair[name] for pair in row] for row in figures]
                for jobs in (1, 2, 8, None):
                    found = leskwyn.matrix(self.texts, measure=measure, normalised=normalised, jobs=jobs)
                    self.assertEqual(found, expected)
                self.assertIs(type(found[0][1]), float if normalised else int)

    def test_outgroups(self) -> None:
        squares = []
        for outgroup in list(self.trees[0].name.values())[:4]:
            expected = [[expected_figures(t, u, outgroup)["triplet_distance"] for u in self.trees] for t in self.trees]
            squares.append(leskwyn.matrix(self.texts, measure="triplets", outgroup=outgroup))
            self.assertEqual(squares[-1], expected)
            rows = leskwyn.against(self.texts[0], self.texts[1:], outgroup=outgroup)
            self.assertEqual([(row.outgroup, row.triplet_distance) for row in rows], [(outgroup, one) for one in expected[0][1:]])
            self.assertEqual(leskwyn.matrix(self.texts, outgroup=outgroup), leskwyn.matrix(self.texts))
        self.assertNotEqual(squares[0], squares[1])

    def test_weights(self) -> None:
        for weight, k in (("none", 0), ("full", 256), ("1/2", 128), (3 / 256, 3)):
            figures = [[expected_figures(t, u, weight=fractions.Fraction(k, 256)) for u in self.trees] for t in self.trees]
            for normalised, key in ((False, "weighted_distance"), (True, "normalised_weighted_distance")):
                expected = [[pair[key] for pair in row] for row in figures]
                for jobs in (1, 8):
                    found = leskwyn.matrix(self.texts, measure="weighted", weight=weight, normalised=normalised, jobs=jobs)
                    self.assertEqual(found, expected)
                self.assertEqual({type(number) for row in found for number in row}, {float})
            rows = leskwyn.against(self.texts[0], self.texts[1:], weight=weight)
            self.assertEqual([[getattr(row, key) for key in WEIGHTED_KEYS] for row in rows],
                             [[one[key] for key in WEIGHTED_KEYS] for one in figures[0][1:]])

    def test_large_squares(self) -> None:
        """Threads at once inside the library, with trees of many sizes of work."""
        rng = random.Random(8)
        names = [f"t{i}" for i in range(60)]
        texts = [written_tree(rng, random_tree(rng, names, rng.random())) for _ in range(24)]
        expected = [[leskwyn.compare(t, u).distance for u in texts] for t in texts]
        for jobs in (1, 2, 8):
            self.assertEqual(leskwyn.matrix(texts, jobs=jobs), expected)

    def test_against(self) -> None:
        for jobs in (1, 2, 8):
            rows = leskwyn.against(self.texts[0], self.texts[1:], jobs=jobs)
            expected = [expected_figures(self.trees[0], tree) for tree in self.trees[1:]]
            self.assertEqual([(row.distance, row.triplet_distance) for row in rows],
                             [(one["distance"], one["triplet_distance"]) for one in expected])
            self.assertEqual({row.first for row in rows}, {"the reference"})
            self.assertEqual([row.second for row in rows], [f"tree {at}" for at in range(1, 9)])

    def test_several_trees_in_one_text(self) -> None:
        expected = leskwyn.matrix(self.texts)
        self.assertEqual(leskwyn.matrix("".join(self.texts)), expected)
        self.assertEqual(leskwyn.matrix(["".join(self.texts[:4]), *self.texts[4:]]), expected)
        self.assertEqual(leskwyn.matrix([]), [])
        self.assertEqual(leskwyn.matrix(self.texts[:1]), [[0]])

    def test_a_refusal_in_a_thread_is_raised(self) -> None:
        tables = [list(P), list(Q), [5, 8, 1, *P[3:]], list(P)]
        for jobs in (1, 3):
            with self.assertRaises(leskwyn.Refusal) as raised:
                counting.distances(tables, "quartet", False, jobs)
            self.assertIn(raised.exception.number, (5, 105))

    def test_wrong_arguments(self) -> None:
        with self.assertRaises(ValueError):
            leskwyn.matrix(self.texts, measure="triplet")
        with self.assertRaises(ValueError):
            leskwyn.matrix(self.texts, jobs=0)
        with self.assertRaisesRegex(ValueError, "^the weighted distance needs a weight$"):
            leskwyn.matrix(self.texts, measure="weighted")
        with self.assertRaisesRegex(ValueError, "^the measure is 'splits', and only 'weighted' takes a weight$"):
            leskwyn.matrix(self.texts, measure="splits", weight=0.5)

    def test_progress(self) -> None:
        for jobs in (1, 2):
            told: list[int] = []
            counting.distances([P, Q, P, Q, P], "splits", False, jobs, told.append)
            self.assertEqual((sorted(told), told[-1]), (told, 10))


class Given(unittest.TestCase):
    """What a tree may be."""

    def test_paths_and_texts(self) -> None:
        expected = leskwyn.compare(FEATHERS.read_text(), WINGS.read_text())
        self.assertEqual((expected.distance, expected.first, expected.second), (7, "the first tree", "the second tree"))
        for a, b in ((FEATHERS, WINGS), (str(FEATHERS), str(WINGS)), (FEATHERS, WINGS.read_text())):
            found = leskwyn.compare(a, b)
            self.assertEqual(dataclasses.replace(found, first=expected.first, second=expected.second), expected)
        self.assertEqual(leskwyn.compare(FEATHERS, WINGS).first, str(FEATHERS))
        self.assertEqual(leskwyn.compare(ROOT / "examples" / "p-q.bin").listing(),
                         "leaves 5\nclaims 10 6 6 0\nquartets 3 0 2 0 0\ndistance 2\nsplits 2 1 1 1\ntriplets 3 0 1 0 0\n")

    def dendropy_like(self, *names: typing.Any) -> types.SimpleNamespace:
        """A tree with these tips; a name stands for a tip with a taxon, a list for what is inside brackets."""
        def node(name: typing.Any) -> types.SimpleNamespace:
            below = [node(one) for one in name] if isinstance(name, list) else []
            taxon = types.SimpleNamespace(label=name) if isinstance(name, str) else None
            return types.SimpleNamespace(child_nodes=lambda: below, taxon=taxon, label=None)
        return types.SimpleNamespace(seed_node=node(list(names)))

    def ete_like(self, *names: typing.Any) -> types.SimpleNamespace:
        below = [self.ete_like(*name) if isinstance(name, list) else types.SimpleNamespace(children=[], name=name)
                 for name in names]
        return types.SimpleNamespace(children=below, name="")

    def test_objects_of_other_packages(self) -> None:
        """Told by what they have: a seed_node is DendroPy's, children and a name are ETE's."""
        expected = leskwyn.compare(FEATHERS.read_text(), WINGS.read_text())
        first = self.dendropy_like("Azores", ["Bute", "Coll"], "Foula", ["Lundy", "Texel"])
        second = self.ete_like("Azores", "Bute", ["Coll", "Foula"], ["Lundy", "Texel"])
        self.assertEqual(leskwyn.compare(first, second), expected)
        self.assertEqual(leskwyn.matrix([first, second, WINGS]), [[0, 7, 7], [7, 0, 0], [7, 0, 0]])
        for tree in (self.dendropy_like("A", ["B", None]), self.ete_like("A", ["B", ""]), self.ete_like("A", ["B", None])):
            with self.assertRaisesRegex(leskwyn.Refusal, "the first tree: a tip with an empty name"):
                leskwyn.compare(tree, "(A,B);")
        with self.assertRaisesRegex(leskwyn.Refusal, "one tree in the file; two trees are needed"):
            leskwyn.compare(first)

    def test_names_of_objects(self) -> None:
        """DendroPy has names as they are, ETE has words as Newick text has them."""
        names = ["a b", "a,b", "(c)", "it's", "d:1", "[e]", "f\ng", "'h", "\u00a0"]
        self.assertEqual(leskwyn.compare(self.dendropy_like(*names), self.ete_like(*names)).names, tuple(sorted(names)))
        words = ["a_b", "'c_d'", "'it''s'", '"e f"', "g", "'h'i'"]
        self.assertEqual(leskwyn.compare(self.ete_like(*words), self.ete_like(*words)).names,
                         tuple(sorted(["a b", "c_d", "it's", "e f", "g", "'h'i'"])))
        self.assertEqual(leskwyn.compare(self.dendropy_like("a_b", "c"), "('a_b',c);").names, ("a_b", "c"))

    @unittest.skipUnless(HAS_ETE, "ETE is not installed")
    def test_objects_of_ete(self) -> None:
        import ete3
        trees = [ete3.Tree(path.read_text()) for path in (FEATHERS, WINGS)]
        self.assertEqual(leskwyn.compare(*trees), leskwyn.compare(FEATHERS.read_text(), WINGS.read_text()))
        text = "(a_b:1,('A b',c)0.9:2,(d,(e)));"
        self.assertEqual(leskwyn.compare(ete3.Tree(text), text).distance, 0)
        quoted = ete3.Tree("('A,b',(c,d),\"it's\");", quoted_node_names=True)
        self.assertEqual(leskwyn.compare(quoted, quoted).names, ("A,b", "c", "d", "it's"))

    def with_dendropy(self, trees: list[typing.Any] | Exception) -> typing.Any:
        """In the place of DendroPy one that reads these trees in any NEXUS text."""
        def get(data: str, schema: str) -> list[typing.Any]:
            self.assertEqual((data.strip()[:6].upper(), schema), ("#NEXUS", "nexus"))
            if isinstance(trees, Exception):
                raise trees
            return trees
        return unittest.mock.patch.dict(sys.modules, {"dendropy": types.SimpleNamespace(TreeList=types.SimpleNamespace(get=get))})

    def test_nexus(self) -> None:
        nexus = "  #nexus\nbegin trees;\n tree a = (x,y);\nend;\n"
        trees = [self.dendropy_like("Azores", ["Bute", "Coll"], "Foula", ["Lundy", "Texel"]),
                 self.dendropy_like("Azores", "Bute", ["Coll", "Foula"], ["Lundy", "Texel"])]
        with self.with_dendropy(trees):
            self.assertEqual(leskwyn.compare(nexus).distance, 7)
            self.assertEqual(leskwyn.matrix([nexus, FEATHERS]), [[0, 7, 0], [7, 0, 7], [0, 7, 0]])
            with self.assertRaisesRegex(leskwyn.Refusal, "2 trees in the file; one tree is needed here"):
                leskwyn.compare(nexus, nexus)
        with self.with_dendropy([]), self.assertRaisesRegex(leskwyn.Refusal, "no tree in the file; two trees are needed"):
            leskwyn.compare(nexus)
        with self.with_dendropy(ValueError("line 2")), self.assertRaisesRegex(leskwyn.Refusal, "DendroPy cannot read it: line 2"):
            leskwyn.compare(nexus)
        with unittest.mock.patch.dict(sys.modules, {"dendropy": None}), self.assertRaises(leskwyn.Trouble) as raised:
            leskwyn.compare(nexus)
        self.assertIn("DendroPy, which is not installed", raised.exception.reason)

    def nexus(self, tree: str, block: str = "begin trees;") -> str:
        return f"#NEXUS begin x; y:1,2; utree; end;\n{block}\ntree x = {tree};\nend;\n"

    def test_nexus_that_could_be_read_in_two_ways(self) -> None:
        """Decimal commas, of which DendroPy makes tips, and trees that it passes over."""
        with self.with_dendropy([self.dendropy_like("A", "B")] * 2):
            for tree, fraction in (("(A:0,25,B)", "25"), ("(A:0,25,B:0,5)", "25"), ("(A:1,B: -3,5e1)", "5e1"),
                                   ("(A,B:12,5\n)", "5"), ("((A,B)0,95,C)", "95"), ("((A,B)1,00:0.1,C)", "00")):
                for block in ("begin trees;", "BEGIN  Trees ;"):
                    with self.assertRaisesRegex(leskwyn.Refusal, f"line 3: '{fraction}' is the end of a number with a decimal"):
                        leskwyn.compare(self.nexus(tree, block))
            for tree in ("(A,B); utree y = (A,B)", "(A,B);\n[a]\n[b] UTREE * y = (A,B)"):
                with self.assertRaisesRegex(leskwyn.Refusal, "line [35]: a UTREE, which DendroPy passes over: write TREE"):
                    leskwyn.compare(self.nexus(tree))
            for tree in ("(1:0,2:1,3:5)", "(1,2,3)", "((1,2)1,2)", "((1,2)95,3)", "(1:0.5,2)", "(1:1, 2)", "(1:1,'2')", "(1:2,3a)",
                         "(utree,2)"):
                self.assertEqual(leskwyn.compare(self.nexus(tree)).tips, 2)

    @unittest.skipUnless(HAS_DENDROPY, "DendroPy is not installed")
    def test_nexus_of_dendropy(self) -> None:
        rng = random.Random(12)
        names = [name for name in random_names(rng, 40) if not set(name) & set("\"';,:()[]")]
        pair = [random_tree(rng, names, 0.3) for _ in range(2)]
        import dendropy
        for schema in ("nexus", "newick"):
            text = dendropy.TreeList(in_dendropy(pair)).as_string(schema=schema)
            self.assertEqual(leskwyn.compare(text).as_dict() | {"first": "", "second": ""},
                             leskwyn.compare(*(written_tree(rng, tree) for tree in pair)).as_dict() | {"first": "", "second": ""})
        nexus = ("#NEXUS\n[a comment]\nbegin taxa;\n dimensions ntax=4;\n taxlabels Bute 'Coll x' Foula_a 'it''s';\nend;\n"
                 "Begin Trees;\n translate 1 Bute, 2 'Coll x', 3 Foula_a, 4 'it''s';\n tree one = [&U] ((1:0,2:1)1:0.5,3,4);\n"
                 " tree * two = ((1,3),2,4);\nend;\n")
        found = leskwyn.compare(nexus)
        self.assertEqual((found.names, found.different), (("Bute", "Coll x", "Foula a", "it's"), 1))
        self.assertEqual(leskwyn.compare(nexus.replace("\n", "\r\n")), found)

    @unittest.skipUnless(HAS_DENDROPY, "DendroPy is not installed")
    def test_nexus_that_dendropy_refuses_or_reads_as_something_else(self) -> None:
        for tree, words in (("((A,B),(C,D)", "DendroPy cannot read it"), ("(A,A,B)", "DendroPy cannot read it"),
                            ("(A,a,B)", "DendroPy cannot read it"), ("(,A,B)", "a tip with an empty name"),
                            ("(A:0,25,B:0,5)", "'25' is the end of a number with a decimal comma"),
                            ("(\"A,B\",C)", "DendroPy cannot read it"), ("(A,B);utree y = (A,B)", "a UTREE, which DendroPy")):
            with self.assertRaisesRegex(leskwyn.Refusal, words):
                leskwyn.compare(f"#NEXUS\nbegin trees;\n tree x = {tree};\nend;\n", "(A,B);")
        with self.assertRaisesRegex(leskwyn.Refusal, "no tree in the file"):
            leskwyn.compare("#NEXUS\nbegin data;\nend;\n")

    def test_what_is_no_tree(self) -> None:
        for given in (7, None, b"(A,B);", open, io.StringIO("(A,B);"), types.SimpleNamespace(write=lambda: None)):
            with self.assertRaises(TypeError):
                leskwyn.compare(given, "(A,B);")
        with self.assertRaisesRegex(leskwyn.Trouble, "neither Newick text nor the name of a file"):
            leskwyn.compare("absent.nwk", "(A,B);")
        with self.assertRaisesRegex(leskwyn.Trouble, "cannot read absent.nwk"):
            leskwyn.compare(pathlib.Path("absent.nwk"), "(A,B);")

    def test_any_text_and_any_bytes(self) -> None:
        """Either figures or a LeskwynError with a reason, whatever is given."""
        rng, outcomes = random.Random(10), set()
        pieces = [*"(),:;'\"[]_ \n", "A", "B", "0", "0,5", ":1", "\ufeff", "\u00a0", "é", "((", "))", "A:1", "(A,B)", "#NEXUS"]
        for case in range(4000):
            text = "".join(rng.choice(pieces) for _ in range(rng.randint(0, 20)))
            text = f"({text},B);" if case % 2 else text
            try:
                outcomes.add(leskwyn.compare(text, text).distance)
                sources.trees_of_bytes("bytes", rng.randbytes(rng.randint(0, 30)), None)
            except leskwyn.LeskwynError as error:
                self.assertGreater(len(error.reason), 10)
                outcomes.add(type(error))
        self.assertEqual(outcomes, {0, leskwyn.Refusal, leskwyn.Trouble})

    def test_common(self) -> None:
        rng = random.Random(9)
        for _ in range(20):
            names = random_names(rng, 14)
            kept = names[:9]
            first, second = (random_tree(rng, names[:9] + more, 0.3) for more in (names[9:11], names[11:]))
            found = leskwyn.compare(written_tree(rng, first), written_tree(rng, second), common=True)
            self.assertEqual(found.names, tuple(sorted(kept)))
            cases = [0] * 5
            sides = [sides_of(first), sides_of(second)]
            for four in map(frozenset, itertools.combinations(kept, 4)):
                a, b = (parting(one, four) for one in sides)
                cases[(0 if a == b else 1) if a and b else 2 if a else 3 if b else 4] += 1
            self.assertEqual([found.same, found.different, found.first_only, found.second_only, found.neither], cases)

    def test_outgroups_that_are_no_tips(self) -> None:
        pair = ["(a_b,'c_d',(e,f));", "(a_b,(c_d,e),f);"]
        for outgroup in ("x", "", "c d", "a_b ", "A b"):
            with self.assertRaisesRegex(leskwyn.Refusal, "the trees have different tips"):
                leskwyn.compare(*pair, outgroup=outgroup)
            with self.assertRaisesRegex(leskwyn.Refusal, f"the outgroup '{outgroup}' is not a tip of every tree"):
                leskwyn.compare(*pair, common=True, outgroup=outgroup)
        for outgroup in ("a b", "a_b", "'a b'"):
            self.assertEqual(leskwyn.compare(*pair, common=True, outgroup=outgroup).names, ("a b", "e", "f"))
        with self.assertRaisesRegex(leskwyn.Refusal, "'M\u00f6we' differs only in Unicode form"):
            leskwyn.compare("(M\u00f6we,B);", "(B,M\u00f6we);", outgroup="Mo\u0308we")
        for call in (lambda: leskwyn.against("(A,B);", ["(A,B);"], outgroup="C"), lambda: leskwyn.matrix(["(A,B);"], outgroup="C")):
            with self.assertRaisesRegex(leskwyn.Refusal, "the outgroup 'C' is not a tip"):
                call()
        with self.assertRaisesRegex(leskwyn.Refusal, "p-q.bin is a comparison file, without names: its outgroup is label 0"):
            leskwyn.compare(ROOT / "examples" / "p-q.bin", outgroup="1")

    def test_names_with_blanks_and_underscores(self) -> None:
        """The outgroup is the name that is given, if a tip has it, before the word that it is in Newick text."""
        text = "('a_b',a_b,(c,d));"
        for outgroup, name in (("a_b", "a_b"), ("a b", "a b"), ("'a_b'", "a_b")):
            self.assertEqual(leskwyn.compare(text, text, outgroup=outgroup).outgroup, name)

    def test_common_of_larger_trees(self) -> None:
        many = [f"t{i}" for i in range(1000)]
        nested = "".join(f"({name}," for name in many[900:]) + "x" + ")" * 100 + ";"
        found = leskwyn.compare(star_text(many), nested, common=True)
        self.assertEqual((found.tips, found.second_only), (100, math.comb(100, 4)))
        with self.assertRaisesRegex(leskwyn.Refusal, "share 1 name; 2 or more are needed"):
            leskwyn.compare("(A,B,C);", "(A,X,Y);", common=True)


def library_evidence(t: Table, u: Table, labels: typing.Iterable[int]) -> list[int]:
    """All fields of the library's answer."""
    answer = _library.evidence(_library.words(t), _library.words(u), list(labels))
    return [getattr(answer, name) for name, _ in answer._fields_]


def evidence_pairs(seed: int, count: int) -> typing.Iterator[tuple[Table, Table]]:
    """Random pairs of 4 to 12 tips, with pass-through nodes in neither table, in one, or in both."""
    rng = random.Random(seed)
    for case in range(count):
        t, u = rng.choice([related_pair, unrelated_pair])(rng, 4 + case % 9)
        yield (randomly_chained(rng, t) if case // 9 % 4 in (1, 3) else t), (randomly_chained(rng, u) if case // 9 % 4 > 1 else u)


class LibraryEvidence(unittest.TestCase):
    """What the library tells of four labels, by a search over all edges and nodes."""

    def test_every_set_of_four(self) -> None:
        """Of each pair every set, and the sums of the cases are the quartet table."""
        rng, seen, sizes = random.Random(21), [0] * 5, set()
        for t, u in evidence_pairs(20, 108):
            cases = [0] * 5
            for four in itertools.combinations(range(t[0]), 4):
                told = library_evidence(t, u, rng.sample(four, 4))
                self.assertEqual(told, evidence(t, u, four), (t, u, four))
                cases[told[1]] += 1
            found = api.compare_file("file", packed(t, u))
            self.assertEqual(cases, [found.same, found.different, found.first_only, found.second_only, found.neither])
            self.assertEqual(cases, cases_by_pairs(t, u))
            seen = [one + more for one, more in zip(seen, cases)]
            sizes.add((t[0], t[1] == 4 * t[0] or u[1] == 4 * t[0]))
        self.assertGreater(min(seen), 100)
        self.assertEqual({n for n, largest in sizes if largest}, set(range(4, 13)))

    def test_every_order(self) -> None:
        for t, u in evidence_pairs(22, 18):
            for four in itertools.combinations(range(t[0]), 4):
                answers = {tuple(library_evidence(t, u, order)) for order in itertools.permutations(four)}
                self.assertEqual(len(answers), 1, (t, u, four))

    def test_by_hand(self) -> None:
        """P is (0,1,(2,(3,4))) with the inner nodes 1, 3 and 5; Q is (0,1,(2,3,4)) with 1 and 3; W is a star around node 1. P with
        pass-through nodes has the edges 3, 5 and 6 in a chain, and 7 above 3 and 4."""
        chain = PASS_THROUGH[0][0]
        for t, u, four, expected in ((P, Q, (0, 1, 2, 3), [0, 0, 1, 3, 1, 3]), (P, Q, (0, 1, 3, 4), [0, 0, 1, 3, 1, 3]),
                                     (P, Q, (1, 2, 3, 4), [0, 2, 1, 5, 0, 3]), (Q, P, (0, 2, 3, 4), [0, 3, 0, 3, 1, 5]),
                                     (W, W, (0, 1, 2, 3), [0, 4, 0, 1, 0, 1]), (W, P, (1, 2, 3, 4), [0, 3, 0, 1, 1, 5]),
                                     (P, REFERENCE[2], (0, 1, 2, 3), [0, 1, 1, 3, 1, 3]),
                                     (chain, P, (0, 1, 2, 3), [0, 0, 1, 3, 1, 3]), (P, chain, (1, 2, 3, 4), [0, 0, 1, 5, 1, 7]),
                                     (chain, W, (0, 1, 3, 4), [0, 2, 1, 3, 0, 1])):
            self.assertEqual(library_evidence(t, u, four), expected, (t, u, four))
            self.assertEqual(evidence(t, u, four), expected, (t, u, four))

    def test_one_slice(self) -> None:
        """The same words for both trees."""
        for t in REFERENCE + OUTSIDE:
            words = _library.words(t)
            for four in itertools.combinations(range(t[0]), 4):
                answer = _library.evidence(words, words, four)
                self.assertEqual([getattr(answer, name) for name, _ in answer._fields_], evidence(t, t, four))

    def test_refusals(self) -> None:
        """Those of the pair, without 9, then 10, then 11; a refusal shows E and nothing else."""
        asked = [(0, 1, 2, 3), (3, 1, 3, 2), (5, 1, 2, 3), (5, 5, 1, 1), (1, 1, 1, 9), (X, 0, 0, X), (0, 1, 0, 1)]
        spoiled = [*damaged(P), *(t for t, _ in LABEL_TROUBLE)]
        pairs = [*((t, W) for t in spoiled), *((W, t) for t in spoiled), *((t, t) for t in spoiled)]
        pairs += [*itertools.product([P, W, THREE, TWO], repeat=2), (P, spoiled[0]), (THREE, spoiled[-1])]
        numbers = set()
        for (t, u), labels in itertools.product(pairs, asked):
            told = library_evidence(t, u, labels)
            self.assertEqual(told, evidence(t, u, labels), (t, u, labels))
            numbers.add(told[0])
        self.assertEqual(numbers, {0, *NUMBERS, *(100 + number for number in NUMBERS), 8, 10, 11})

    def test_labels_beyond_a_word(self) -> None:
        """None of them is taken for the label that is left of it in 16 bits."""
        for label in (65536, 65537, 1 << 32):
            self.assertEqual(library_evidence(P, Q, (label, 1, 2, 3)), [10, 4, 0, 0, 0, 0])

    def test_256_tips(self) -> None:
        """In a caterpillar the labels above x lie beyond edge 2x + 1, so a < b < c < d are parted by 2b + 1 and, if c - b > 1, by
        later edges."""
        rng, worm, fan = random.Random(23), caterpillar(256), star(256)
        most = chained(rng, fan, 1024)
        for _ in range(300):
            a, b, c, d = sorted(rng.sample(range(256), 4))
            self.assertEqual(library_evidence(worm, fan, (c, a, d, b)), [0, 2, 1, 2 * b + 1, 0, 1])
            self.assertEqual(library_evidence(worm, worm, (a, b, c, d)), [0, 0, 1, 2 * b + 1, 1, 2 * b + 1])
            told = library_evidence(most, worm, (b, d, c, a))
            # the one inner node of several children
            self.assertEqual((told[:3], most[2:2 + 1024].count(told[3])), ([0, 3, 0], 255))


class Why(unittest.TestCase):
    """The evidence for four named tips."""

    def assert_shows(self, found: leskwyn.Witness, seen: Witness, table: Table, names: list[str]) -> None:
        """What a search of the table sees, in names in the order of their labels."""
        def named(labels: typing.Iterable[int]) -> tuple[str, ...]:
            return tuple(names[label] for label in sorted(labels))
        self.assertEqual((found.edge, found.node), (seen.number, None) if seen.edge else (None, seen.number))
        if seen.pairs is None:
            self.assertIsNone(found.pairs)
        else:
            self.assertEqual(list(found.pairs), [named(pair) for pair in sorted(seen.pairs, key=min)])
        self.assertCountEqual(found.parts, map(named, parted(table).parts(seen)))

    def assert_is_of(self, found: leskwyn.Witness, tree: Tree, four: frozenset[str]) -> None:
        """What a search of the named tree sees, without a table."""
        pairs = parting(sides_of(tree), four)
        self.assertEqual(found.pairs and frozenset(map(frozenset, found.pairs)), pairs)
        def beyond(a: int, b: int) -> frozenset[str]:
            return frozenset(tree.names_beyond(a, b))
        edges = {frozenset([beyond(a, b), beyond(b, a)]) for a, b in tree.edges()}
        nodes = {frozenset(beyond(a, b) for b in others) for a, others in tree.joined.items()}
        self.assertIn(frozenset(map(frozenset, found.parts)), edges if pairs else nodes)
        # two parts with a pair each, or four with one each and then the others
        held = [four & set(part) for part in found.parts]
        self.assertEqual(list(map(len, held)), [2, 2] if pairs else [1] * 4 + [0] * (len(held) - 4))
        self.assertEqual(held[:4], sorted(held[:4], key=min))

    def test_random_trees(self) -> None:
        """Every set of four, in texts and in objects, with pass-through nodes or without."""
        rng, cases = random.Random(24), set()
        for case in range(24):
            plain = random_named_trees(rng, 4 + case % 6)
            named = [with_pass_through(rng, tree, rng.randint(1, len(tree.name))) if case % 2 else tree for tree in plain]
            texts = [written_tree(rng, tree) for tree in named]
            names = sorted(plain[0].name.values())
            tables = [trees.table_of(sources.trees_of_text("", text, 1)[0].tree, {name: at for at, name in enumerate(names)})
                      for text in texts]
            for labels in itertools.combinations(range(len(names)), 4):
                four = [names[label] for label in labels]
                with self.subTest(texts=texts, four=four):
                    found = leskwyn.why(*texts, rng.sample(four, 4))
                    self.assertEqual((found.first, found.second, found.names), ("the first tree", "the second tree", tuple(four)))
                    self.assertEqual("ABCDE".index(found.case), evidence(*tables, labels)[1])
                    for one, table, tree in zip((found.first_tree, found.second_tree), tables, named):
                        self.assert_shows(one, parted(table).witness(frozenset(labels)), table, names)
                        self.assert_is_of(one, tree, frozenset(four))
                    self.assertEqual(leskwyn.why("".join(texts), None, four).case, found.case)
                    again = leskwyn.why(*map(in_nodes, named), four)
                    self.assertEqual((again.case, again.first_tree.pairs), (found.case, found.first_tree.pairs))
                    cases.add(found.case)
        self.assertEqual(cases, set("ABCDE"))

    def test_outgroups(self) -> None:
        """The case and the pairs do not depend on it; numbers do, and which of several edges is told."""
        rng, told = random.Random(25), set()
        for case in range(10):
            named = random_named_trees(rng, 6 + case % 3)
            texts = [written_tree(rng, tree) for tree in named]
            for outgroup, _ in itertools.product(sorted(named[0].name.values()), range(4)):
                names = [outgroup, *sorted(set(named[0].name.values()) - {outgroup})]
                labels = sorted(rng.sample(range(len(names)), 4))
                four = [names[label] for label in labels]
                found, other = leskwyn.why(*texts, four, outgroup=outgroup), leskwyn.why(*texts, four)
                self.assertEqual((found.names, found.case), (tuple(four), other.case))
                for one, text, tree in zip((found.first_tree, found.second_tree), texts, named):
                    table = trees.table_of(sources.trees_of_text("", text, 1)[0].tree, {name: at for at, name in enumerate(names)})
                    self.assert_shows(one, parted(table).witness(frozenset(labels)), table, names)
                    self.assertEqual(one.pairs and frozenset(map(frozenset, one.pairs)), parting(sides_of(tree), frozenset(four)))
                told.add((found.first_tree.edge == other.first_tree.edge, found.first_tree.parts == other.first_tree.parts))
        self.assertIn((False, False), told)

    def test_the_example_trees(self) -> None:
        """By hand: feathers have the edges 2 to Bute and Coll and 6 to Lundy and Texel, wings 3 to Coll and Foula and 6."""
        found = leskwyn.why(FEATHERS, str(WINGS), ["Lundy", "Coll", "Azores", "Bute"])
        self.assertEqual(found, leskwyn.Evidence(
            str(FEATHERS), str(WINGS), ("Azores", "Bute", "Coll", "Lundy"), "C",
            leskwyn.Witness((("Azores", "Lundy"), ("Bute", "Coll")), 2, None,
                            (("Azores", "Foula", "Lundy", "Texel"), ("Bute", "Coll"))),
            leskwyn.Witness(None, None, 1, (("Azores",), ("Bute",), ("Coll", "Foula"), ("Lundy", "Texel")))))
        for four, case, first, second in (("Azores Bute Coll Foula", "B", (2, None), (3, None)),
                                          ("Texel Bute Lundy Azores", "A", (6, None), (6, None)),
                                          ("Azores Coll Foula Texel", "D", (None, 1), (3, None)),
                                          ("Azores Bute Foula Lundy", "E", (None, 1), (None, 1))):
            found = leskwyn.why(FEATHERS, WINGS, four.split())
            self.assertEqual((found.case, (found.first_tree.edge, found.first_tree.node),
                              (found.second_tree.edge, found.second_tree.node)), (case, first, second))

    def test_branches_without_any_of_the_four(self) -> None:
        found = leskwyn.why("(a,x,b,(y,z),c,d);", "((a,b,x),(c,d,(y,z)));", "d c b a".split())
        self.assertEqual(found.first_tree.parts, (("a",), ("b",), ("c",), ("d",), ("x",), ("y", "z")))
        self.assertEqual(found.second_tree.parts, (("a", "b", "x"), ("c", "d", "y", "z")))

    def test_a_comparison_file(self) -> None:
        path = ROOT / "examples" / "p-q.bin"
        for labels in ([4, 3, 2, 1], ["1", "2", "3", "4"], (1, "02", 3, "4")):
            self.assertEqual(leskwyn.why(path, None, labels), leskwyn.Evidence(
                f"{path}, first tree", f"{path}, second tree", ("1", "2", "3", "4"), "C",
                leskwyn.Witness((("1", "2"), ("3", "4")), 5, None, (("0", "1", "2"), ("3", "4"))),
                leskwyn.Witness(None, None, 3, (("0", "1"), ("2",), ("3",), ("4",)))))
        with self.assertRaisesRegex(leskwyn.Refusal, "p-q.bin is a comparison file, without names: its outgroup is label 0"):
            leskwyn.why(path, None, [0, 1, 2, 3], outgroup="1")
        for labels, number, words in (([0, 1, 2, 5], 10, "there is no label 5: the labels are 0 to 4"),
                                      ([7, 65536, 1, 1], 10, "there is no label 7, 65536: the labels are 0 to 4"),
                                      ([1, 2, 1, 3], 11, "label 1 stands more than once; four different ones are needed"),
                                      ([1, 2, -1, 10**6], None, "'-1', '1000000' are no labels: a comparison file has no names"),
                                      (["P", 1, 2, 3], None, "'P' is no label: a comparison file has no names")):
            with self.assertRaises(leskwyn.Refusal) as raised:
                leskwyn.why(path, None, labels)
            self.assertEqual(raised.exception.number, number)
            self.assertIn(f"{path}: {words}", raised.exception.reason)

    def test_labels_in_their_order(self) -> None:
        """By number: 2 before 10."""
        with tempfile.NamedTemporaryFile() as file:
            file.write(packed(star(12), caterpillar(12)))
            file.flush()
            found = leskwyn.why(file.name, None, [10, 2, 11, 0])
        self.assertEqual((found.names, found.case, found.second_tree.pairs, found.second_tree.edge),
                         (("0", "2", "10", "11"), "D", (("0", "2"), ("10", "11")), 5))
        self.assertEqual(found.first_tree.parts, tuple((str(label),) for label in (0, 2, 10, 11, 1, 3, 4, 5, 6, 7, 8, 9)))

    def test_broken_tables(self) -> None:
        """The number of the pair comes before those of the labels, with its reason."""
        for (table, number), second in itertools.product(LABEL_TROUBLE, (False, True)):
            with tempfile.NamedTemporaryFile() as file:
                file.write(packed(Q, table) if second else packed(table, Q))
                file.flush()
                with self.assertRaises(leskwyn.Refusal) as raised:
                    leskwyn.why(file.name, None, [99, 99, 0, 0])
            self.assertEqual(raised.exception.number, 100 * second + number)
            self.assertRegex(raised.exception.reason, f"{'second' if second else 'first'} tree: ")

    def test_common(self) -> None:
        pair = ["((a,b),(c,d,x));", "((a,c),(b,d),(y,z));"]
        with self.assertRaisesRegex(leskwyn.Refusal, "the trees have different tips"):
            leskwyn.why(*pair, ["a", "b", "c", "d"])
        found = leskwyn.why(*pair, ["a", "b", "c", "d"], common=True)
        self.assertEqual((found.case, found.first_tree.parts, found.second_tree.parts),
                         ("B", (("a", "b"), ("c", "d")), (("a", "c"), ("b", "d"))))
        with self.assertRaisesRegex(leskwyn.Refusal, "^'x' is not a tip of both trees$"):
            leskwyn.why(*pair, ["a", "b", "c", "x"], common=True)

    def test_names(self) -> None:
        """By the name, or as the word that stands for it in Newick text; the name goes first."""
        text = "((a_b,'a_b'),('it''s',(c,M\u00f6we)));"
        found = leskwyn.why(text, text, ["a_b", "'a b'", "it's", "c"])
        self.assertEqual(found.names, ("a b", "a_b", "c", "it's"))
        self.assertEqual(leskwyn.why(text, text, ["'a_b'", "a b", "'it''s'", "'c'"]), found)
        for names, words in ((["a b", "c", "x", "'y'"], "^'x', ''y'' are not tips of both trees$"),
                             (["a b", "c", "x", "x"], "^'x' is not a tip of both trees$"),
                             (["a b", "c", "C", "it's"], "^'C' is not a tip of both trees$"),
                             (["a b", "c", "", "it's"], "^'' is not a tip of both trees$"),
                             (["a b", "a_b", "c", "'a b'"], "^'a b' stands more than once; four different names are needed$"),
                             (["a b", "c", "c", "a b"], "^'a b', 'c' stand more than once; four different names are needed$"),
                             (["a b", "c", "a_b", "Mo\u0308we"], "'M\u00f6we' differs only in Unicode form")):
            with self.subTest(names=names), self.assertRaisesRegex(leskwyn.Refusal, words) as raised:
                leskwyn.why(text, text, names)
            self.assertIsNone(raised.exception.number)

    def test_how_many_names(self) -> None:
        for names in ([], ["a"], ["a", "b", "c"], ["a", "b", "c", "d", "a"]):
            with self.assertRaisesRegex(ValueError, f"^there are {len(names)} names; four are needed$"):
                leskwyn.why("((a,b),(c,d));", "(a,b,c,d);", names)
        with self.assertRaisesRegex(TypeError, "^names is a str; four names are needed, as a list$"):
            leskwyn.why("((a,b),(c,d));", "(a,b,c,d);", "abcd")
        self.assertEqual(leskwyn.why("((1,2),(3,4));", "(1,2,3,4);", (4, 3, 2, 1)).case, "C")
        self.assertEqual(leskwyn.why("((a,b),(c,d));", "(a,b,c,d);", iter("abcd")).case, "C")

    def test_trees_without_sets_of_four(self) -> None:
        for text in ("(a,b);", "(a,(b,c));"):
            with self.assertRaisesRegex(leskwyn.Refusal, "'d' is not a tip of both trees|'c', 'd' are not tips"):
                leskwyn.why(text, text, ["a", "b", "c", "d"])


def tree_of(t: Table) -> Tree:
    """The tree of a table, with labels for names."""
    tree, m = Tree([]), t[1]
    tree.name = {node: str(label) for node, label in enumerate(t[2 + m:]) if label != X}
    for node in range(1, m):
        tree.join(node, t[2 + node])
    return tree


class Struck(FiguresTest):
    """Sets of four, splits and claims of kept tips are those of the trees that have only these; the triplets are those of all."""

    def test_none_one_few_and_all(self) -> None:
        """Of each pair none, one, few, all but three, all but one and all; by their names and by quoted words, in any order, twice;
        in texts and in objects, with an outgroup and a weight or without."""
        rng, kept = random.Random(30), set()
        for case in range(48):
            plain = random_named_trees(rng, 3 + case % 9)
            trees = [with_pass_through(rng, tree, rng.randint(1, 8)) if case % 3 == 0 else tree for tree in plain]
            texts, names = [written_tree(rng, tree) for tree in trees], sorted(plain[0].name.values())
            for count in {0, 1, 2, len(names) // 2, len(names) - 3, len(names) - 1, len(names)}:
                struck = rng.sample(names, count)
                outgroup = rng.choice([None, *names])
                with self.subTest(case=case, struck=struck, outgroup=outgroup, texts=texts):
                    found = leskwyn.compare(*texts, struck=struck, outgroup=outgroup, weight="1/2")
                    self.assert_figures(found, *trees, outgroup, fractions.Fraction(1, 2), struck)
                    words = [rng.choice([name, "'" + name.replace("'", "''") + "'"]) for name in struck * 2]
                    again = leskwyn.compare(*texts, struck=iter(words), outgroup=outgroup, weight="1/2")
                    self.assertEqual(again, found)
                    self.assert_figures(leskwyn.compare(*map(in_nodes, trees), struck=set(struck)), *trees, struck=struck)
                    kept.add(found.kept)
        self.assertEqual(kept, set(range(12)))

    def test_every_set_of_names(self) -> None:
        """With the first name, the outgroup at label 0, struck in half of them."""
        rng, partings = random.Random(31), set()
        for n in (4, 5, 6, 7):
            trees = random_named_trees(rng, n)
            texts, names = [written_tree(rng, tree) for tree in trees], sorted(trees[0].name.values())
            for count in range(n + 1):
                for struck in itertools.combinations(names, count):
                    found = leskwyn.compare(*texts, struck=struck)
                    self.assert_figures(found, *trees, struck=struck)
                    partings.add((found.kept, names[0] in struck))
        self.assertEqual(partings, {(k, at) for k in range(8) for at in (False, True)} - {(0, False), (7, True)})

    def test_nothing_struck(self) -> None:
        """All figures are those without marks, and only then is there a listing."""
        rng = random.Random(32)
        for case in range(20):
            texts = [written_tree(rng, tree) for tree in random_named_trees(rng, 3 + case)]
            found, plain = leskwyn.compare(*texts, struck=[]), leskwyn.compare(*texts)
            self.assertEqual((found.struck, found.kept, plain.struck, plain.kept), ((), 3 + case, None, 3 + case))
            self.assertEqual(dataclasses.replace(found, struck=None), plain)
            self.assertEqual(found.as_dict(), plain.as_dict() | {"kept": 3 + case, "struck": []})
            self.assertEqual(found.listing(), plain.listing())
        for t, u in itertools.product((P, Q, W), repeat=2):
            found = api.compare_file("file", packed(t, u), struck=[])
            self.assertEqual(dataclasses.replace(found, struck=None), api.compare_file("file", packed(t, u)))
        with self.assertRaisesRegex(ValueError, "^there is no listing of struck tips: the proved program keeps all$"):
            leskwyn.compare(FEATHERS, WINGS, struck=["Foula"]).listing()

    def test_fewer_than_four(self) -> None:
        """Zero to three kept tips are accepted, with all counts 0."""
        rng = random.Random(33)
        trees = random_named_trees(rng, 9)
        texts, names = [written_tree(rng, tree) for tree in trees], list(trees[0].name.values())
        plain = leskwyn.compare(*texts)
        for kept in range(4):
            found = leskwyn.compare(*texts, struck=names[kept:], weight="full")
            self.assertEqual((found.kept, len(found.struck), found.tips, found.sets_of_four), (kept, 9 - kept, 9, 0))
            self.assertEqual({getattr(found, key) for key in (*CASE_KEYS, *SPLIT_KEYS, "distance", "first_claims", "second_claims",
                                                              "same_claims", "different_claims", "weighted_distance",
                                                              "normalised_distance", "normalised_robinson_foulds",
                                                              "normalised_weighted_distance")}, {0})
            self.assertEqual((triplets_of(found), found.sets_of_three), (triplets_of(plain), 56))
        for text, struck in (("(a,b);", "a"), ("(a,b);", "ab"), ("(a,(b,c));", "b"), ("(a,(b,c));", "abc")):
            found = leskwyn.compare(text, text, struck=list(struck))
            self.assertEqual((found.kept, found.distance, found.first_splits), (found.tips - len(struck), 0, 0))

    def test_splits_by_halves(self) -> None:
        """By hand. With the outgroup x struck, two edges of one node may have all kept tips beyond them, parted alike: one split.
        Each pair has its splits of the first tree, of the second, and of both."""
        halves, comb, fork = "(x,(a,b),(c,d));", "(x,(a,(b,(c,d))));", "(x,((a,c),(b,d)));"
        beyond_ab, beyond_cd = "((x,c,d),(a,b));", "((x,a,b),(c,d));"
        for first, second, struck, counts in (
                (halves, halves, "x", [1, 1, 1]), (halves, comb, "x", [1, 1, 1]), (halves, fork, "x", [1, 1, 0]),
                (halves, star_text("xabcd"), "x", [1, 0, 0]), (beyond_ab, beyond_cd, "x", [1, 1, 1]),
                (beyond_ab, halves, "x", [1, 1, 1]), (fork, comb, "x", [1, 1, 0]),
                # with x kept the halves are two splits
                (halves, halves, "", [2, 2, 2]), (beyond_ab, beyond_cd, "", [1, 1, 0]), (halves, comb, "", [2, 2, 1]),
                # three edges or more at the node, of which two are left; further down; with pass-through nodes on both sides
                ("(x,(a,b),(c,d),(y,z));", "(x,y,z,a,b,c,d);", "xyz", [1, 0, 0]),
                ("(x,(a,b),(c,d),(y,z));", "(x,(y,((a,b),(z,(c,d)))));", "xyz", [1, 1, 1]),
                ("(x,(y,(z,((((a,b))),(((c),d))))));", "(x,y,z,((a,c),(b,d)));", "xyz", [1, 1, 0]),
                # halves of three and three, each with a split inside, and halves of two and three
                ("(x,((a,b),c),((d,e),f));", "(x,(a,b),c,(d,e),f);", "x", [3, 2, 2]),
                ("(x,((a,b),c),((d,e),f));", "((x,d,e,f),(a,b,c));", "x", [3, 1, 1]),
                ("(x,(a,b),((c,d),e));", "(x,((a,b),(c,d,e)));", "x", [2, 1, 1]),
                # no halves: three parts; two tips beside a part; one tip beside all others
                ("(x,(a,b),(c,d),(e,f));", "(x,(a,b),(c,d,e,f));", "x", [3, 1, 1]),
                ("(x,a,b,(c,d));", "(x,(a,b),c,d);", "x", [1, 1, 1]), ("(x,a,(b,c,d));", "(x,a,(b,(c,d)));", "x", [0, 1, 0])):
            for pair, expected in (((first, second), counts), ((second, first), [counts[1], counts[0], counts[2]])):
                with self.subTest(pair=pair, struck=struck):
                    found = leskwyn.compare(*pair, outgroup="x", struck=list(struck))
                    self.assertEqual([getattr(found, key) for key in SPLIT_KEYS],
                                     [*expected, expected[0] + expected[1] - 2 * expected[2]])
                    whole = expected[0] + expected[1]
                    self.assertEqual(found.normalised_robinson_foulds, found.robinson_foulds / whole if whole else 0.0)
                    self.assertEqual(found.distance == 0, found.robinson_foulds == 0)

    def test_no_distance_means_the_same_splits(self) -> None:
        """Of kept tips: a caterpillar with tips moved, as these are struck."""
        names = [f"t{i:02}" for i in range(30)]
        moved = [names[7], *names[:7], *names[8:19], *names[20:], names[19]]
        texts = ["".join(f"({name}," for name in order[:-1]) + order[-1] + ")" * 29 + ";" for order in (names, moved)]
        for words, is_same in (("", False), ("t07", False), ("t19", False), ("t07 t19", True), ("t07 t19 t00", True)):
            struck = words.split()
            found = leskwyn.compare(*texts, struck=struck)
            self.assertEqual((found.distance == 0, found.robinson_foulds == 0), (is_same, is_same))
            self.assertEqual((found.first_splits, found.sets_of_four), (27 - len(struck), math.comb(30 - len(struck), 4)))

    def test_large_trees(self) -> None:
        """The figures of the texts without the struck names, where those are counted with all kept; by hand at 256 tips."""
        rng = random.Random(34)
        for n, count in ((40, 1), (60, 25), (120, 60), (120, 116), (256, 1), (256, 128)):
            names = [f"t{i:03}" for i in range(n)]
            trees = [random_tree(rng, names, polytomies) for polytomies in (0.1, 0.5)]
            struck = rng.sample(names, count)
            kept = frozenset(names) - set(struck)
            found = leskwyn.compare(*(written_tree(rng, tree) for tree in trees), struck=struck)
            plain = leskwyn.compare(*(written_tree(rng, cut_down(tree, kept)) for tree in trees))
            for key in (*CASE_KEYS, *SPLIT_KEYS, "distance", "sets_of_four", "normalised_distance", "normalised_robinson_foulds",
                        "first_claims", "second_claims", "same_claims", "different_claims"):
                self.assertEqual(getattr(found, key), getattr(plain, key), (n, count, key))
            self.assertEqual((found.kept, found.tips, found.sets_of_three), (plain.tips, n, math.comb(n - 1, 3)))
        worm, fan = caterpillar(256), star(256)
        for struck in ([0], [255], range(0, 256, 2), range(3, 256), range(128)):
            k, labels = 256 - len(struck), list(map(str, struck))
            same = api.compare_file("file", packed(worm, worm), struck=labels)
            self.assertEqual((same.same, same.distance, same.common_splits), (math.comb(k, 4), 0, max(0, k - 3)))
            other = api.compare_file("file", packed(worm, fan), struck=labels)
            self.assertEqual((other.first_only, other.distance, other.robinson_foulds, triplets_of(other)),
                             (math.comb(k, 4), math.comb(k, 4), max(0, k - 3), [0, 0, math.comb(255, 3), 0, 0]))

    def test_squares_and_rows(self) -> None:
        """With each measure, on any number of threads; the triplet distance is that of all tips."""
        rng = random.Random(35)
        trees = random_named_trees(rng, 10, 6)
        texts, names = [written_tree(rng, tree) for tree in trees], sorted(trees[0].name.values())
        for struck in ([], names[:1], names[2:5], names[3:], names[1:], names):
            figures = [[expected_figures(t, u, weight=fractions.Fraction(1, 4), struck=struck) for u in trees] for t in trees]
            for measure, key in (("quartet", "distance"), ("splits", "robinson_foulds"), ("triplets", "triplet_distance"),
                                 ("weighted", "weighted_distance")):
                for normalised, jobs in itertools.product((False, True), (1, 3)):
                    expected = [[pair[f"normalised_{key}" if normalised else key] for pair in row] for row in figures]
                    found = leskwyn.matrix(texts, measure=measure, normalised=normalised, jobs=jobs, struck=struck,
                                           weight=0.25 if measure == "weighted" else None)
                    self.assertEqual(found, expected, (measure, normalised, struck))
            for jobs in (1, 3):
                rows = leskwyn.against(texts[0], texts[1:], struck=reversed(struck), weight="1/4", jobs=jobs)
                self.assertEqual([{**row.as_dict(), "first": "", "second": ""} for row in rows],
                                 [{"first": "", "second": "", **pair} for pair in figures[0][1:]])

    def test_names(self) -> None:
        """By the name, or as the word that stands for it in Newick text; the name goes first. They are told in the order of labels.
        """
        text = "((a_b,'a_b'),('it''s',(c,M\u00f6we)));"
        for struck, told in ((["c", "a_b"], ("a_b", "c")), (["'a_b'", "c", "c"], ("a_b", "c")), (["a b"], ("a b",)),
                             (["'it''s'", "'a b'", "a b"], ("a b", "it's")), ((), ()), ({"c": 1}, ("c",))):
            self.assertEqual(leskwyn.compare(text, text, struck=struck).struck, told)
        self.assertEqual(leskwyn.compare(text, text, struck=["a_b", "c"], outgroup="c").struck, ("c", "a_b"))
        self.assertEqual(leskwyn.compare("((1,2),(3,4));", "(1,2,3,4);", struck=(4, 2)).struck, ("2", "4"))

    def test_names_that_are_no_tips(self) -> None:
        text = "((a_b,'a_b'),('it''s',(c,M\u00f6we)));"
        calls = [lambda struck: leskwyn.compare(text, text, struck=struck),
                 lambda struck: leskwyn.against(text, [text], struck=struck),
                 lambda struck: leskwyn.matrix([text, text], struck=struck)]
        for names, words in ((["x"], "^cannot strike 'x': not a tip of every tree$"),
                             (["c", "x", "'y'", "x"], "^cannot strike 'x', ''y'': not tips of every tree$"),
                             (["C"], "^cannot strike 'C': not a tip"), ([""], "^cannot strike '': not a tip"),
                             (["c "], "^cannot strike 'c ': not a tip"), ([7], "^cannot strike '7': not a tip"),
                             ([f"x{i:02}" for i in range(23)], "'x00', .*'x19' and 3 more: not tips of every tree$"),
                             (["Mo\u0308we"], "every tree; 'M\u00f6we' differs only in Unicode form: save both files in one form")):
            for call in calls:
                with self.subTest(names=names), self.assertRaisesRegex(leskwyn.Refusal, words) as raised:
                    call(names)
                self.assertIsNone(raised.exception.number)
        for call in calls:
            with self.assertRaisesRegex(TypeError, "^struck is a str; names are needed, as a list$"):
                call("abc")
            with self.assertRaises(TypeError):
                call(7)

    def test_common(self) -> None:
        """What --common leaves out is no tip that can be struck."""
        pair = ["((a,b),(c,d),(e,x));", "((a,c),(b,d),(e,(y,z)));"]
        found = leskwyn.compare(*pair, common=True, struck=["e"])
        self.assertEqual((found.names, found.struck, found.kept, found.different), (("a", "b", "c", "d", "e"), ("e",), 4, 1))
        with self.assertRaisesRegex(leskwyn.Refusal, "^cannot strike 'x': not a tip of every tree$"):
            leskwyn.compare(*pair, common=True, struck=["e", "x"])
        with self.assertRaisesRegex(leskwyn.Refusal, "the trees have different tips"):
            leskwyn.compare(*pair, struck=["x", "y", "z"])

    def test_comparison_files(self) -> None:
        """Labels are struck, and told in their order; the figures are those of trees with labels for names."""
        rng = random.Random(36)
        for case in range(40):
            t, u = rng.choice([related_pair, unrelated_pair])(rng, 4 + case % 9)
            t, u = (randomly_chained(rng, t), u) if case % 2 else (t, randomly_chained(rng, u))
            labels = rng.sample(range(t[0]), rng.randint(0, t[0]))
            found = api.compare_file("file", packed(t, u), struck=[f"{label:02}" for label in labels * 2])
            expected = expected_figures(tree_of(t), tree_of(u), outgroup="0", struck=list(map(str, labels)))
            expected |= {"names": [], "outgroup": "", "struck": [str(label) for label in sorted(labels)]}
            self.assertEqual(found.as_dict(), {"first": "file, first tree", "second": "file, second tree", **expected})
        path = ROOT / "examples" / "p-q.bin"
        # P and Q without label 0: (1,(2,(3,4))) and (1,(2,3,4)), of which P alone parts the four
        found = leskwyn.compare(path, struck=[0])
        self.assertEqual((found.struck, found.kept, found.first_only), (("0",), 4, 1))
        self.assertEqual((found.first_splits, found.second_splits), (1, 0))
        self.assertEqual(leskwyn.compare(path, struck=["1", 0, "01"]).struck, ("0", "1"))
        for labels, number, words in (([5], 32, "there is no label 5 to strike: the labels are 0 to 4"),
                                      ([1, 9, 5, 9], 32, "there is no label 5, 9 to strike: the labels are 0 to 4"),
                                      ([99999], 32, "there is no label 99999 to strike: the labels are 0 to 4"),
                                      (range(30), 32, "label 5, 6, .*, 24 and 5 more to strike: the labels are 0 to 4"),
                                      ([-1], None, "'-1' is no label: a comparison file has no names"),
                                      (["P", 100000], None, "'P', '100000' are no labels: a comparison file has no names")):
            with self.subTest(labels=labels), self.assertRaises(leskwyn.Refusal) as raised:
                leskwyn.compare(path, struck=labels)
            self.assertEqual(raised.exception.number, number)
            self.assertRegex(raised.exception.reason, f"^{re.escape(str(path))}: .*{words}")

    def test_broken_tables(self) -> None:
        """The number of the pair comes before 32."""
        for content, number in ((packed(P[:-1]), 4), (packed(P), 101), (b"", 1), (packed(P, THREE), 8), (packed(P, Q), 32),
                                *((packed(t, Q), number) for t, number in LABEL_TROUBLE),
                                *((packed(Q, t), 100 + number) for t, number in LABEL_TROUBLE)):
            with self.assertRaises(leskwyn.Refusal) as raised:
                api.compare_file("file", content, struck=["9"])
            self.assertEqual(raised.exception.number, number)


def marked(*marks: int) -> _library.Marks:
    return _library.Marks((ctypes.c_uint8 * max(1, len(marks)))(*marks), len(marks))


def pattern(count: int) -> list[int]:
    """Bytes that differ from place to place."""
    return [(7 * i + 3) % 256 for i in range(count)]


def kept_crossings(t: Table, u: Table, marks: typing.Sequence[int]) -> list[int]:
    """How many kept labels lie beyond two edges, for all pairs of them."""
    cells = [0] * needed(t, u)
    for label, mark in enumerate(marks):
        for i, j in itertools.product(climb(t, label), climb(u, label)):
            cells[(i - 1) * (u[1] - 1) + j - 1] += mark
    return cells


class LibraryMarks(unittest.TestCase):
    """What the library does with marks: the cells, the order of refusals, and what a refused call leaves."""

    CALLS = {"claims": _library.claim_sums, "quartets": _library.quartet_table, "splits": _library.split_counts,
             "weighted": lambda *given: _library.weighted_distance(*given, weights.PART, 0.5),
             "wrong weight": lambda *given: _library.weighted_distance(*given, weights.PART, 0.3)}

    def asked(self, name: str, t: Table, u: Table, marks: _library.Marks, cells: int) -> tuple[list[typing.Any], list[int]]:
        """All fields of an answer, and the cells, which hold `pattern` before."""
        lent = (ctypes.c_uint8 * cells)(*pattern(cells))
        answer = self.CALLS[name](_library.words(t), _library.words(u), marks, lent)
        return [getattr(answer, field) for field, _ in answer._fields_], list(lent)

    def test_cells(self) -> None:
        """They hold the kept labels beyond both edges, and later cells stay; after the triplet table they hold all labels."""
        rng = random.Random(37)
        for case in range(60):
            t, u = rng.choice([related_pair, unrelated_pair])(rng, 2 + case % 12)
            marks = [1] * t[0] if case % 5 == 0 else [0] * t[0] if case % 5 == 1 else [rng.randint(0, 1) for _ in range(t[0])]
            size = needed(t, u)
            for name in ("claims", "quartets", "splits", "weighted"):
                answer, cells = self.asked(name, t, u, marked(*marks), size + 2)
                self.assertEqual((answer[0], cells), (0, [*kept_crossings(t, u, marks), *pattern(size + 2)[size:]]), name)
            lent = _library.work(size)
            self.assertEqual(_library.triplet_table(_library.words(t), _library.words(u), lent).refusal, 0)
            self.assertEqual(list(lent), kept_crossings(t, u, [1] * t[0]))

    def test_largest_cells(self) -> None:
        """A cell is a byte, and none exceeds 255: the labels but 0 that are kept lie beyond edge 1 of both trees."""
        worm, fan, smaller = caterpillar(256), star(256), (caterpillar(255), star(255))
        keep_two = [label in (0, 9) for label in range(256)]
        for (t, u), marks, most in (((worm, fan), [1] * 256, 255), ((fan, worm), [0] + [1] * 255, 255),
                                    ((fan, fan), [1] * 255 + [0], 254), ((worm, fan), [1, 0] + [1] * 254, 254),
                                    (smaller, [1] * 255, 254), ((fan, worm), keep_two, 1), ((TWO, TWO), [1, 1], 1)):
            expected, size = kept_crossings(t, u, marks), needed(t, u)
            self.assertEqual((expected[0], max(expected)), (most, most))
            for name in ("claims", "quartets", "splits", "weighted"):
                answer, cells = self.asked(name, t, u, marked(*marks), size + 300)
                self.assertEqual((answer[0], cells), (0, [*expected, *pattern(size + 300)[size:]]), name)
            lent = (ctypes.c_uint8 * (size + 300))(*pattern(size + 300))
            self.assertEqual(_library.triplet_table(_library.words(t), _library.words(u), lent).refusal, 0)
            self.assertEqual(list(lent), [*kept_crossings(t, u, [1] * t[0]), *pattern(size + 300)[size:]])

    def test_refusals(self) -> None:
        """Those of the pair, then 32, then 9, then 30: a refused call answers zeros, and every cell stays."""
        good, numbers = [marked(1, 1, 1, 1, 1), marked(0, 0, 0, 0, 0), marked(1, 0, 1, 0, 1)], set()
        wrong = [marked(), marked(1), marked(1, 1, 1, 1), marked(1, 1, 1, 1, 1, 1), marked(*[1] * 256), marked(2, 1, 1, 1, 1),
                 marked(1, 1, 1, 1, 2), marked(0, 0, 255, 0, 0), marked(1, 1, 128, 1, 1)]
        pairs = [(P, Q, 0), (P, THREE, 8), (THREE, P, 8), (P[:-1], Q, 4), (P, Q[:-1], 104), ([], P, 1), (P, [], 101)]
        for (t, u, number), marks, cells, name in itertools.product(pairs, good + wrong, (1, 41, 42, 43), self.CALLS):
            expected = number or (32 if marks in wrong else 9 if cells < 42 else 30 if name == "wrong weight" else 0)
            answer, left = self.asked(name, t, u, marks, cells)
            self.assertEqual(answer[0], expected, (t, u, marks.count, cells, name))
            if expected:
                self.assertEqual((set(answer[1:]), left), ({0}, pattern(cells)))
            numbers.add(expected)
        self.assertEqual(numbers, {0, 1, 4, 8, 9, 30, 32, 101, 104})

    def test_reasons(self) -> None:
        for marks, words in ((marked(), "0 marks for 5 labels; each label has one"),
                             (marked(1), "1 mark for 5 labels; each label has one"),
                             (marked(1, 1, 1, 1, 1, 1), "6 marks for 5 labels; each label has one"),
                             (marked(1, 0, 1, 1, 1, 0), "there is no label 5 to strike: the labels are 0 to 4"),
                             (marked(1, 0, 3, 2, 1), "the mark of label 2 is 3, neither 1, kept, nor 0, struck")):
            for measure in (counting.quartet_distance, counting.splits_distance, counting.weighted_by(weights.Weight(1, 1.0))):
                with self.assertRaises(leskwyn.Refusal) as raised:
                    measure(_library.words(P), _library.words(Q), marks, _library.work(42), False)
                self.assertEqual(str(raised.exception), f"refused 32: {words}")

    def test_marks_of_labels(self) -> None:
        for tips, struck, expected in ((3, (), [1, 1, 1]), (3, [0], [0, 1, 1]), (3, [2, 0, 2], [0, 1, 0]), (0, (), []),
                                       (2, [3], [1, 1, 1, 0]), (2, range(2), [0, 0])):
            marks = _library.marks(tips, struck)
            self.assertEqual((marks.cells[:marks.count], marks.kept()), (expected, sum(expected)))
            self.assertGreaterEqual(len(marks.cells), 1)


def cases_of_fours(t: Table, u: Table) -> dict[frozenset[int], int]:
    """The case of each set of four labels, 0 to 4 for A to E."""
    return {frozenset(four): evidence(t, u, four)[1] for four in itertools.combinations(range(t[0]), 4)}


class LibraryHolding(unittest.TestCase):
    """The sets of four that hold one label, and the counts as marks change one at a time, by the case of each set of four."""

    def five(self, answer: ctypes.Structure) -> list[int]:
        return [getattr(answer, name) for name in "abcde"]

    def counts(self, cases: dict[frozenset[int], int], marks: typing.Sequence[int], label: int | None = None) -> list[int]:
        """A to E of the sets of kept labels, or of those that hold the label and three other kept ones."""
        kept, held = {one for one, mark in enumerate(marks) if mark}, set() if label is None else {label}
        found = [case for four, case in cases.items() if held <= four <= kept | held]
        return [found.count(case) for case in range(5)]

    def test_every_label(self) -> None:
        """Kept or struck, under marks that keep all, none and some. The marks stay; the sums over kept labels are four times the
        quartet table."""
        rng, seen = random.Random(50), [0] * 5
        for at, (t, u) in enumerate(evidence_pairs(51, 45)):
            words, cases, n = (_library.words(t), _library.words(u)), cases_of_fours(t, u), t[0]
            marks = [1] * n if at % 5 == 0 else [0] * n if at % 5 == 1 else [rng.randint(0, 1) for _ in range(n)]
            lent, sums = marked(*marks), [0] * 5
            for label in range(n):
                answer = _library.holding(*words, lent, label)
                self.assertEqual((answer.refusal, self.five(answer)), (0, self.counts(cases, marks, label)), (t, u, marks, label))
                sums = [one + marks[label] * more for one, more in zip(sums, self.five(answer))]
            self.assertEqual(list(lent.cells), marks)
            self.assertEqual(sums, [4 * count for count in self.counts(cases, marks)])
            seen = [one + more for one, more in zip(seen, sums)]
        self.assertGreater(min(seen), 100)

    def test_changes(self) -> None:
        """Labels struck and restored in any order: the counts are those of a fresh table, and one mark changes."""
        rng, kept = random.Random(52), set()
        for t, u in evidence_pairs(53, 18):
            words, cases, n = (_library.words(t), _library.words(u)), cases_of_fours(t, u), t[0]
            lent, marks, lent_work = marked(*[1] * n), [1] * n, _library.work(needed(t, u))
            counts = self.five(_library.quartet_table(*words, lent, lent_work))
            for _ in range(4 * n):
                label = rng.randrange(n)
                marks[label] = 1 - marks[label]
                answer = _library.change_mark(*words, lent, counts, label, marks[label])
                counts = self.five(answer)
                self.assertEqual((answer.refusal, counts, list(lent.cells)), (0, self.counts(cases, marks), marks), (t, u, label))
                self.assertEqual(counts, self.five(_library.quartet_table(*words, lent, lent_work)))
                kept.add(sum(marks))
        self.assertGreaterEqual(len(kept), 10)

    def test_refusals(self) -> None:
        """Those of the pair, then 32, then 10, then 33, then 34. A refused call answers zeros, and every mark stays."""
        good, none = [1, 1, 1, 1, 1], [0, 0, 0, 0, 0]
        wrong = [[], [1] * 4, [1] * 6, [2, 1, 1, 1, 1], [1, 1, 1, 1, 255]]
        pairs = [(P, Q, 0), (P, THREE, 8), (P[:-1], Q, 4), (P, Q[:-1], 104), ([], P, 1), (P, [], 101)]
        right, short, over = [3, 0, 2, 0, 0], [3, 0, 1, 0, 0], [0, 5, 0, 0, 0]
        numbers = set()
        for (t, u, number), marks, label, counts, mark in itertools.product(pairs, [good, none, *wrong], (0, 4, 5, X),
                                                                            (right, short, over, [0] * 5), (0, 1)):
            words, lent = (_library.words(t), _library.words(u)), marked(*marks)
            asked = number or (32 if marks in wrong else 10 if label > 4 else 0)
            # all kept, the strike of 0 or 4 takes from A and C; none kept, only zeros add up
            fits = counts == (right if marks == good else [0] * 5)
            changed = asked or (33 if marks[label] == mark else 0 if fits else 34)
            for answer, expected in ((_library.holding(*words, lent, label), asked),
                                     (_library.change_mark(*words, lent, counts, label, mark), changed)):
                self.assertEqual(answer.refusal, expected, (t, u, marks, label, counts, mark))
                if expected:
                    self.assertEqual(set(self.five(answer)), {0})
                numbers.add(expected)
            left = marks if changed else [mark if at == label else one for at, one in enumerate(marks)]
            self.assertEqual(lent.cells[:lent.count], left)
        self.assertEqual(numbers, {0, 1, 4, 8, 10, 32, 33, 34, 101, 104})


class Influence(unittest.TestCase):
    """The sets of four that hold each tip, by a look at all of them, and what is left after strikes, by fresh counts."""

    PLACES = {"first": "the first tree", "second": "the second tree"}

    def assert_told(self, found: leskwyn.Influence, expected: dict[str, typing.Any]) -> None:
        """Everything, and in its order."""
        told = found.as_dict()
        self.assertEqual(told, expected)
        self.assertEqual((list(told), [list(row) for row in told["populations"] + told.get("dropped", [])]),
                         (list(expected), [list(row) for row in expected["populations"] + expected.get("dropped", [])]))

    def test_random_trees(self) -> None:
        """In texts and in objects, with pass-through nodes or without; with none, some, or nearly all tips struck."""
        rng, seen = random.Random(54), set()
        for case in range(48):
            plain = random_named_trees(rng, 3 + case % 8)
            trees = [with_pass_through(rng, tree, rng.randint(1, 8)) if case % 3 == 0 else tree for tree in plain]
            texts, names = [written_tree(rng, tree) for tree in trees], sorted(plain[0].name.values())
            for struck, drop in ((None, None), ([], 1), (rng.sample(names, 1), 2), (rng.sample(names, 2), 256),
                                 (rng.sample(names, len(names) - 3), 1), (names, 1)):
                with self.subTest(case=case, struck=struck, drop=drop, texts=texts):
                    found = leskwyn.influence(*texts, struck=struck, drop=drop)
                    self.assert_told(found, self.PLACES | influence(*map(sides_of, plain), names, struck, drop))
                    self.assertEqual(found, leskwyn.influence(*map(in_nodes, trees), struck=struck and iter(struck), drop=drop))
                    seen.add((found.kept, len(found.dropped or ())))
        self.assertEqual({kept for kept, _ in seen}, set(range(11)))
        self.assertLessEqual({0, 1, 2, 3, 4}, {dropped for _, dropped in seen})

    def test_dropped_as_counted_anew(self) -> None:
        """After each strike the counts of a comparison with all of these struck; no other strike leaves a smaller distance, and
        of those that leave as small a one the first name is taken."""
        rng, steps = random.Random(55), 0
        for case in range(16):
            texts = [written_tree(rng, tree) for tree in random_named_trees(rng, 6 + case)]
            names = leskwyn.compare(*texts).names
            gone = rng.sample(names, case % 3)
            for row in leskwyn.influence(*texts, struck=gone, drop=5).dropped:
                left = {name: leskwyn.compare(*texts, struck=[*gone, name]).distance for name in names if name not in gone}
                self.assertEqual(row.name, min(left, key=left.get))
                gone.append(row.name)
                fresh = leskwyn.compare(*texts, struck=gone)
                self.assertEqual([getattr(row, key) for key in ("kept", *COUNTED_KEYS)],
                                 [getattr(fresh, key) for key in ("kept", *COUNTED_KEYS)])
                steps += 1
        self.assertGreater(steps, 40)

    def test_the_table_is_counted_once(self) -> None:
        """Whatever is dropped; and what a label holds is asked only of kept ones, before each strike."""
        worm, fan = "(a,(b,(c,(d,(e,(f,g))))));", star_text("abcdefg")
        calls = {name: unittest.mock.patch.object(_library, name, wraps=getattr(_library, name))
                 for name in ("quartet_table", "holding", "change_mark")}
        with calls["quartet_table"] as table, calls["holding"] as holding, calls["change_mark"] as change:
            found = leskwyn.influence(worm, fan, struck=["a"], drop=2)
        self.assertEqual((table.call_count, holding.call_count, change.call_count), (1, 6 + 5, 2))
        # fully resolved against a star, every set of four differs
        self.assertEqual([(row.name, row.first_only) for row in found.dropped], [("b", math.comb(5, 4)), ("c", math.comb(4, 4))])

    def test_the_example_trees(self) -> None:
        """README.md, 'Five minutes': Bute, Coll, Foula and one other; Azores, Bute, Coll and Lundy or Texel; Azores, Coll, Foula
        and Lundy or Texel. Each of the six is in 10 sets of four."""
        found = leskwyn.influence(FEATHERS, str(WINGS), drop=3)
        self.assertEqual([(row.name, row.different, row.first_only, row.second_only) for row in found.populations],
                         [("Coll", 3, 2, 2), ("Azores", 1, 2, 2), ("Bute", 3, 2, 0), ("Foula", 3, 0, 2), ("Lundy", 1, 1, 1),
                          ("Texel", 1, 1, 1)])
        self.assertEqual({row.sets_of_four for row in found.populations}, {10})
        self.assertEqual(found.dropped, (leskwyn.Dropped(name="Coll", kept=5, same=3, different=0, first_only=0, second_only=0,
                                                         neither=2),))
        self.assertEqual((found.first, found.second, found.struck, found.kept), (str(FEATHERS), str(WINGS), None, 6))

    def test_256_tips(self) -> None:
        """A caterpillar with one tip moved from one end to the other: all sets of four that hold it differ, and no others."""
        others = [f"t{i:03}" for i in range(255)]
        texts = ["".join(f"({name}," for name in order[:-1]) + order[-1] + ")" * 255 + ";"
                 for order in ([*others, "t099x"], ["t099x", *others])]
        first, *rest = leskwyn.influence(*texts).populations
        self.assertEqual((first.name, first.different, first.normalised_distance), ("t099x", math.comb(255, 3), 1.0))
        self.assertEqual([row.name for row in rest], others)
        self.assertEqual({(row.same, row.different) for row in rest},
                         {(math.comb(255, 3) - math.comb(254, 2), math.comb(254, 2))})
        dropped = leskwyn.influence(*texts, drop=256).dropped
        self.assertEqual([(row.name, row.kept, row.same, row.distance) for row in dropped],
                         [("t099x", 255, math.comb(255, 4), 0)])

    def test_nothing_differs(self) -> None:
        """All populations stand there, by name, with no distance, and none is dropped; without sets of four all counts are 0."""
        for text, struck, held in (("((c,a),(b,(e,d)));", "", 4), ("((c,a),(b,(e,d)));", "d", 1), ("((c,a),(b,(e,d)));", "db", 0),
                                   ("((c,a),(b,(e,d)));", "dbace", 0), ("(b,a);", "", 0), ("(a,(c,b));", "", 0)):
            found = leskwyn.influence(text, text, struck=list(struck), drop=2)
            self.assertEqual([(row.name, row.sets_of_four, row.distance, row.normalised_distance) for row in found.populations],
                             [(name, held, 0, 0.0) for name in sorted(set(text) & set("abcde") - set(struck))])
            self.assertEqual((found.distance, found.normalised_distance, found.dropped), (0, 0.0, ()))

    def test_comparison_files(self) -> None:
        """With labels for names, by number where they are equal: 2 before 10."""
        rng = random.Random(56)
        for case in range(12):
            t, u = related_pair(rng, 9 + case % 4)
            names, struck = list(map(str, range(t[0]))), rng.sample(range(t[0]), case % 3) if case % 4 else None
            with tempfile.NamedTemporaryFile() as file:
                file.write(packed(t, u))
                file.flush()
                found = leskwyn.influence(file.name, struck=struck, drop=2)
                places = {"first": f"{file.name}, first tree", "second": f"{file.name}, second tree"}
            sides = [sides_of(tree_of(one)) for one in (t, u)]
            self.assert_told(found, places | influence(*sides, names, None if struck is None else list(map(str, struck)), 2))
        with tempfile.NamedTemporaryFile() as file:
            file.write(packed(caterpillar(12), star(12)))
            file.flush()
            self.assertEqual([row.name for row in leskwyn.influence(file.name).populations], list(map(str, range(12))))

    def test_common(self) -> None:
        pair = ["((a,b),(c,d,x));", "((a,c),(b,d),(y,z));"]
        with self.assertRaisesRegex(leskwyn.Refusal, "the trees have different tips"):
            leskwyn.influence(*pair)
        found = leskwyn.influence(*pair, common=True)
        self.assertEqual([(row.name, row.different) for row in found.populations], [(name, 1) for name in "abcd"])

    def test_refusals(self) -> None:
        """As compare refuses them, with the same words."""
        path = ROOT / "examples" / "p-q.bin"
        for given, options in ((["(a,b);", "(a,c);"], {}), (["(a,(b,c);", "(a,b);"], {}), ([FEATHERS], {}),
                               ([FEATHERS, WINGS], {"struck": ["Zeist"]}), ([path], {"struck": [5]}), ([path], {"struck": ["x"]})):
            told = []
            for call in (leskwyn.compare, leskwyn.influence):
                with self.assertRaises(leskwyn.Refusal) as raised:
                    call(*given, **options)
                told.append((raised.exception.number, raised.exception.reason))
            self.assertEqual(told[0], told[1])
        for content, number in ((packed(P[:-1]), 4), (packed(P), 101), (b"", 1), (packed(P, THREE), 8), (packed(P, Q), 32),
                                *((packed(t, Q), number) for t, number in LABEL_TROUBLE),
                                *((packed(Q, t), 100 + number) for t, number in LABEL_TROUBLE)):
            with self.assertRaises(leskwyn.Refusal) as raised:
                api.influence_file("file", content, struck=["9"], drop=1)
            self.assertEqual((raised.exception.number, raised.exception.reason[:6]), (number, "file: "))

    def test_wrong_arguments(self) -> None:
        """Told before a file is read."""
        for drop in (0, -1):
            with self.assertRaisesRegex(ValueError, f"^drop is {drop}, not 1 or more$"):
                leskwyn.influence(pathlib.Path("absent.nwk"), WINGS, drop=drop)
        with self.assertRaisesRegex(TypeError, "^struck is a str; names are needed, as a list$"):
            leskwyn.influence(pathlib.Path("absent.nwk"), WINGS, struck="Coll")
        with self.assertRaisesRegex(leskwyn.Trouble, "cannot read absent.nwk"):
            leskwyn.influence(pathlib.Path("absent.nwk"), WINGS)


def sides_of_table(t: Table) -> list[frozenset[int]]:
    """The labels beyond each edge."""
    climbs = [set(climb(t, label)) for label in range(t[0])]
    return [frozenset(label for label, edges in enumerate(climbs) if edge in edges) for edge in range(1, t[1])]


def some_kept(rng: random.Random, n: int) -> list[int]:
    """Marks that keep two labels or more: all, all but label 0 where that may be, or any."""
    kept = rng.choice([range(n), range(n > 2, n), rng.sample(range(n), rng.randint(2, n))])
    return [int(label in kept) for label in range(n)]


class LibraryCopies(unittest.TestCase):
    """The canonical copy that the library writes, by nested sets of labels."""

    def asked(self, t: Table, marks: typing.Sequence[int], cells: int) -> tuple[int, int, list[int]]:
        """The answer, and the lent words, which hold 256 times `pattern` before."""
        lent = _library.words([256 * byte for byte in pattern(cells)])
        answer = _library.canonical_copy(_library.words(t), marked(*marks), lent)
        return answer.refusal, answer.words, lent.cells[:lent.count]

    def copied(self, t: Table, marks: typing.Sequence[int]) -> Table:
        """The copy, as it is held to the sets; later cells stay, and its own copy is itself."""
        expected = copy_table(sides_of_table(t), [label for label, mark in enumerate(marks) if mark])
        size = len(expected)
        for cells in (size, size + 5):
            after = expected + [256 * byte for byte in pattern(cells)[size:]]
            self.assertEqual(self.asked(t, marks, cells), (0, size, after), (t, marks))
        self.assertEqual(self.asked(expected, [1] * sum(marks), size), (0, size, expected))
        return expected

    def assert_strict(self, t: Table) -> None:
        """A table with two children or more at each inner node."""
        n, m = t[:2]
        self.assertEqual((tree_refusal(t), m <= max(2, 2 * n - 2)), (0, True), t)
        parents = t[2:2 + m]
        self.assertTrue(all(parents.count(node) >= 2 for node in range(1, m) if t[2 + m + node] == X), t)

    def test_by_hand(self) -> None:
        """P is (0,1,(2,(3,4))), Q (0,1,(2,3,4)) and R (0,2,(1,(3,4)))."""
        cherry = table(4, 6, [0, 0, 1, 1, 3, 3], [0, X, 1, X, 2, 3])
        fan = table(4, 5, [0, 0, 1, 1, 1], [0, X, 1, 2, 3])
        for t, marks, expected in ((P, [1] * 5, P), (Q, [1] * 5, Q), (P, [0, 1, 1, 1, 1], cherry), (P, [1, 0, 1, 1, 1], cherry),
                                   (P, [1, 1, 1, 0, 1], cherry), (Q, [1, 1, 0, 1, 1], cherry), (Q, [1, 0, 1, 1, 1], fan),
                                   (W, [1, 1, 1, 1, 0], fan), (P, [0, 0, 1, 1, 1], THREE), (W, [0, 1, 0, 0, 1], TWO),
                                   (R, [1] * 5, table(5, 8, [0, 0, 1, 2, 2, 4, 4, 1], [0, X, X, 1, X, 3, 4, 2])),
                                   *((chains, [1] * plain[0], plain) for chains, plain in PASS_THROUGH)):
            self.assertEqual(self.copied(t, marks), expected, (t, marks))

    def test_every_marks(self) -> None:
        for t in [*REFERENCE, *OUTSIDE[:2], *(chains for chains, _ in PASS_THROUGH)]:
            for marks in itertools.product((0, 1), repeat=t[0]):
                if sum(marks) >= 2:
                    self.assert_strict(self.copied(t, marks))

    def test_random_trees(self) -> None:
        """With pass-through nodes or without: the words of two copies are the same exactly if the kept splits are."""
        rng, outcomes = random.Random(60), []
        for case in range(450):
            n = 2 + case % 12
            t, u = rng.choice([random_pair, related_pair])(rng, n) if n > 3 else (random_table(rng, n), random_table(rng, n))
            t, u = (randomly_chained(rng, one) if rng.random() < 0.5 else one for one in (t, u))
            marks = some_kept(rng, n)
            kept = {label for label, mark in enumerate(marks) if mark}
            splits = [kept_splits(sides_of_table(one), kept) for one in (t, u)]
            copy, other = self.copied(t, marks), self.copied(u, marks)
            self.assert_strict(copy)
            self.assertEqual(copy == other, splits[0] == splits[1], (t, u, marks))
            self.assertEqual(self.asked(renumbered(t), marks, len(copy)), (0, len(copy), copy))
            outcomes.append((copy == other, sum(marks) > 3))
        self.assertGreater(min(outcomes.count((same, True)) for same in (False, True)), 45)

    def test_256_tips(self) -> None:
        """Up to 1024 nodes, with all labels kept, every second one, and two; no copy takes more than is lent by the package."""
        rng, sizes = random.Random(61), []
        worm, fan = shuffled(rng, caterpillar(256)), star(256)
        for t in (worm, fan, shuffled(rng, balanced(256)), chained(rng, worm, 1024), chained(rng, fan, 1024)):
            for marks in ([1] * 256, [0, 1] * 128, [0] * 254 + [1, 1]):
                sizes.append(len(self.copied(t, marks)))
        self.assertEqual((max(sizes), min(sizes)), (_library.COPY_WORDS, 6))

    def test_refusals(self) -> None:
        """Those of the table, then 32, then 35, then 36: a refused call answers no words, and every cell stays."""
        numbers, wrong = set(), [[], [1] * 4, [1] * 6, [2, 1, 1, 1, 1], [0, 0, 0, 0, 255], [1] * 256]
        few, good = [[0] * 5, [1, 0, 0, 0, 0], [0, 0, 0, 0, 1]], {(1,) * 5: 18, (0, 1, 1, 1, 1): 14, (0, 0, 1, 0, 1): 6}
        tables = [*damaged(P), *(t for t, _ in LABEL_TROUBLE), P, P[:2] + [0]]
        for t, marks, cells in itertools.product(tables, [*wrong, *few, *good], (0, 1, 5, 6, 13, 14, 17, 18, 19)):
            needed_words = good.get(tuple(marks), 0)
            expected = tree_refusal(t) or (32 if list(marks) in wrong else 35 if list(marks) in few else 36)
            refusal, written, left = self.asked(t, marks, cells)
            if expected == 36 and cells >= needed_words:
                expected = 0
            self.assertEqual((refusal, written), (expected, 0 if expected else needed_words), (t, marks, cells))
            if expected:
                self.assertEqual(left, [256 * byte for byte in pattern(cells)])
            numbers.add(expected)
        self.assertEqual(numbers, {0, *NUMBERS, 32, 35, 36})

    def test_reasons(self) -> None:
        """The package lends words enough; that there are too few is worded all the same."""
        for t, struck, words in ((P, range(5), "refused 35: 0 tips kept; a tree needs 2 or more"),
                                 (P, range(4), "refused 35: 1 tip kept; a tree needs 2 or more"),
                                 (P, [6], "refused 32: there is no label 6 to strike: the labels are 0 to 4"),
                                 (P[:-1], [], "refused 4: too short: words missing: 1; the table has 17 words, 2 + 2m is 18; "
                                              "words are missing or left over: make the file again"),
                                 ([], [], "refused 1: too short: 0 of the 2 words that tell n and m; the file is empty or ends too "
                                          "early: make it again")):
            with self.assertRaises(leskwyn.Refusal) as raised:
                copies.of_table("a table", _library.words(t), list("abcde"), struck)
            self.assertEqual(str(raised.exception), words)
        with unittest.mock.patch.object(_library, "COPY_WORDS", 17), self.assertRaises(leskwyn.Refusal) as raised:
            copies.of_table("a table", _library.words(P), list("abcde"))
        self.assertEqual(str(raised.exception), "refused 36: the words lent for the copy are too few; it takes 2 + 2m for its own "
                                                "m")


class Copies(unittest.TestCase):
    """The canonical copy of a named tree, and whether two trees are the same, by nested sets of names."""

    def test_random_trees(self) -> None:
        """In texts and in objects, with pass-through nodes or without, names struck or none: all trees with one's splits give its
        copy, and so does the text of the copy."""
        rng, kept_sizes = random.Random(62), set()
        for case in range(70):
            plain = random_named_trees(rng, 2 + case % 10, 1)[0]
            names = sorted(plain.name.values())
            struck = None if case % 4 == 0 else rng.sample(names, rng.randint(0, len(names) - 2))
            kept = [name for name in names if name not in (struck or ())]
            sides = sides_of(plain)
            told = {"tips": len(names), "names": tuple(kept), "table": tuple(copy_table(sides, kept)),
                    "struck": None if struck is None else tuple(sorted(struck))}
            chains = with_pass_through(rng, plain, rng.randint(1, 5 * len(names)))
            for tree in (plain, chains):
                for given in (written_tree(rng, tree), in_nodes(tree)) if len(names) > 2 else (written_tree(rng, tree),):
                    with self.subTest(case=case, given=given, struck=struck):
                        found = leskwyn.canonical_copy(given, struck=struck)
                        self.assertEqual(dataclasses.asdict(found), {"tree": "the tree", **told})
                        self.assertEqual((found.newick, found.kept), (copy_text(sides, kept), len(kept)))
                        again = leskwyn.canonical_copy(found.newick)
                        self.assertEqual((again.newick, again.table, again.names), (found.newick, found.table, found.names))
            kept_sizes.add(len(kept))
        self.assertEqual(kept_sizes, set(range(2, 12)))

    def test_same(self) -> None:
        """Exactly if the splits of the kept names are, and the texts of the copies: of trees that differ in a tip or more, of which
        one may have names that are struck."""
        rng, outcomes = random.Random(63), []
        for case in range(120):
            names = random_names(rng, 4 + case % 5)
            pair = [random_tree(rng, names + extra, rng.choice([0.3, 0.7])) for extra in ([], ["only here"] * (case % 3 == 0))]
            struck = rng.sample(names, rng.randint(0, len(names) - 2)) + ["only here"] * (case % 3 == 0)
            kept = set(names) - set(struck)
            splits = [kept_splits(sides_of(tree), kept) for tree in pair]
            texts = [written_tree(rng, with_pass_through(rng, tree, case % 4)) for tree in pair]
            own = [[name for name in struck if name in tree.name.values()] for tree in pair]
            with self.subTest(case=case, texts=texts, struck=struck):
                found = leskwyn.same(*texts, struck=struck)
                self.assertEqual(found, splits[0] == splits[1])
                self.assertEqual((leskwyn.same(*texts[::-1], struck=iter(struck)), leskwyn.same("".join(texts), struck=struck)),
                                 (found, found))
                newicks = {leskwyn.canonical_copy(text, struck=gone).newick for text, gone in zip(texts, own)}
                self.assertEqual(len(newicks) == 1, found)
            outcomes.append(found)
        self.assertTrue(30 < sum(outcomes) < 90, sum(outcomes))

    def test_no_distance_means_the_same(self) -> None:
        rng, outcomes = random.Random(64), set()
        for case in range(40):
            texts = [written_tree(rng, tree) for tree in random_named_trees(rng, 4 + case % 4)]
            struck = rng.sample(leskwyn.compare(*texts).names, case % 3)
            found = leskwyn.compare(*texts, struck=struck)
            self.assertEqual(leskwyn.same(*texts, struck=struck), found.distance == 0)
            outcomes.add(found.distance == 0)
        self.assertEqual(outcomes, {False, True})

    def test_the_example_trees(self) -> None:
        """Without Azores, feathers hang at Bute; without Coll, feathers and wings are the same."""
        found = leskwyn.canonical_copy(FEATHERS, struck=["Azores"])
        self.assertEqual((found.newick, found.tree, found.tips, found.kept, found.struck),
                         ("(Bute,Coll,(Foula,(Lundy,Texel)));", str(FEATHERS), 6, 5, ("Azores",)))
        self.assertEqual([leskwyn.same(FEATHERS, str(WINGS), struck=struck) for struck in (None, ["Azores"], ["Coll"])],
                         [False, False, True])

    def test_256_tips(self) -> None:
        """A caterpillar, from either end, and with one tip moved from one end to the other."""
        names = [f"t{i:03}" for i in range(256)]
        worm, back, moved = ("".join(f"({name}," for name in order[:-1]) + order[-1] + ")" * 255 + ";"
                             for order in (names, names[::-1], names[1:] + names[:1]))
        self.assertEqual((leskwyn.same(worm, back), leskwyn.same(worm, moved), leskwyn.same(worm, moved, struck=["t000"])),
                         (True, False, True))
        self.assertEqual(leskwyn.canonical_copy(back).newick, "(t000,t001," + "".join(f"({name}," for name in names[2:-1])
                         + "t255" + ")" * 254 + ";")

    def test_common(self) -> None:
        pair = ["((a,b),(c,d,x));", "((a,c),(b,d),(y,z));"]
        with self.assertRaisesRegex(leskwyn.Refusal, "^the trees have different tips: only the first tree has 'x'; only the second "
                                                     "tree has 'y', 'z'; --common"):
            leskwyn.same(*pair)
        with self.assertRaisesRegex(leskwyn.Refusal, "^the trees have different tips: only the second tree has 'z'; --common"):
            leskwyn.same(*pair, struck=["x", "y"])
        self.assertEqual([leskwyn.same(*pair, common=True), leskwyn.same(*pair, common=True, struck=["d"]),
                          leskwyn.same(*pair, struck=["x", "y", "z"]), leskwyn.same(*pair, struck=list("xyzd"))],
                         [False, True, False, True])

    def test_comparison_files(self) -> None:
        """With labels for names; refused as a pair is, and then by 35."""
        rng, outcomes = random.Random(65), set()
        for case in range(60):
            t, u = related_pair(rng, 4 + case % 4)
            struck = [label for label, mark in enumerate(some_kept(rng, t[0])) if not mark]
            kept = set(range(t[0])) - set(struck)
            splits = [kept_splits(sides_of_table(one), kept) for one in (t, u)]
            found = api.same_file("file", packed(t, u), list(map(str, struck)))
            self.assertEqual(found, (splits[0] == splits[1], len(kept), tuple(map(str, struck))))
            outcomes.add(found.is_same)
        self.assertEqual(outcomes, {False, True})
        with tempfile.NamedTemporaryFile() as file:
            file.write(packed(P, Q))
            file.flush()
            self.assertEqual([leskwyn.same(file.name), leskwyn.same(file.name, struck=[0]), leskwyn.same(file.name, struck=["2"])],
                             [False, False, True])
            with self.assertRaisesRegex(leskwyn.Refusal, f"^{re.escape(file.name)} is a comparison file, without names: "):
                leskwyn.canonical_copy(file.name)
        for content, struck, number in ((packed(P[:-1]), "9", 4), (packed(P), "9", 101), (b"", "9", 1), (packed(P, THREE), "9", 8),
                                        (packed(THREE, P), "01", 8), (packed(P, Q), "9", 32), (packed(P, Q), "01234", 35),
                                        (packed(P, Q), "0124", 35), (packed(P, Q) + b"\0", "9", 15),
                                        *((packed(t, Q), "9", number) for t, number in LABEL_TROUBLE),
                                        *((packed(Q, t), "01234", 100 + number) for t, number in LABEL_TROUBLE)):
            with self.assertRaises(leskwyn.Refusal) as raised:
                api.same_file("file", content, list(struck))
            self.assertEqual((raised.exception.number, raised.exception.reason[:6]), (number, "file: "))

    def test_refusals(self) -> None:
        for call, given, struck, told in (
                (leskwyn.canonical_copy, ["(a,(b,c));"], ["a", "b"], "refused 35: the tree: 1 tip kept; a tree needs 2 or more"),
                (leskwyn.canonical_copy, [WINGS], ["Zeist"], "cannot strike 'Zeist': not a tip of the tree"),
                (leskwyn.canonical_copy, ["(a,b);(a,b);"], None, "the tree: 2 trees in the file; one tree is needed here"),
                (leskwyn.canonical_copy, ["(a,b,a);"], None, "the tree: repeated tip names: 'a'; each population stands once in a "
                                                            "tree"),
                (leskwyn.same, ["(a,(b,c));", "(a,b,c);"], list("abc"), "refused 35: 0 tips kept; a tree needs 2 or more"),
                (leskwyn.same, [FEATHERS, WINGS], ["Zeist", "Yell"], "cannot strike 'Zeist', 'Yell': not tips of either tree"),
                (leskwyn.same, ["(a,(b,c));", "(a,b,b);"], None, "the second tree: repeated tip names: 'b'; each population stands "
                                                               "once in a tree")):
            with self.assertRaises(leskwyn.Refusal) as raised:
                call(*given, struck=struck)
            self.assertEqual(str(raised.exception), told)
        for call in (leskwyn.canonical_copy, leskwyn.same):
            with self.assertRaisesRegex(TypeError, "^struck is a str; names are needed, as a list$"):
                call(pathlib.Path("absent.nwk"), struck="Coll")
            with self.assertRaisesRegex(leskwyn.Trouble, "cannot read absent.nwk"):
                call(pathlib.Path("absent.nwk"))


class LibraryExchanges(unittest.TestCase):
    """How far the library says that exchanges of two labels move a tree, by every set of four, and by the quartet table of the tree
    and the tree with the labels exchanged."""

    def tallied(self, t: Table, cells: int) -> tuple[int, list[int], list[int]]:
        """The refusal, the tallies, and the cells, which hold `pattern` before."""
        lent = (ctypes.c_uint8 * cells)(*pattern(cells))
        answer = _library.exchange_tallies(_library.words(t), lent)
        return answer.refusal, list(answer.tallies), list(lent)

    def distance(self, t: Table, x: int, y: int) -> tuple[int, int]:
        answer = _library.exchange_distance(_library.words(t), x, y)
        return answer.refusal, answer.distance

    def assert_tallied(self, t: Table, expected: list[int]) -> None:
        """With the cells that are needed, which are zero afterwards, and with more, which stay."""
        for cells in (needed(t, t), needed(t, t) + 5):
            after = [0] * needed(t, t) + pattern(cells)[needed(t, t):]
            self.assertEqual(self.tallied(t, cells), (0, expected, after), t)

    def test_reference_tables(self) -> None:
        """With their nodes in another order, and with pass-through nodes, too."""
        for t, expected in REFERENCE_TALLIES:
            for one in (t, *(chains for chains, plain in PASS_THROUGH if plain == t)):
                self.assert_tallied(one, expected)
                self.assert_tallied(renumbered(one), expected)

    def test_random_trees(self) -> None:
        """Every pair of labels, in both orders, label 0 among them. All tallies are met, tally 9 in a caterpillar of six."""
        rng, seen = random.Random(68), set()
        for case, t in enumerate([caterpillar(6), *(random_table(rng, 2 + case % 8) for case in range(56))]):
            t = randomly_chained(rng, t) if case % 3 == 0 else t
            expected, sets_of_four = exchange_distances(sides_of_table(t), range(t[0])), math.comb(t[0], 4)
            for (x, y), distance in expected.items():
                self.assertEqual((self.distance(t, x, y), self.distance(t, y, x)), ((0, distance), (0, distance)), (t, x, y))
            self.assert_tallied(t, tallies(expected.values(), sets_of_four))
            seen |= {tally_of(distance, sets_of_four) for distance in expected.values()}
        self.assertEqual(seen, set(range(11)))

    def test_as_two_trees(self) -> None:
        """Of two labels but 0 the quartet distance of the table with their words exchanged, up to 256 tips and 1024 nodes."""
        rng, sizes = random.Random(69), []
        large = [shuffled(rng, caterpillar(256)), balanced(256), chained(rng, random_table(rng, 256), 1024)]
        for t in [*(random_table(rng, n) for n in range(20, 60, 5)), *large]:
            words, marks, lent = _library.words(t), marked(*[1] * t[0]), _library.work(needed(t, t))
            for x, y in (rng.sample(range(1, t[0]), 2) for _ in range(30)):
                other = _library.words(with_labels_exchanged(t, x, y))
                expected = _library.quartet_table(words, other, marks, lent)
                self.assertEqual(self.distance(t, x, y), (expected.refusal, expected.distance), (t, x, y))
            sizes.append(t[1])
        self.assertEqual((max(sizes), len(sizes)), (1024, 11))

    def test_caterpillars(self) -> None:
        """A tip at one end and one at the other change the sets with one of them and three others, and those with both; no other
        two move so much. At 78 tips that is a tenth of all sets of four, at 79 less."""
        for n in (5, 6, 10, 40, 78, 79, 256):
            t, sets_of_four, ends = caterpillar(n), math.comb(n, 4), 2 * math.comb(n - 2, 3) + math.comb(n - 2, 2)
            words, pairs = _library.words(t), list(itertools.combinations(range(n), 2))
            every = {two: _library.exchange_distance(words, *two).distance for two in pairs}
            self.assertEqual([two for two, distance in every.items() if distance == ends],
                             list(itertools.product((0, 1), (n - 2, n - 1))))
            self.assertEqual((max(every.values()), [two for two in pairs if not every[two]]), (ends, [(0, 1), (n - 2, n - 1)]))
            self.assert_tallied(t, tallies(every.values(), sets_of_four))
            self.assertEqual(tally_of(ends, sets_of_four) > 0, n <= 78)

    def test_large_trees(self) -> None:
        """From 82 tips on all pairs are in the first tally."""
        rng = random.Random(70)
        for n in (82, 83, 256):
            for t in (star(n), balanced(n), shuffled(rng, caterpillar(n)), chained(rng, random_table(rng, n), 4 * n)):
                self.assert_tallied(t, [math.comb(n, 2)] + [0] * 10)

    def test_refusals(self) -> None:
        """Those of the table, then 9 of the tallies, and 10 and 11 of a distance: a refused call answers zeros, and every cell
        stays. 1 to 48 cells are too few for P."""
        numbers, asked = set(), set()
        labels = [0, 1, 4, 5, 255, X, X + 1, X + 6]
        for t in [P, *damaged(P), *(t for t, _ in LABEL_TROUBLE)]:
            for cells in (1, 48, 49, 50):
                expected = tree_refusal(t) or (9 if cells < 49 else 0)
                refusal, told, left = self.tallied(t, cells)
                self.assertEqual(refusal, expected, (t, cells))
                if expected:
                    self.assertEqual((told, left), ([0] * 11, pattern(cells)))
                numbers.add(expected)
            for x, y in itertools.product(labels, repeat=2):
                expected = tree_refusal(t) or (10 if max(x, y) >= 5 else 11 if x == y else 0)
                refusal, distance = self.distance(t, x, y)
                self.assertEqual((refusal, 0 if expected else distance), (expected, distance), (t, x, y))
                asked.add(expected)
        self.assertEqual((numbers, asked), ({0, *NUMBERS, 9}, {0, *NUMBERS, 10, 11}))

    def test_reasons(self) -> None:
        """The package lends cells enough and asks about labels that are there; that it does not is told all the same."""
        unworded = "the library refuses the tree, and README.md, 'Refusals', has the number"
        too_short = ("too short: words missing: 1; the table has 17 words, 2 + 2m is 18; words are missing or left over: make the "
                     "file again")
        for t, x, y, words in ((P[:-1], 5, 5, f"refused 4: {too_short}"), (P, 5, 5, f"refused 10: {unworded}"),
                               (P, 2, 2, f"refused 11: {unworded}")):
            with self.assertRaises(leskwyn.Refusal) as raised:
                exchanging.distance(_library.words(t), x, y)
            self.assertEqual(str(raised.exception), words)
        for t, words in ((P[:-1], f"refused 4: {too_short}"), (P, f"refused 9: {unworded}")):
            with unittest.mock.patch.object(_library, "WORK_CELLS", 48), self.assertRaises(leskwyn.Refusal) as raised:
                exchanging.of_table("a table", _library.words(t), list("abcde"))
            self.assertEqual(str(raised.exception), words)


class Exchanges(unittest.TestCase):
    """How far exchanges of two names move a named tree, by every set of four, and by comparisons."""

    def test_random_trees(self) -> None:
        """In texts and in objects, with pass-through nodes or without: everything that is told, in its order, and each distance."""
        rng, seen = random.Random(71), set()
        for case in range(40):
            plain = random_named_trees(rng, 2 + case % 8, 1)[0]
            names, sides = sorted(plain.name.values()), sides_of(plain)
            tree = with_pass_through(rng, plain, rng.randint(1, 8)) if case % 3 == 0 else plain
            pairs = [None, 1, 3, 28, 99][case % 5]
            told = {"tree": "the tree", **exchanges(sides, names, pairs)}
            for given in (written_tree(rng, tree), in_nodes(tree)) if len(names) > 2 else (written_tree(rng, tree),):
                with self.subTest(case=case, given=given, pairs=pairs):
                    found = leskwyn.exchange_tallies(given, pairs=pairs)
                    self.assertEqual((found.as_dict(), list(found.as_dict())), (told, list(told)))
                    for (x, y), distance in exchange_distances(sides, names).items():
                        self.assertEqual((leskwyn.exchange_distance(given, x, y), leskwyn.exchange_distance(given, y, x)),
                                         (distance, distance), (x, y))
            seen.add((len(found.most or ()), found.exchanges, pairs))
        self.assertLessEqual({(1, 1, 99), (3, 15, 3), (28, 36, 28), (36, 36, 99)}, seen)

    def test_as_compared(self) -> None:
        """The distance of the tree to the tree with two names exchanged, that of label 0 or others."""
        rng = random.Random(72)
        for n, count in ((18, 153), (40, 60), (256, 25)):
            names = sorted(f"t{i}" for i in range(n))
            tree = random_tree(rng, names, 0.3)
            text, pairs = written_tree(rng, tree), list(itertools.combinations(names, 2))
            for x, y in [*pairs[:2], *rng.sample(pairs[2:], count - 2)]:
                other = Tree([])
                other.joined = tree.joined
                other.name = {node: {x: y, y: x}.get(name, name) for node, name in tree.name.items()}
                expected = leskwyn.compare(text, written_tree(rng, other)).distance
                self.assertEqual(leskwyn.exchange_distance(text, x, y), expected, (text, x, y))

    def test_the_example_trees(self) -> None:
        """Feathers with Bute and Foula exchanged are wings. By hand: Azores and Foula, Bute and Coll, or Lundy and Texel move
        nothing; Azores or Foula with another moves 7 sets of four, as README.md has them, and two of different pairs move 13."""
        found = leskwyn.exchange_tallies(FEATHERS, pairs=4)
        self.assertEqual((found.tree, found.tips, found.sets_of_four, found.exchanges, found.tallies),
                         (str(FEATHERS), 6, 15, 15, (3, 0, 0, 0, 8, 0, 0, 0, 4, 0, 0)))
        self.assertEqual([(one.name, one.other, one.distance, one.normalised_distance) for one in found.most],
                         [(*two, 13, 13 / 15) for two in itertools.product(("Bute", "Coll"), ("Lundy", "Texel"))])
        self.assertEqual([(one.name, one.other, one.distance) for one in found.least],
                         [("Azores", "Foula", 0), ("Bute", "Coll", 0), ("Lundy", "Texel", 0), ("Azores", "Bute", 7)])
        self.assertEqual([leskwyn.exchange_distance(given, "Bute", "Foula") for given in (FEATHERS, str(WINGS))], [7, 7])

    def test_pairs(self) -> None:
        """None, few, all and more than there are. Equal distances stand in the order of the labels in both lists."""
        text = "((a,b),(c,(d,e)));"
        far, near = [("a", "d"), ("a", "e"), ("b", "d"), ("b", "e")], [("a", "c"), ("b", "c"), ("c", "d"), ("c", "e")]
        still = [("a", "b"), ("d", "e")]
        found = leskwyn.exchange_tallies(text)
        self.assertEqual((found.most, found.least, list(found.as_dict())[-1]), (None, None, "bounds"))
        for pairs in (1, 5, 9, 10, 11, 10**30):
            found = leskwyn.exchange_tallies(text, pairs=pairs)
            for told, expected in ((found.most, far + near + still), (found.least, still + near + far)):
                self.assertEqual([(one.name, one.other) for one in told], expected[:pairs])

    def test_bounds(self) -> None:
        """By trying all distances; of large trees each tally begins after the one before, and its bounds fall in it."""
        for tips in range(2, 17):
            found = leskwyn.ExchangeTallies(tree="", tips=tips, tallies=())
            self.assertEqual(found.as_dict()["bounds"], bounds(math.comb(tips, 4)))
        for tips in range(17, 257):
            found = leskwyn.ExchangeTallies(tree="", tips=tips, tallies=()).bounds
            for tally, (lowest, highest) in enumerate(found):
                self.assertEqual([tally_of(one, math.comb(tips, 4)) for one in (lowest, highest)], [tally, tally])
                self.assertEqual(lowest, found[tally - 1][1] + 1 if tally else 0)
            self.assertEqual(found[10], (math.comb(tips, 4), math.comb(tips, 4)))

    def test_256_tips(self) -> None:
        """A caterpillar: its ends move it most, and a neighbour at an end moves nothing."""
        names = [f"t{i:03}" for i in range(256)]
        found = leskwyn.exchange_tallies("".join(f"({name}," for name in names[:-1]) + names[-1] + ")" * 255 + ";", pairs=4)
        ends = 2 * math.comb(254, 3) + math.comb(254, 2)
        self.assertEqual([(one.name, one.other, one.distance) for one in found.most],
                         [(*two, ends) for two in itertools.product(names[:2], names[-2:])])
        self.assertEqual([(one.name, one.other, one.distance) for one in found.least][:2],
                         [("t000", "t001", 0), ("t254", "t255", 0)])
        self.assertEqual((found.tallies, found.exchanges), ((32640,) + (0,) * 10, 32640))

    def test_names(self) -> None:
        """By the name, or by the word that stands for it in Newick text."""
        text = "((Parus_major,'a_b'),(c,('d e',f)));"
        for x, y, distance in (("Parus major", "d e", 5), ("Parus_major", "'d e'", 5), ("a_b", "d_e", 5), ("'a_b'", "c", 2),
                               ("a_b", "Parus major", 0)):
            self.assertEqual(leskwyn.exchange_distance(text, x, y), distance, (x, y))

    def test_refusals(self) -> None:
        for call, given, told in (
                (leskwyn.exchange_distance, [WINGS, "Coll", "Zeist"], "'Zeist' is not a tip of the tree"),
                (leskwyn.exchange_distance, [WINGS, "Yell", "Zeist"], "'Yell', 'Zeist' are not tips of the tree"),
                (leskwyn.exchange_distance, [WINGS, "Coll", "'Coll'"], "'Coll' stands more than once; two different names are "
                                                                       "needed"),
                (leskwyn.exchange_tallies, ["(a,b);(a,b);"], "the tree: 2 trees in the file; one tree is needed here"),
                (leskwyn.exchange_tallies, ["(a,b,a);"], "the tree: repeated tip names: 'a'; each population stands once in a "
                                                         "tree"),
                (leskwyn.exchange_tallies, ["a;"], "the tree: 1 tip; a tree needs 2 to 256")):
            with self.assertRaises(leskwyn.Refusal) as raised:
                call(*given)
            self.assertEqual(str(raised.exception), told)
        path = ROOT / "examples" / "p-q.bin"
        for call, more in ((leskwyn.exchange_tallies, []), (leskwyn.exchange_distance, ["a", "b"])):
            with self.assertRaisesRegex(leskwyn.Refusal, f"^{re.escape(str(path))} is a comparison file, without names: "):
                call(path, *more)
            with self.assertRaisesRegex(leskwyn.Trouble, "cannot read absent.nwk"):
                call(pathlib.Path("absent.nwk"), *more)

    def test_wrong_arguments(self) -> None:
        """Told before a file is read."""
        for pairs in (0, -1):
            with self.assertRaisesRegex(ValueError, f"^pairs is {pairs}, not 1 or more$"):
                leskwyn.exchange_tallies(pathlib.Path("absent.nwk"), pairs=pairs)


def levelled(*levels: int) -> _library.Levels:
    return _library.Levels((ctypes.c_uint8 * max(1, len(levels)))(*levels), len(levels))


class LibraryViews(unittest.TestCase):
    """What the library tells a viewer, by a look at every set of four visible labels; the cells, and the order of refusals."""

    FIELDS = ["visible", *CASE_KEYS, "distance", *SPLIT_KEYS]

    def asked(self, t: Table, u: Table, levels: _library.Levels, viewer: int, cells: int) -> tuple[list[int], list[int]]:
        """All fields of an answer, and the cells, which hold `pattern` before."""
        lent = (ctypes.c_uint8 * cells)(*pattern(cells))
        answer = _library.view(_library.words(t), _library.words(u), levels, viewer, lent)
        return [getattr(answer, field) for field, _ in answer._fields_], list(lent)

    def topology(self, t: Table, levels: _library.Levels, viewer: int, four: typing.Sequence[int]) -> tuple[int, ...]:
        answer = _library.view_topology(_library.words(t), levels, viewer, four)
        return tuple(getattr(answer, field) for field, _ in answer._fields_)

    def test_random_trees(self) -> None:
        """All figures; the cells hold the visible labels beyond both edges, and later cells stay."""
        rng, seen = random.Random(84), set()
        for case in range(80):
            t, u = rng.choice([related_pair, unrelated_pair])(rng, 2 + case % 8)
            t = randomly_chained(rng, t) if case % 3 == 0 else t
            levels, viewer = [rng.choice([0, 0, 1, 2, 3]) for _ in range(t[0])], case % 4
            expected = view(sides_of_table(t), sides_of_table(u), dict(enumerate(levels)), viewer)
            marks, size = [int(level <= viewer) for level in levels], needed(t, u)
            answer, cells = self.asked(t, u, levelled(*levels), viewer, size + 2)
            self.assertEqual(answer, [0, *(expected[key] for key in self.FIELDS)], (t, u, levels, viewer))
            self.assertEqual(cells, [*kept_crossings(t, u, marks), *pattern(size + 2)[size:]])
            seen.add((viewer, min(sum(marks), 4), 0 in marks))
        self.assertGreaterEqual(seen, {(viewer, 4, True) for viewer in range(3)} | {(3, 4, False)})

    def test_topologies(self) -> None:
        """Of every four labels in any order: the partner of the smallest, or 10 if one is hidden."""
        rng, seen = random.Random(85), set()
        for case in range(40):
            t = random_table(rng, 4 + case % 5)
            levels, viewer = [rng.choice([0, 0, 1, 2, 3]) for _ in range(t[0])], case % 4
            for four in itertools.combinations(range(t[0]), 4):
                pairs = parting(sides_of_table(t), frozenset(four))
                partner = next((max(pair) for pair in pairs or () if four[0] in pair), 0)
                hidden = any(levels[label] > viewer for label in four)
                expected = (10, 0, 0) if hidden else (0, int(pairs is not None), partner)
                told = self.topology(t, levelled(*levels), viewer, rng.sample(four, 4))
                self.assertEqual(told, expected, (t, levels, viewer, four))
                seen.add(expected[:2])
        self.assertEqual(seen, {(10, 0), (0, 0), (0, 1)})

    def test_refusals(self) -> None:
        """Those of the pair, then 37, then 9: a refused call answers zeros, and every cell stays."""
        numbers = set()
        good = [(levelled(0, 1, 2, 3, 0), 0), (levelled(3, 3, 3, 3, 3), 3), (levelled(0, 0, 0, 0, 0), 0)]
        wrong = [(levelled(), 1), (levelled(0, 0, 0, 0), 1), (levelled(0, 0, 0, 0, 0, 0), 1), (levelled(0, 0, 0, 0, 4), 1),
                 (levelled(255, 0, 0, 0, 0), 3), (levelled(0, 0, 0, 0, 0), 4), (levelled(0, 0, 0, 0, 0), 256),
                 (levelled(0, 0, 0, 0, 0), 65536), (levelled(0, 0, 0, 0, 0), -1)]
        pairs = [(P, Q, 0), (P, THREE, 8), (P[:-1], Q, 4), (P, Q[:-1], 104), ([], P, 1), (P, [], 101)]
        for (t, u, number), (levels, viewer), cells in itertools.product(pairs, good + wrong, (1, 41, 42, 43)):
            expected = number or (37 if (levels, viewer) in wrong else 9 if cells < 42 else 0)
            answer, left = self.asked(t, u, levels, viewer, cells)
            self.assertEqual(answer[0], expected, (t, u, levels.count, viewer, cells))
            if expected:
                self.assertEqual((set(answer[1:]), left), ({0}, pattern(cells)))
            numbers.add(expected)
        self.assertEqual(numbers, {0, 1, 4, 8, 9, 37, 101, 104})
        for (levels, viewer), (t, number) in itertools.product(wrong, ((P, 37), (P[:-1], 4), ([], 1))):
            for four in ((0, 1, 2, 3), (5, 1, 2, 3), (1, 1, 2, 3)):
                self.assertEqual(self.topology(t, levels, viewer, four), (number, 0, 0))

    def test_hidden_labels_come_first(self) -> None:
        """A hidden label, or one that is n or more, is told before equal ones; of visible labels, equal ones are 11."""
        for four, number in (((0, 1, 2, 4), 10), ((4, 4, 4, 4), 10), ((0, 0, 1, 4), 10), ((0, 0, 1, 5), 10), ((0, 0, 1, 2), 11),
                             ((0, 1, 2, X), 10), ((0, 1, 2, 65536), 10), ((0, 1, 2, -1), 10), ((0, 1, 2, 3), 0)):
            self.assertEqual(self.topology(P, levelled(0, 1, 2, 2, 3), 2, four)[0], number, four)

    def test_levels_that_do_not_fit(self) -> None:
        """None is taken for what is left of it in a byte."""
        for level in (256, 257, -1, -256, 1 << 32):
            levels = _library.levels([0, level, 0])
            self.assertEqual((levels.cells[:levels.count], levels.count), ([0, 255, 0], 3))
        self.assertEqual((len(_library.levels([]).cells), _library.levels([]).count), (1, 0))


class Views(unittest.TestCase):
    """What a viewer may see of named trees."""

    LEVELS = {"Azores": 0, "Bute": 0, "Coll": 1, "Foula": 3, "Lundy": 0, "Texel": 2}

    def test_random_trees(self) -> None:
        """With names of all kinds, in texts of all forms."""
        rng = random.Random(86)
        for case in range(40):
            names = random_names(rng, 3 + case % 6)
            trees = [random_tree(rng, names, rng.choice([0, 0.3, 0.8])) for _ in range(2)]
            levels, viewer = {name: rng.choice([0, 0, 1, 2, 3]) for name in names}, rng.randrange(4)
            with self.subTest(case=case):
                texts = [written_tree(rng, tree) for tree in trees]
                found = leskwyn.view(*texts, levels, viewer)
                self.assertEqual(found.as_dict(), view(*map(sides_of, trees), levels, viewer))
                self.assertEqual(leskwyn.view("".join(texts), None, levels, viewer), found)
                for four in itertools.combinations(visible(levels, viewer), 4):
                    told = leskwyn.view_topology(texts[1], levels, viewer, rng.sample(four, 4))
                    self.assertEqual(told.as_dict(), topology(sides_of(trees[1]), four))

    def test_what_is_hidden_changes_nothing(self) -> None:
        """Hidden tips of another number, name and place, other levels and another viewer's: the same View and the same Topology."""
        rng = random.Random(87)
        for case in range(30):
            shown = [f"t{at}" for at in range(4 + case % 4)]
            trees, told = [random_tree(rng, shown, 0.3) for _ in range(2)], []
            for sign in "xy":
                hidden, viewer = [f"{sign}{at}" for at in range(rng.randint(1, 9))], rng.randrange(3)
                levels = {name: rng.randint(0, viewer) for name in shown} | {name: rng.randint(viewer + 1, 3) for name in hidden}
                texts = [written_tree(rng, with_tips(rng, tree, hidden)) for tree in trees]
                told.append((leskwyn.view(*texts, levels, viewer),
                             [leskwyn.view_topology(texts[0], levels, viewer, four) for four in itertools.combinations(shown, 4)]))
            self.assertEqual(told[0], told[1], case)

    def test_few_visible(self) -> None:
        """None, one and three: no set of four and no split."""
        for seen in ([], ["Coll"], ["Azores", "Coll", "Texel"]):
            found = leskwyn.view(FEATHERS, WINGS, {name: 0 if name in seen else 1 for name in self.LEVELS}, 0)
            self.assertEqual((found.visible, found.names, found.sets_of_four, found.first_splits), (len(seen), tuple(seen), 0, 0))
            self.assertEqual((found.normalised_distance, found.normalised_robinson_foulds), (0.0, 0.0))

    def test_hidden_and_unknown_names(self) -> None:
        """One sentence for both, which repeats neither."""
        told = set()
        for names in (["Foula", "Azores", "Bute", "Coll"], ["Zeist", "Azores", "Bute", "Coll"], ["Foula"] * 4,
                      ["Bute", "Bute", "Foula", ""]):
            with self.assertRaises(leskwyn.Refusal) as raised:
                leskwyn.view_topology(FEATHERS, self.LEVELS, 2, names)
            told.add((raised.exception.number, raised.exception.reason))
        self.assertEqual(told, {(10, "not all of the four names are populations that this viewer sees")})

    def test_refusals(self) -> None:
        def other(**levels: int) -> dict[str, int]:
            return self.LEVELS | levels
        four = ["Azores", "Bute", "Coll", "Lundy"]
        for levels, viewer, words in (
                (other(Zeist=0), 2, "the list of levels has 'Zeist', not a tip of the trees"),
                ({name: 0 for name in four}, 2, "the list of levels lacks 'Foula', 'Texel'"),
                (other(**{"'Foula'": 0}), 2, "the list of levels repeats 'Foula'"),
                *((other(Foula=level), 2, f"refused 37: the level of 'Foula' is {level}, not 0 to 3")
                  for level in (4, 256, -1, -256)),
                *((self.LEVELS, level, f"refused 37: the viewer's level is {level}, not 0 to 3") for level in (4, 65536, -1))):
            for call in (lambda: leskwyn.view(FEATHERS, WINGS, levels, viewer),
                         lambda: leskwyn.view_topology(WINGS, levels, viewer, four)):
                with self.assertRaises(leskwyn.Refusal) as raised:
                    call()
                self.assertEqual(str(raised.exception), words)
        with self.assertRaisesRegex(leskwyn.Refusal, "^the trees have different tips: only the second tree has 'c'$"):
            leskwyn.view("(a,b);", "(a,b,c);", {"a": 0, "b": 0, "c": 0}, 0)
        with self.assertRaisesRegex(leskwyn.Refusal, "is a comparison file, without names: "):
            leskwyn.view(ROOT / "examples" / "p-q.bin", None, self.LEVELS, 0)
        with self.assertRaisesRegex(leskwyn.Refusal, "^refused 11: 'Bute' stands more than once; four different names are needed$"):
            leskwyn.view_topology(WINGS, self.LEVELS, 0, ["Bute", "Azores", "'Bute'", "Lundy"])

    def test_wrong_arguments(self) -> None:
        """Told before a file is read."""
        absent = pathlib.Path("absent.nwk")
        for levels, viewer, words in (([("a", 0)], 0, "levels is a list; a dict of names and their levels is needed"),
                                      ({"a": "0"}, 0, "a level is a str; an int is needed"),
                                      ({"a": 0.0}, 0, "a level is a float; an int is needed"),
                                      ({"a": 0}, None, "a level is a NoneType; an int is needed")):
            for call in (lambda: leskwyn.view(absent, WINGS, levels, viewer),
                         lambda: leskwyn.view_topology(absent, levels, viewer, list("abcd"))):
                with self.assertRaisesRegex(TypeError, f"^{words}"):
                    call()
        for names in (["a", "b", "c"], list("abcde")):
            with self.assertRaisesRegex(ValueError, f"^there are {len(names)} names; four are needed$"):
                leskwyn.view_topology(absent, {"a": 0}, 0, names)
        with self.assertRaisesRegex(leskwyn.Trouble, "cannot read absent.nwk"):
            leskwyn.view(absent, WINGS, self.LEVELS, 0)


class Three(unittest.TestCase):
    """Three trees side by side, by a look at every set of four kept names."""

    PLACES = {"first": "the first tree", "second": "the second tree", "third": "the third tree"}
    # Two butterflies of four tips, and a star.
    FOUR = ["((a,b),(c,d));", "((a,c),(b,d));", "(a,b,c,d);"]

    def assert_told(self, found: leskwyn.ThreeTrees, expected: dict[str, typing.Any]) -> None:
        """Everything, and in its order."""
        told, expected = found.as_dict(), self.PLACES | expected
        self.assertEqual(told, expected)
        self.assertEqual((list(told), [list(pair) for pair in told["pairs"]]),
                         (list(expected), [list(pair) for pair in expected["pairs"]]))

    def test_random_trees(self) -> None:
        """In texts and in objects, with pass-through nodes or without; with none, some, or nearly all tips struck, and with a
        weight or none. Ties of two and of three pairs are met, and weights that make other trees the closest."""
        rng, ties, moved = random.Random(91), set(), 0
        for case in range(60):
            plain = random_named_trees(rng, 3 + case % 8, 3)
            plain[2] = plain[case % 3] if case % 5 == 0 else plain[2]
            trees = [with_pass_through(rng, tree, rng.randint(1, 8)) if case % 3 == 0 else tree for tree in plain]
            texts, names = [written_tree(rng, tree) for tree in trees], sorted(plain[0].name.values())
            sides = [sides_of(tree) for tree in plain]
            for struck, k in ((None, None), ([], 0), (rng.sample(names, 1), 128), (rng.sample(names, 2) * 2, rng.randint(1, 255)),
                              (None, 256), (rng.sample(names, len(names) - 3), 64), (names, 127)):
                weight = None if k is None else fractions.Fraction(k, 256)
                with self.subTest(case=case, struck=struck, weight=weight, texts=texts):
                    found, expected = leskwyn.three_trees(*texts, weight=weight, struck=struck), three(sides, names, weight, struck)
                    self.assert_told(found, expected)
                    in_objects = leskwyn.three_trees(*map(in_nodes, trees), weight=weight, struck=struck and iter(struck))
                    self.assertEqual(in_objects, found)
                    whole = leskwyn.three_trees("".join(texts), weight=weight, struck=struck)
                    self.assertEqual(whole.first, "the text, first tree")
                    self.assertEqual(dataclasses.replace(whole, **self.PLACES), found)
                    if found.sets_of_four:
                        ties.add(len(found.closest))
                        moved += expected["closest"] != three(sides, names, None, struck)["closest"]
        self.assertEqual(ties, {1, 2, 3})
        self.assertGreater(moved, 20)

    def test_as_compared(self) -> None:
        """Each pair has the figures that compare tells of it."""
        rng = random.Random(92)
        for case in range(8):
            texts = [written_tree(rng, tree) for tree in random_named_trees(rng, 20 + case, 3)]
            names = leskwyn.compare(*texts[:2]).names
            options = {"weight": case / 8, "struck": rng.sample(names, case)}
            found = leskwyn.three_trees(*texts, **options)
            for pair, two in zip(found.pairs, itertools.combinations(texts, 2), strict=True):
                fresh = leskwyn.compare(*two, **options)
                for key in (*COUNTED_KEYS, *WEIGHTED_KEYS[1:]):
                    self.assertEqual(getattr(pair, key), getattr(fresh, key), key)

    def test_sides_of_a_triangle(self) -> None:
        """No distance is above the sum of the other two, and no weighted one with a weight of 1/2 or more; a smaller weight has
        trees for which it is."""
        rng = random.Random(93)
        for case in range(60):
            texts = [written_tree(rng, tree) for tree in random_named_trees(rng, 5 + case % 6, 3)]
            for k in (128, 129, rng.randint(130, 255), 256):
                found = leskwyn.three_trees(*texts, weight=k / 256)
                for key in ("distance", "weighted_distance"):
                    far, *others = sorted((getattr(one, key) for one in found.pairs), reverse=True)
                    self.assertLessEqual(far, sum(others))
        for k in (0, 64, 127, 128):
            direct, *others = leskwyn.three_trees(*self.FOUR, weight=k / 256).pairs
            self.assertEqual((direct.weighted_distance, sum(one.weighted_distance for one in others)), (1, 2 * k / 256))

    def test_order(self) -> None:
        """Two trees in the other order: C and D are exchanged, and nothing else."""
        rng, seen = random.Random(94), 0
        for case in range(30):
            texts = [written_tree(rng, tree) for tree in random_named_trees(rng, 5 + case % 6, 3)]
            struck = leskwyn.compare(*texts[:2]).names[:case % 3]
            found = {frozenset(order): [] for order in itertools.combinations(range(3), 2)}
            for order in itertools.permutations(range(3)):
                told = leskwyn.three_trees(*(texts[at] for at in order), weight="1/2", struck=struck)
                for one, (i, j) in zip(told.pairs, itertools.combinations(order, 2), strict=True):
                    c, d = (one.first_only, one.second_only) if i < j else (one.second_only, one.first_only)
                    found[frozenset([i, j])].append((one.same, one.different, c, d, one.neither, one.weighted_distance))
                    seen += c != d
            self.assertEqual([len(set(told)) for told in found.values()], [1, 1, 1])
        self.assertGreater(seen, 100)

    def test_same_kept_splits(self) -> None:
        """Struck tips in other places, another root and another order of branches: the same counts."""
        rng = random.Random(95)
        for case in range(30):
            shown, hidden = [f"t{at}" for at in range(4 + case % 5)], [f"x{at}" for at in range(1 + case % 4)]
            trees = [random_tree(rng, shown, 0.3) for _ in range(3)]
            told = [leskwyn.three_trees(*(written_tree(rng, with_tips(rng, tree, hidden)) for tree in trees), weight="1/4",
                                        struck=hidden) for _ in range(2)]
            self.assertEqual(told[0], told[1], case)
            self.assertEqual(told[0].pairs, leskwyn.three_trees(*(written_tree(rng, tree) for tree in trees), weight="1/4").pairs)

    def test_closest(self) -> None:
        """By hand: two butterflies and a star of four tips are 1 from each other; a star is p from each butterfly."""
        every = (("first", "second"), ("first", "third"), ("second", "third"))
        for weight, closest in ((None, every), ("full", every), ("1/2", every[1:]), ("none", every[1:]), ("255/256", every[1:])):
            self.assertEqual(leskwyn.three_trees(*self.FOUR, weight=weight).closest, closest)
        butterfly, other, fan = self.FOUR
        for trees, closest in (([butterfly] * 3, every), ([butterfly, butterfly, fan], every[:1]), ([fan, other, fan], every[1:2]),
                               ([fan, butterfly, butterfly], every[2:])):
            for weight in (None, "1/2"):
                self.assertEqual(leskwyn.three_trees(*trees, weight=weight).closest, closest)
        # Five tips. The second parts c, d and e with a or b otherwise than the first: B is 2. The third leaves these open: with the
        # first C is 2, and so it is with the second.
        five = ["((a,b),(c,(d,e)));", "((a,b),(d,(c,e)));", "((a,b),c,d,e);"]
        self.assertEqual([(one.different, one.first_only, one.distance) for one in leskwyn.three_trees(*five).pairs],
                         [(2, 0, 2), (0, 2, 2), (0, 2, 2)])
        # A star of five: the others part all five sets, and are 5 from it. With a weight of 1/4 that is less than their 2.
        for weight, closest in ((None, every[:1]), ("1/4", every[1:])):
            self.assertEqual(leskwyn.three_trees(*five[:2], "(a,b,c,d,e);", weight=weight).closest, closest)

    def test_fewer_than_four(self) -> None:
        """All counts are 0, and all pairs as close."""
        for texts, struck in ((["(a,b);"] * 3, None), (["(a,(b,c));"] * 3, []), (self.FOUR, ["d"]), (self.FOUR, list("abc")),
                              (self.FOUR, list("abcd"))):
            for weight in (None, "none", "1/2"):
                found = leskwyn.three_trees(*texts, weight=weight, struck=struck)
                self.assertEqual({(one.same, one.distance, one.neither, one.normalised_distance, one.weighted_distance,
                                   one.normalised_weighted_distance) for one in found.pairs},
                                 {(0, 0, 0, 0.0, *([None] * 2 if weight is None else [0.0] * 2))})
                self.assertEqual((found.sets_of_four, len(found.closest)), (0, 3))

    def test_each_pair_is_counted_once(self) -> None:
        for weight, weighted in ((None, 0), ("1/2", 3)):
            calls = {name: unittest.mock.patch.object(_library, name, wraps=getattr(_library, name))
                     for name in ("quartet_table", "weighted_distance", "ask")}
            with calls["quartet_table"] as table, calls["weighted_distance"] as distance, calls["ask"] as ask:
                leskwyn.three_trees(*self.FOUR, weight=weight)
            self.assertEqual((table.call_count, distance.call_count, ask.call_count), (3, weighted, 3 + weighted))

    def test_256_tips(self) -> None:
        """A caterpillar, one with a tip moved from one end to the other, and a star."""
        others = [f"t{i:03}" for i in range(255)]
        worms = ["".join(f"({name}," for name in order[:-1]) + order[-1] + ")" * 255 + ";"
                 for order in ([*others, "x"], ["x", *others])]
        found = leskwyn.three_trees(*worms, star_text([*others, "x"]), weight="1/2")
        every, moved = math.comb(256, 4), math.comb(255, 3)
        self.assertEqual([(one.same, one.different, one.first_only, one.second_only) for one in found.pairs],
                         [(every - moved, moved, 0, 0), (0, 0, every, 0), (0, 0, every, 0)])
        self.assertEqual([one.weighted_distance for one in found.pairs], [moved, every / 2, every / 2])
        self.assertEqual(found.closest, (("first", "second"),))

    def test_common(self) -> None:
        trees = ["((a,b),(c,d,x));", "((a,c),(b,d),(y,z));", "(a,b,c,d,x);"]
        with self.assertRaisesRegex(leskwyn.Refusal, "^the trees have different tips: only the first tree has 'x'; only the s"):
            leskwyn.three_trees(*trees)
        found = leskwyn.three_trees(*trees, common=True)
        self.assertEqual((found.tips, [one.distance for one in found.pairs]), (4, [1, 1, 1]))

    def test_refusals(self) -> None:
        """As compare and matrix refuse them, with the same words."""
        for given, options in ((["(a,b);", "(a,b);", "(a,c);"], {}), (["(a,b);", "(a,c);", "(a,b);"], {}),
                               (["(a,b);", "(a,b);", "(a,(b);"], {}), (["(a,b,a);"] * 3, {}), ([FEATHERS, WINGS, "(a,b);"], {}),
                               ([FEATHERS, WINGS, FEATHERS], {"struck": ["Zeist"]}), ([FEATHERS, WINGS, WINGS], {"struck": [5]}),
                               ([FEATHERS, ROOT / "examples" / "p-q.bin", WINGS], {})):
            told = []
            for call in (lambda: leskwyn.matrix(given, **options), lambda: leskwyn.three_trees(*given, **options)):
                with self.assertRaises(leskwyn.Refusal) as raised:
                    call()
                reason = raised.exception.reason
                for number, ordinal in enumerate(self.PLACES, 1):
                    reason = reason.replace(f"tree {number}", f"the {ordinal} tree")
                told.append((raised.exception.number, reason))
            self.assertEqual(told[0], told[1])
        for given, words in ((["(a,b);" * 2], "the text: 2 trees in the file; three trees are needed"),
                             ([FEATHERS], f"{FEATHERS}: one tree in the file; three trees are needed"),
                             (["(a,b);" * 2, "(a,b);", "(a,b);"], "the first tree: 2 trees in the file; one tree is needed here")):
            with self.assertRaises(leskwyn.Refusal) as raised:
                leskwyn.three_trees(*given)
            self.assertEqual(raised.exception.reason, words)

    def test_wrong_arguments(self) -> None:
        """Told before a file is read, but for a tree that is missing."""
        absent = pathlib.Path("absent.nwk")
        with self.assertRaisesRegex(ValueError, "the nearest two are 76/256"):
            leskwyn.three_trees(absent, WINGS, WINGS, weight=0.3)
        with self.assertRaisesRegex(TypeError, "^struck is a str; names are needed, as a list$"):
            leskwyn.three_trees(absent, WINGS, WINGS, struck="Coll")
        with self.assertRaisesRegex(leskwyn.Trouble, "cannot read absent.nwk"):
            leskwyn.three_trees(FEATHERS, WINGS, absent)
        for given in ([FEATHERS, WINGS], [FEATHERS, None, WINGS]):
            with self.assertRaisesRegex(TypeError, "^the (second|third) tree: a tree is Newick text, a path, .*, not NoneType$"):
                leskwyn.three_trees(*given)


class LibraryNearest(unittest.TestCase):
    """What the library tells of a shelf of trees, by a look at every set of four labels; the cells, and the order of refusals."""

    def asked(self, shelf: list[int], cells: int) -> tuple[tuple[int, int, int], list[int]]:
        """The refusal, the position and the sum, and the cells, which hold `pattern` before."""
        lent = (ctypes.c_uint8 * cells)(*pattern(cells))
        answer = _library.nearest(_library.words(shelf), lent)
        return (answer.refusal, answer.position, answer.sum), list(lent)

    def shelf(self, *tables: Table) -> list[int]:
        return [len(tables), *itertools.chain(*tables)]

    def test_random_trees(self) -> None:
        """Of 2 to 16 trees with one n, of which some are the same. The cells of the largest against itself are 0 then, and later
        ones stay."""
        rng, counts, ties = random.Random(101), set(), 0
        for case in range(60):
            n, count = 2 + case % 8, 2 + case % 15
            tables = [randomly_chained(rng, t) if rng.random() < 0.3 else t for t in (random_table(rng, n) for _ in range(count))]
            if case % 3 == 0:
                tables[rng.randrange(count)] = renumbered(tables[0])
            sums, size = sums_of([sides_of_table(t) for t in tables], range(n)), max(t[1] - 1 for t in tables) ** 2
            answer, cells = self.asked(self.shelf(*tables), size + 2)
            self.assertEqual(answer, (0, sums.index(min(sums)), min(sums)), tables)
            self.assertEqual(cells, [0] * size + pattern(size + 2)[size:])
            counts.add(count)
            ties += sums.count(min(sums)) > 1 and min(sums) > 0
        self.assertEqual(counts, set(range(2, 17)))
        self.assertGreater(ties, 5)

    def test_reference_tables(self) -> None:
        """P and Q are 2 apart, and R is 2 from P and 4 from Q."""
        self.assertEqual([leskwyn_distance(*two) for two in ((P, Q), (P, R), (Q, R))], [2, 2, 4])
        for tables, expected in (((P, Q), (0, 2)), ((Q, P), (0, 2)), ((Q, R, P), (2, 4)), ((Q, Q, P), (0, 2)), ((P, P), (0, 0)),
                                 ((R, Q, Q, R), (0, 8)), ((Q, R, *[P] * 14), (2, 4)), ((TWO, TWO), (0, 0)),
                                 ((THREE,) * 16, (0, 0))):
            self.assertEqual(self.asked(self.shelf(*tables), 49)[0], (0, *expected))

    def test_large_trees(self) -> None:
        """Sixteen trees of 256 tips, of which one is a star: the others are the same but for pass-through nodes."""
        rng = random.Random(102)
        worm = caterpillar(256)
        tables = [star(256), worm, *(randomly_chained(rng, worm) for _ in range(14))]
        size = max(t[1] - 1 for t in tables) ** 2
        self.assertEqual(self.asked(self.shelf(*tables), size)[0], (0, 1, math.comb(256, 4)))
        self.assertEqual(self.asked(self.shelf(*tables), size - 1)[0], (9, 0, 0))

    def test_refusals(self) -> None:
        """38, then 39, then 9: a refused call answers zeros, and every cell stays."""
        short = [len(P), *P[1:]]
        for shelf, number in (([], 38), ([0], 38), ([1, *P], 38), ([17, *P * 17], 38), ([65535, *P], 38), ([17], 38),
                              ([2], 39), ([2, *P], 39), ([3, *P, *Q], 39), ([2, *P, *Q, 0], 39), ([2, *P, *Q, *R], 39),
                              ([2, *P, *THREE], 39), ([2, *P, *Q[:-1]], 39), ([2, *P, 5], 39), ([2, *short, *Q], 39),
                              ([2, 5], 39), ([2, *P, *Q], 0), ([16, *P * 16], 0)):
            for cells in (1, 48, 49, 50):
                expected = number or (9 if cells < 49 else 0)
                answer, left = self.asked(shelf, cells)
                self.assertEqual(answer[0], expected, (shelf, cells))
                if expected:
                    self.assertEqual((answer[1:], left), ((0, 0), pattern(cells)))
        for wrong, at in itertools.product(damaged(P), range(3)):
            tables = [Q, R]
            tables.insert(at, wrong)
            self.assertEqual(self.asked(self.shelf(*tables), 49), ((39, 0, 0), pattern(49)), (wrong, at))


def leskwyn_distance(t: Table, u: Table) -> int:
    """How many sets of four labels two tables part differently."""
    one, _ = sums_of([sides_of_table(t), sides_of_table(u)], range(t[0]))
    return one


class Nearest(unittest.TestCase):
    """The tree nearest to all of several, by a look at every set of four kept names."""

    # Two butterflies of four tips, and a star: each is 1 from the others.
    FOUR = ["((a,b),(c,d));", "((a,c),(b,d));", "(a,b,c,d);"]

    def assert_told(self, found: leskwyn.NearestTree, expected: dict[str, typing.Any]) -> None:
        """Everything, and in its order."""
        told = found.as_dict()
        self.assertEqual(told, expected)
        self.assertEqual((list(told), [list(row) for row in told["rows"]]),
                         (list(expected), [list(row) for row in expected["rows"]]))

    def test_random_trees(self) -> None:
        """In texts and in objects, 2 to 18 of them, with pass-through nodes or without; with none, some, or nearly all tips struck.
        Sums are met that several trees have."""
        rng, counts, ties = random.Random(103), set(), set()
        for case in range(51):
            count = 2 + case % 17
            plain = random_named_trees(rng, 3 + case % 6, count)
            plain[-1] = plain[case % count] if case % 4 == 0 else plain[-1]
            named = [with_pass_through(rng, tree, rng.randint(1, 8)) if case % 3 == 0 else tree for tree in plain]
            texts, names = [written_tree(rng, tree) for tree in named], sorted(plain[0].name.values())
            sides, places = [sides_of(tree) for tree in plain], [f"tree {at + 1}" for at in range(count)]
            for struck in (None, [], rng.sample(names, 1) * 2, rng.sample(names, len(names) - 2), names):
                with self.subTest(case=case, struck=struck, texts=texts):
                    found, expected = leskwyn.nearest(texts, struck=struck), nearest(places, sides, names, struck)
                    self.assert_told(found, expected)
                    in_objects = leskwyn.nearest(map(in_nodes, named), struck=struck and iter(struck), jobs=1 + case % 3)
                    self.assertEqual(in_objects, found)
                    whole = leskwyn.nearest("".join(texts), struck=struck)
                    self.assertEqual([row.tree for row in whole.rows], [f"tree 1#{at + 1}" for at in range(count)])
                    self.assertEqual([row.sum for row in whole.rows], [row.sum for row in found.rows])
                    if found.sum:
                        ties.add(min(len(found.as_near), 2))
            counts.add(count)
        self.assertEqual((counts, ties), (set(range(2, 19)), {0, 1, 2}))

    def test_which_way(self) -> None:
        """One call of the library for 2 to 16 trees of which nothing is struck; else the pairs alone. Each pair is counted once."""
        for count, struck, way in ((2, None, "leskwyn_nearest"), (3, [], "leskwyn_nearest"), (16, None, "leskwyn_nearest"),
                                   (17, None, "pairs"), (3, ["a"], "pairs"), (17, ["a"], "pairs")):
            calls = {name: unittest.mock.patch.object(_library, name, wraps=getattr(_library, name))
                     for name in ("nearest", "quartet_table")}
            with calls["nearest"] as one_call, calls["quartet_table"] as pair:
                found = leskwyn.nearest((self.FOUR * 6)[:count], struck=struck)
            self.assertEqual((found.counted_by, one_call.call_count, pair.call_count),
                             (way, way == "leskwyn_nearest", math.comb(count, 2)))

    def test_as_the_square_has_it(self) -> None:
        rng = random.Random(104)
        for count in (2, 9, 16, 17, 30):
            texts = [written_tree(rng, tree) for tree in random_named_trees(rng, 24, count)]
            sums = [sum(row) for row in leskwyn.matrix(texts)]
            found = leskwyn.nearest(texts)
            self.assertEqual((found.position, found.sum, [row.sum for row in found.rows]), (sums.index(min(sums)), min(sums), sums))
            means = [sum(row) / (count - 1) for row in leskwyn.matrix(texts, normalised=True)]
            for row, mean in zip(found.rows, means, strict=True):
                self.assertAlmostEqual(row.mean_normalised_distance, mean, 12)

    def test_by_hand(self) -> None:
        butterfly, other, fan = self.FOUR
        for given, position, total, sums, as_near in (
                ([butterfly, other], 0, 1, [1, 1], (1,)), ([other, other], 0, 0, [0, 0], (1,)),
                (self.FOUR, 0, 2, [2, 2, 2], (1, 2)), ([butterfly, other, other], 1, 1, [2, 1, 1], (2,)),
                ([fan, butterfly, fan, other, fan], 0, 2, [2, 4, 2, 4, 2], (2, 4)),
                ([butterfly] + [fan] * 15, 1, 1, [15] + [1] * 15, tuple(range(2, 16))),
                ([butterfly] + [fan] * 16, 1, 1, [16] + [1] * 16, tuple(range(2, 17)))):
            found = leskwyn.nearest(given)
            self.assertEqual((found.position, found.sum, [row.sum for row in found.rows], found.as_near),
                             (position, total, sums, as_near))
            self.assertEqual((found.tree, found.mean_normalised_distance), (f"tree {position + 1}", total / (len(given) - 1)))
        # Of no sets of four all sums are 0, and the first tree is named.
        for given, struck in ((["(a,b);"] * 3, None), (self.FOUR, ["d"]), (self.FOUR, list("abcd")), (["(a,(b,c));"] * 17, [])):
            found = leskwyn.nearest(given, struck=struck)
            self.assertEqual((found.position, found.sum, found.sets_of_four, found.mean_normalised_distance), (0, 0, 0, 0.0))
            self.assertEqual(found.as_near, tuple(range(1, len(given))))

    def test_places(self) -> None:
        """Of files and texts; one that stands again gets a number."""
        found = leskwyn.nearest([FEATHERS, WINGS, FEATHERS, FEATHERS.read_text() * 2])
        self.assertEqual([row.tree for row in found.rows], [str(FEATHERS), str(WINGS), f"{FEATHERS}(2)", "tree 4#1", "tree 4#2"])
        self.assertEqual((found.position, found.sum, found.as_near), (0, 7, (2, 3, 4)))

    def test_common(self) -> None:
        given = ["((a,b),(c,d,x));", "((a,c),(b,d),(y,z));", "(a,b,c,d,x);"]
        with self.assertRaisesRegex(leskwyn.Refusal, "^the trees have different tips: only tree 1 has 'x'; only tree 2 has "):
            leskwyn.nearest(given)
        found = leskwyn.nearest(given, common=True)
        self.assertEqual((found.tips, [row.sum for row in found.rows]), (4, [2, 2, 2]))

    def test_figures_that_do_not_agree(self) -> None:
        """The library's call and the pairs are held to each other, in the position and in the sum."""
        for refusal, position, total, words in (
                (0, 1, 2, "position 1 and the sum 2, and the pairs tell position 0 and the sum 2"),
                (0, 0, 1, "position 0 and the sum 1, and the pairs tell position 0 and the sum 2")):
            answer = _library.NearestAnswer(refusal, position, total)
            with (unittest.mock.patch.object(_library, "nearest", lambda shelf, lent: answer),
                  self.assertRaises(leskwyn.Trouble) as raised):
                leskwyn.nearest(self.FOUR)
            self.assertEqual(str(raised.exception), f"internal error: leskwyn_nearest tells {words}")
        for number in (9, 38, 39):
            with (unittest.mock.patch.object(_library, "nearest", lambda shelf, lent: _library.NearestAnswer(number, 0, 0)),
                  self.assertRaises(leskwyn.Refusal) as raised):
                leskwyn.nearest(self.FOUR)
            self.assertEqual(raised.exception.number, number)

    def test_refusals(self) -> None:
        """Fewer than two trees get 38; else as matrix refuses them, with the same words."""
        for given, count in (([], "0 trees"), (self.FOUR[:1], "1 tree"), (self.FOUR[0], "1 tree"), (FEATHERS, "1 tree")):
            for options in ({}, {"common": True}, {"struck": ["Zeist"]}):
                with self.assertRaises(leskwyn.Refusal) as raised:
                    leskwyn.nearest(given, **options)
                self.assertEqual((raised.exception.number, raised.exception.reason), (38, f"{count}; two or more are needed"))
        for given, options in ((["(a,b);", "(a,c);"], {}), (["(a,b);", "(a,(b);"], {}), (["(a,b,a);"] * 17, {}), ("(a,b);(a,b", {}),
                               ([FEATHERS, WINGS], {"struck": ["Zeist"]}), ([FEATHERS, WINGS], {"struck": [5]}),
                               ([FEATHERS, ROOT / "examples" / "p-q.bin"], {}), (["(a,b);", "(c,d);"], {"common": True})):
            told = []
            for call in (leskwyn.matrix, leskwyn.nearest):
                with self.assertRaises(leskwyn.Refusal) as raised:
                    call(given, **options)
                told.append((raised.exception.number, raised.exception.reason))
            self.assertEqual(told[0], told[1])

    def test_wrong_arguments(self) -> None:
        """Told before a file is read."""
        absent = pathlib.Path("absent.nwk")
        with self.assertRaisesRegex(ValueError, "^jobs is 0, not 1 or more$"):
            leskwyn.nearest([absent, WINGS], jobs=0)
        with self.assertRaisesRegex(TypeError, "^struck is a str; names are needed, as a list$"):
            leskwyn.nearest([absent, WINGS], struck="Coll")
        with self.assertRaisesRegex(leskwyn.Trouble, "cannot read absent.nwk"):
            leskwyn.nearest([FEATHERS, absent])
        with self.assertRaisesRegex(TypeError, "^tree 2: a tree is Newick text, a path, .*, not NoneType$"):
            leskwyn.nearest([FEATHERS, None])


class Weights(unittest.TestCase):
    """The spellings of a weight, and the sentence that turns another one away."""

    def weighted(self, weight: object) -> float | None:
        found = leskwyn.compare(FEATHERS, WINGS, weight=weight)
        self.assertEqual(found.weighted_distance, None if found.weight is None else 3 + 4 * found.weight)
        return found.weight

    def test_spellings(self) -> None:
        for weight, p in (("none", 0.0), ("full", 1.0), ("0.5", 0.5), ("1/2", 0.5), ("128/256", 0.5), (".5", 0.5), ("+0.50", 0.5),
                          ("2/4", 0.5), ("1", 1.0), ("1.", 1.0), ("256/256", 1.0), ("0", 0.0), ("0.0", 0.0), ("-0", 0.0),
                          ("-0.0", 0.0), ("0/7", 0.0), ("0.00390625", 1 / 256), ("1/256", 1 / 256), ("255/256", 255 / 256),
                          (0, 0.0), (1, 1.0), (0.5, 0.5), (-0.0, 0.0), (77 / 256, 77 / 256), (fractions.Fraction(1, 2), 0.5),
                          (decimal.Decimal("0.75"), 0.75), (None, None)):
            with self.subTest(weight=weight):
                told = self.weighted(weight)
                self.assertEqual((told, math.copysign(1, told or 0)), (p, 1))
        for k in range(257):
            spellings = (k / 256, f"{k}/256", f"{k / 256:.8f}", str(k / 256))
            self.assertEqual({self.weighted(weight) for weight in spellings}, {k / 256})

    def test_nearest_two(self) -> None:
        """Of any other fraction, and also of one that a float would round to a k/256."""
        for weight, low in (("0.3", 76), (0.3, 76), ("1/3", 85), (fractions.Fraction(1, 3), 85), ("1/512", 0), (511 / 512, 255),
                            ("1.5", 255), (2.0, 255), ("257/256", 255), ("-0.5", 0), (-1 / 256, 0), ("-1/256", 0), (5e-324, 0),
                            (1 + 2**-52, 255), ("0.50000000000000000001", 128), ("0.49999999999999999999", 127),
                            (decimal.Decimal("0.1"), 25), (10**30, 255)):
            near = rf"{low}/256 \({low / 256}\) and {low + 1}/256 \({(low + 1) / 256}\)$"
            with self.subTest(weight=weight), self.assertRaisesRegex(ValueError, "not k/256 with a k from 0 to 256; .*" + near):
                self.weighted(weight)

    def test_what_is_no_weight(self) -> None:
        sentence = "is no weight: none, full, a decimal such as 0.5, or a fraction such as 1/2 or 128/256$"
        for weight in ("", "half", "None", "FULL", "nan", "inf", "1/0", "1/", "/2", ".", "-", "0,5", "1e-1", "0x1", "1 /2",
                       "1/-2", "1/2/3", "1.0/2", "\u0661", "1" * 5000, math.nan, math.inf, -math.inf, decimal.Decimal("NaN")):
            with self.subTest(weight=weight), self.assertRaisesRegex(ValueError, sentence):
                self.weighted(weight)
        for weight in ([], b"0.5", 0.5j):
            with self.subTest(weight=weight), self.assertRaises(TypeError):
                self.weighted(weight)

    def test_the_library_judges_too(self) -> None:
        for wrong in (weights.Weight(3, 0.5), weights.Weight(weights.PART, 0.3), weights.Weight(weights.PART, math.nan)):
            with self.assertRaises(leskwyn.Refusal) as raised:
                counting.distances([P, Q], "weighted", False, 1, weight=wrong)
            self.assertEqual(str(raised.exception), "refused 30: the weight is not k/256 with a k from 0 to 256")


class Answers(unittest.TestCase):
    def test_frozen(self) -> None:
        found = leskwyn.compare(FEATHERS, WINGS)
        with self.assertRaises(dataclasses.FrozenInstanceError):
            found.distance = 0
        self.assertEqual(json.loads(json.dumps(found.as_dict()))["names"], list(found.names))
        self.assertEqual(sum([found.same, found.different, found.first_only, found.second_only, found.neither]),
                         found.sets_of_four)
        self.assertEqual((found.outgroup, sum(triplets_of(found))), (found.names[0], found.sets_of_three))
        shown = leskwyn.why(FEATHERS, WINGS, ["Azores", "Bute", "Coll", "Lundy"])
        for part, field in ((shown, "case"), (shown.first_tree, "edge")):
            with self.assertRaises(dataclasses.FrozenInstanceError):
                setattr(part, field, None)
        self.assertEqual(json.loads(json.dumps(shown.as_dict())), shown.as_dict())
        self.assertEqual(len({shown, leskwyn.why(FEATHERS, WINGS, ["Bute", "Azores", "Lundy", "Coll"])}), 1)
        driven = leskwyn.influence(FEATHERS, WINGS, struck=["Foula"], drop=1)
        for part in (driven, driven.populations[0], driven.dropped[0]):
            with self.assertRaises(dataclasses.FrozenInstanceError):
                part.same = 0
        self.assertEqual(json.loads(json.dumps(driven.as_dict())), driven.as_dict())
        self.assertEqual(len({driven, leskwyn.influence(FEATHERS, WINGS, struck=["Foula"], drop=1)}), 1)
        copy = leskwyn.canonical_copy(FEATHERS, struck=["Foula"])
        with self.assertRaises(dataclasses.FrozenInstanceError):
            copy.table = ()
        self.assertEqual(len({copy, leskwyn.canonical_copy(FEATHERS, struck=["Foula"])}), 1)
        moved = leskwyn.exchange_tallies(FEATHERS, pairs=2)
        for part, field in ((moved, "tallies"), (moved.most[0], "distance")):
            with self.assertRaises(dataclasses.FrozenInstanceError):
                setattr(part, field, None)
        self.assertEqual(json.loads(json.dumps(moved.as_dict())), moved.as_dict())
        self.assertEqual(len({moved, leskwyn.exchange_tallies(FEATHERS, pairs=2)}), 1)
        for call in (lambda: leskwyn.view(FEATHERS, WINGS, Views.LEVELS, 2),
                     lambda: leskwyn.view_topology(FEATHERS, Views.LEVELS, 2, ["Azores", "Bute", "Coll", "Lundy"])):
            seen = call()
            with self.assertRaises(dataclasses.FrozenInstanceError):
                seen.names = ()
            self.assertEqual((json.loads(json.dumps(seen.as_dict())), len({seen, call()})), (seen.as_dict(), 1))
        beside = leskwyn.three_trees(FEATHERS, WINGS, FEATHERS, weight="1/2", struck=["Foula"])
        for part, field in ((beside, "pairs"), (beside.pairs[0], "same")):
            with self.assertRaises(dataclasses.FrozenInstanceError):
                setattr(part, field, None)
        self.assertEqual(json.loads(json.dumps(beside.as_dict())), beside.as_dict())
        self.assertEqual(len({beside, leskwyn.three_trees(FEATHERS, WINGS, FEATHERS, weight=0.5, struck=["Foula"])}), 1)
        median_tree = leskwyn.nearest([FEATHERS, WINGS, FEATHERS], struck=["Foula"])
        for part, field in ((median_tree, "position"), (median_tree.rows[0], "sum")):
            with self.assertRaises(dataclasses.FrozenInstanceError):
                setattr(part, field, None)
        self.assertEqual(json.loads(json.dumps(median_tree.as_dict())), median_tree.as_dict())
        self.assertEqual(len({median_tree, leskwyn.nearest([FEATHERS, WINGS, FEATHERS], struck=["Foula"])}), 1)

    def test_errors(self) -> None:
        with tempfile.NamedTemporaryFile() as file:
            file.write(packed([5, 9, *P[2:10], 1, *P[10:], X], Q))
            file.flush()
            with self.assertRaises(leskwyn.Refusal) as raised:
                leskwyn.compare(file.name)
        error = raised.exception
        self.assertEqual(error.number, 7)
        self.assertIn("first tree: inner node 8 has no child; take out inner nodes without a child", error.reason)
        self.assertEqual(str(error), f"refused 7: {error.reason}")
        again = pickle.loads(pickle.dumps(error))
        self.assertEqual((type(again), again.number, again.reason), (leskwyn.Refusal, 7, error.reason))
        with self.assertRaises(leskwyn.LeskwynError) as raised:
            leskwyn.compare("(A,B);", "(A,C);")
        self.assertEqual((raised.exception.number, str(raised.exception)), (None, raised.exception.reason))

    def test_label_trouble(self) -> None:
        words = {6: ", (not 0|neither below n nor 65535); mend the export",
                 31: r"label \d stands [02] times.*, not once; look in the field"}
        for (table, number), second in itertools.product(LABEL_TROUBLE, (False, True)):
            with tempfile.NamedTemporaryFile() as file:
                file.write(packed(Q, table) if second else packed(table, Q))
                file.flush()
                with self.assertRaises(leskwyn.Refusal) as raised:
                    leskwyn.compare(file.name)
            self.assertEqual(raised.exception.number, 100 * second + number)
            self.assertRegex(raised.exception.reason, f"{'second' if second else 'first'} tree: .*{words[number]}")

    def test_help(self) -> None:
        for name in leskwyn.__all__:
            self.assertTrue(getattr(leskwyn, name).__doc__, name)
        for answer in (leskwyn.Comparison, leskwyn.Evidence, leskwyn.Witness, leskwyn.Influence, leskwyn.Holding, leskwyn.Dropped,
                       leskwyn.CanonicalCopy, leskwyn.Exchange, leskwyn.ExchangeTallies, leskwyn.View, leskwyn.Topology,
                       leskwyn.ThreeTrees, leskwyn.TreePair, leskwyn.NearestTree, leskwyn.TreeSum):
            for field in dataclasses.fields(answer):
                self.assertRegex(answer.__doc__, rf"(?m)^ *(\w+, )*{field.name}\b")


if __name__ == "__main__":
    skips.main()
