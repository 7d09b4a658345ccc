#!/usr/bin/env python3
"""Tests of the commands compare, why, influence, copy, same, exchange, view, view-topology, three, matrix, nearest and against, of
docs/COMMANDS.md, and of what the commands say where things fail.

    python3 tests/command_tests.py

Needs target/libleskwyn.so, or what LESKWYN_LIBRARY names. The figures of the examples are worked out by hand in README.md; the
examples of the pages are run.
"""
import contextlib
import dataclasses
import doctest
import fractions
import importlib.util
import io
import itertools
import json
import os
import pathlib
import random
import re
import shlex
import shutil
import signal
import subprocess
import sys
import tempfile
import time
import unittest
import unittest.mock
from math import comb

sys.dont_write_bytecode = True
from command_runs import ENVIRONMENT, LESKWYN, ROOT, CommandTest, Done, inside
from cases import skips
from cases.copies import copy_table, copy_text, kept_splits
from cases.evidence import evidence
from cases.exchanges import REFERENCE_TALLIES, exchanges
from cases.influence import CASES, influence
from cases.nearest import nearest, table_rows as nearest_rows
from cases.newick import Tree, random_names, random_tree, sides_of, star_text, with_pass_through, written_tree
from cases.pairs import pair_refusal, split_counts
from cases.shapes import balanced, caterpillar
from cases.tables import LABEL_TROUBLE, P, Q, THREE, W, X, damaged
from cases.three import rows as three_rows, three
from cases.triplets import triplet_table
from cases.views import topology, view, visible, with_tips

import leskwyn
from leskwyn import commands, usage
from leskwyn.figures import KEYS, STRUCK_KEYS, WEIGHTED_KEYS
from leskwyn.labels import label_list
from leskwyn.tables import newick_text

FEATHERS, WINGS = "(Azores,(Bute,Coll),Foula,(Lundy,Texel));\n", "(Azores,Bute,(Coll,Foula),(Lundy,Texel));\n"
# README.md, 'What the figures mean', by hand.
LISTING = b"leaves 6\nclaims 22 22 12 12\nquartets 6 3 2 2 2\ndistance 7\nsplits 2 2 1 2\ntriplets 3 1 2 2 2\n"
FIGURES = {"tips": 6, "sets_of_four": 15, "same": 6, "different": 3, "first_only": 2, "second_only": 2, "neither": 2,
           "distance": 7, "normalised_distance": 7 / 15, "first_splits": 2, "second_splits": 2, "common_splits": 1,
           "robinson_foulds": 2, "normalised_robinson_foulds": 2 / 4, "first_claims": 22, "second_claims": 22,
           "same_claims": 12, "different_claims": 12, "sets_of_three": 10}
# README.md, 'Five minutes', by hand: under Azores, and under Texel.
TRIPLET_KEYS = ["same_triplets", "different_triplets", "first_only_triplets", "second_only_triplets", "neither_triplets",
                "triplet_distance", "normalised_triplet_distance"]
UNDER_AZORES = {"outgroup": "Azores", **dict(zip(TRIPLET_KEYS, [3, 1, 2, 2, 2, 5, 5 / 10]))}
UNDER_TEXEL = {"outgroup": "Texel", **dict(zip(TRIPLET_KEYS, [6, 1, 1, 1, 1, 3, 3 / 10]))}


def packed(*tables: list[int]) -> bytes:
    return b"".join(word.to_bytes(2, "little") for table in tables for word in table)


def run_leskwyn(*arguments: str, **options: object) -> Done:
    settings = {"capture_output": True, "env": ENVIRONMENT, "timeout": 20, "cwd": ROOT, **options}
    return subprocess.run([*LESKWYN, *arguments], **settings)


class TreesTest(CommandTest):
    def setUp(self) -> None:
        super().setUp()
        self.file("feathers.nwk", FEATHERS)
        self.file("wings.nwk", WINGS)
        self.file("both.nwk", FEATHERS + WINGS)

    def here(self, command: str, *arguments: str, stdin: bytes | str = b"") -> Done:
        return self.run_here(*arguments, command=command, stdin=stdin)

    def assert_refused_as_compared(self, command: str, status: int) -> None:
        """Two trees in one file that compare refuses: the status, and the words of compare."""
        for content, number in ((packed(P), 101), (packed(P, THREE), 8), (packed(P, Q) + b"\0", 15),
                                (packed(P[:16] + [5] + P[17:], Q), 6), (packed(Q, P[:16] + [4] + P[17:]), 131)):
            done, compared = (self.here(one, "-", "--tables", stdin=content) for one in (command, "compare"))
            self.assertEqual((done.returncode, done.stdout, done.stderr), (status, b"", compared.stderr))
            self.assertTrue(done.stderr.decode().startswith(f"leskwyn: refused {number}: standard input: "))
        for text in (FEATHERS, "(A,B,A);" * 2, "(A,B);(A,C);", "(A,B);(A,B"):
            done, compared = (self.here(one, "-", stdin=text) for one in (command, "compare"))
            self.assertEqual((done.returncode, done.stdout, done.stderr), (status, b"", compared.stderr))

    def figures(self, *arguments: str, stdin: bytes | str = b"") -> dict[str, object]:
        done = self.here("compare", *arguments, "--format", "json", stdin=stdin)
        self.assertEqual((done.returncode, done.stdout.count(b"\n")), (0, 1), done)
        return json.loads(done.stdout)


class Compare(TreesTest):
    def test_every_way_of_giving_two_trees(self) -> None:
        for arguments, stdin in ((["feathers.nwk", "wings.nwk"], ""), (["both.nwk"], ""), (["-"], FEATHERS + WINGS),
                                 (["-", "wings.nwk"], FEATHERS), (["feathers.nwk", "-"], WINGS),
                                 (["--", "feathers.nwk", "wings.nwk"], ""), (["feathers.nwk", "--common", "wings.nwk"], "")):
            done = self.here("compare", "--listing", *arguments, stdin=stdin)
            self.assertEqual((done.returncode, done.stdout, done.stderr), (0, LISTING, b""), arguments)

    def test_a_comparison_file(self) -> None:
        self.assertEqual(self.here("table", "both.nwk", "-o", "pair.bin", "--quiet").returncode, 0)
        content = (self.folder / "pair.bin").read_bytes()
        for arguments, stdin in ((["pair.bin"], b""), (["-"], content), (["pair.bin", "--tables"], b"")):
            done = self.here("compare", *arguments, "--listing", stdin=stdin)
            self.assertEqual((done.returncode, done.stdout, done.stderr), (0, LISTING, b""))
        told = self.figures("pair.bin")
        self.assertEqual(told | FIGURES | UNDER_AZORES | {"outgroup": "", "names": []}, told)

    def test_text(self) -> None:
        done = self.here("compare", "feathers.nwk", "wings.nwk")
        self.assertEqual((done.returncode, done.stderr), (0, b""))
        lines = [" ".join(line.split()) for line in done.stdout.decode().split("\n")]
        for line in ("first tree: feathers.nwk", "second tree: wings.nwk", "populations 6", "sets of four 15",
                     "A parted alike by both trees 6 40.0 %", "B parted differently 3 20.0 %",
                     "C parted by the first tree only 2 13.3 %", "D parted by the second tree only 2 13.3 %",
                     "E left open by both trees 2 13.3 %", "distance 7 B + C + D",
                     "normalised distance 0.4667 distance / sets of four", "splits of the first tree 2",
                     "splits of the second tree 2", "splits of both 1", "Robinson-Foulds distance 2 splits of one tree only",
                     "normalised Robinson-Foulds 0.5000 distance / splits of the first and the second",
                     "outgroup: Azores, the first of the sorted names; --outgroup NAME takes another",
                     "sets of three without the outgroup 10", "A parted alike by both trees 3 30.0 %",
                     "B parted differently 1 10.0 %", "C parted by the first tree only 2 20.0 %",
                     "D parted by the second tree only 2 20.0 %", "E left open by both trees 2 20.0 %",
                     "triplet distance 5 B + C + D", "normalised triplet distance 0.5000 distance / sets of three"):
            self.assertIn(line, lines)

    def test_text_under_an_outgroup(self) -> None:
        done = self.here("compare", "feathers.nwk", "wings.nwk", "--outgroup", "Texel")
        lines = [" ".join(line.split()) for line in done.stdout.decode().split("\n")]
        self.assertEqual(lines[lines.index("outgroup: Texel"):],
                         ["outgroup: Texel", "sets of three without the outgroup 10", "A parted alike by both trees 6 60.0 %",
                          "B parted differently 1 10.0 %", "C parted by the first tree only 1 10.0 %",
                          "D parted by the second tree only 1 10.0 %", "E left open by both trees 1 10.0 %",
                          "triplet distance 3 B + C + D", "normalised triplet distance 0.3000 distance / sets of three", ""])
        self.assertIn("outgroup: label 0\n", self.here("compare", "-", stdin=packed(P, Q)).stdout.decode())
        done = self.here("compare", "-", "--outgroup", "b\nc", stdin="(a,'b\nc');" * 2)
        self.assertIn("\noutgroup: b\\nc\n", done.stdout.decode())

    def test_text_of_reference_pairs(self) -> None:
        """docs/SPECIFICATION.md, 'The figures K1 to K9': P with Q, Q with P, and W with itself."""
        for t, u, five, splits, triplets in ((P, Q, [3, 0, 2, 0, 0], [2, 1, 1, 1], [3, 0, 1, 0, 0]),
                                             (Q, P, [3, 0, 0, 2, 0], [1, 2, 1, 1], [3, 0, 0, 1, 0]),
                                             (W, W, [0, 0, 0, 0, 5], [0, 0, 0, 0], [0, 0, 0, 0, 4])):
            lines = [line.split() for line in self.here("compare", "-", stdin=packed(t, u)).stdout.decode().split("\n")]
            told = [[line[0], *line[-3:]] for line in lines if line and line[0] in "ABCDE"]
            self.assertEqual(told, [[letter, str(count), f"{part * count}.0", "%"] for part, counts in ((20, five), (25, triplets))
                                    for letter, count in zip("ABCDE", counts)])
            self.assertEqual([line[-1] for line in lines if line[:2] == ["splits", "of"]], [str(count) for count in splits[:3]])

    def test_text_without_sets_of_four(self) -> None:
        done = self.here("compare", "-", stdin="(A,B);(A,B);")
        text = " ".join(done.stdout.decode().split())
        self.assertIn("normalised distance 0.0000 there are no sets of four", text)
        self.assertIn("normalised Robinson-Foulds 0.0000 neither tree has a split", text)
        self.assertIn("normalised triplet distance 0.0000 there are no sets of three", text)
        self.assertEqual(text.count("A parted alike by both trees 0 none"), 2)

    def test_json_and_tsv(self) -> None:
        told = self.figures("feathers.nwk", "wings.nwk")
        names = ["Azores", "Bute", "Coll", "Foula", "Lundy", "Texel"]
        self.assertEqual(told, {"first": "feathers.nwk", "second": "wings.nwk", **FIGURES, **UNDER_AZORES, "names": names})
        self.assertEqual(list(told), list(KEYS))
        done = self.here("compare", "both.nwk", "--format", "tsv")
        header, row = done.stdout.decode().removesuffix("\n").split("\n")
        fields = dict(zip(header.split("\t"), row.split("\t"), strict=True))
        self.assertEqual(fields, {"first": "both.nwk, first tree", "second": "both.nwk, second tree",
                                  **{key: str(value) for key, value in (FIGURES | UNDER_AZORES).items()}})
        self.assertEqual(header.split("\t"), [key for key in KEYS if key != "names"])

    def test_outgroup(self) -> None:
        """Only the triplets depend on it."""
        for outgroup, triplets in (("Azores", UNDER_AZORES), ("Texel", UNDER_TEXEL), ("'Texel'", UNDER_TEXEL)):
            for arguments in (["both.nwk"], ["feathers.nwk", "wings.nwk"], []):
                told = self.figures(*arguments, "--outgroup", outgroup)
                self.assertEqual(told | FIGURES | triplets, told)
                self.assertEqual((told["names"][0], sorted(told["names"])),
                                 (triplets["outgroup"], ["Azores", "Bute", "Coll", "Foula", "Lundy", "Texel"]))
        for command in ("compare", "against", "matrix"):
            done = self.here(command, "feathers.nwk", "wings.nwk", "--outgroup", "Zeist")
            self.assert_message(done, 1, "the outgroup 'Zeist' is not a tip of every tree")
        done = self.here("compare", "-", "--outgroup", "0", stdin=packed(P, Q))
        self.assert_message(done, 2, "--outgroup goes by names, and a comparison file has none: its outgroup is label 0")
        self.file("more.nwk", "((Azores,Zeist),Bute,(Coll,Foula),(Lundy,Texel));")
        done = self.here("compare", "feathers.nwk", "more.nwk", "--common", "--outgroup", "Zeist")
        self.assertEqual((done.returncode, done.stdout), (1, b""))
        self.assertEqual(done.stderr.decode(), "leskwyn: left out of more.nwk: 'Zeist'\n"
                                               "leskwyn: the outgroup 'Zeist' is not a tip of every tree\n")

    def test_weights(self) -> None:
        """B is 3, C + D is 4, and there are 15 sets of four."""
        self.file("pair.bin", packed(P, Q))
        for spelling, p, distance, told in (("none", 0.0, 3.0, ["3", "0.2000", "0"]), ("full", 1.0, 7.0, ["7", "0.4667", "1"]),
                                            ("0.5", 0.5, 5.0, ["5", "0.3333", "1/2"]), ("1/2", 0.5, 5.0, ["5", "0.3333", "1/2"]),
                                            ("128/256", 0.5, 5.0, ["5", "0.3333", "1/2"]),
                                            ("1/256", 1 / 256, 3.015625, ["3.015625", "0.2010", "1/256"])):
            expected = dict(zip(WEIGHTED_KEYS, [p, distance, distance / 15]))
            for arguments in (["both.nwk"], ["feathers.nwk", "wings.nwk"], []):
                figures = self.figures(*arguments, "--weight", spelling)
                self.assertEqual(figures | FIGURES | UNDER_AZORES | expected, figures)
                self.assertEqual(list(figures), [*KEYS, *WEIGHTED_KEYS])
            text = self.here("compare", "both.nwk", "--weight", spelling).stdout.decode()
            lines = [" ".join(line.split()) for line in text.split("\n")]
            at = lines.index("normalised distance 0.4667 distance / sets of four")
            self.assertEqual(lines[at + 1:at + 4],
                             [f"weighted distance {told[0]} B + p (C + D), p = {told[2]}",
                              f"normalised weighted distance {told[1]} weighted distance / sets of four", ""])
            done = self.here("compare", "both.nwk", "--weight", spelling, "--format", "tsv")
            header, row = [line.split("\t") for line in done.stdout.decode().removesuffix("\n").split("\n")]
            self.assertEqual(header, [key for key in (*KEYS, *WEIGHTED_KEYS) if key != "names"])
            self.assertEqual(row[-3:], [str(expected[key]) for key in WEIGHTED_KEYS])
            # P with Q: C is 2, and B and D are 0.
            self.assertEqual(self.figures("pair.bin", "--weight", spelling)["weighted_distance"], 2 * p)
        self.assertNotIn("weighted", self.here("compare", "both.nwk").stdout.decode())
        text = " ".join(self.here("compare", "-", "--weight", "1/2", stdin="(A,B);(A,B);").stdout.decode().split())
        self.assertIn("weighted distance 0 B + p (C + D), p = 1/2", text)
        self.assertIn("normalised weighted distance 0.0000 there are no sets of four", text)

    def test_text_has_all_decimals(self) -> None:
        """A star against a caterpillar of 255 tips: C + D is C(255, 4), which is odd."""
        names = [f"t{i:03}" for i in range(255)]
        self.file("large.nwk", newick_text(caterpillar(255), names) + star_text(names))
        text = self.here("compare", "large.nwk", "--weight", "1/256").stdout.decode()
        self.assertRegex(text, r"(?m)^weighted distance +672115\.25390625   B \+ p \(C \+ D\), p = 1/256$")

    def test_example(self) -> None:
        for arguments in ([], ["compare"]):
            done = run_leskwyn(*arguments, cwd=self.folder)
            self.assertEqual((done.returncode, done.stderr.count(b"\n")), (0, 1))
            self.assertIn(b"these are the example trees examples/feathers.nwk and examples/wings.nwk", done.stderr)
            self.assertIn(b"first tree: examples/feathers.nwk\n", done.stdout)
        self.assertEqual(self.here("compare", "--listing").stdout, LISTING)

    def test_windows_line_ends_and_marks(self) -> None:
        text = (FEATHERS + WINGS).replace("\n", "\r\n").replace(",", " ,\r\n\t")
        for content in (text.encode(), b"\xef\xbb\xbf" + text.encode(), text.encode("utf-16")):
            self.assertEqual(self.here("compare", self.file("w.nwk", content), "--listing").stdout, LISTING)

    def test_pass_through_nodes(self) -> None:
        """Whatever their number, they change no figure, and nothing is said of them."""
        told = [self.here(*words) for words in self.COUNTING]
        for brackets in (1, 2, 9, 30, 1000):
            opened, closed = "(" * brackets, ")" * brackets
            for name, text in (("feathers.nwk", FEATHERS), ("wings.nwk", WINGS)):
                text = text.replace("Bute", f"{opened}Bute{closed}").replace("(Lundy", f"{opened}(Lundy")
                self.file(name, text.replace("Texel)", f"(Texel)){closed}"))
            for words, before in zip(self.COUNTING, told):
                done = self.here(*words)
                self.assertEqual((done.returncode, done.stdout, done.stderr), (0, before.stdout, before.stderr), words)

    COUNTING = [["compare", "feathers.nwk", "wings.nwk"], ["compare", "feathers.nwk", "wings.nwk", "--listing"],
                ["compare", "feathers.nwk", "wings.nwk", "--common", "--weight", "1/2", "--format", "json"],
                ["against", "feathers.nwk", "wings.nwk", "feathers.nwk", "--outgroup", "Texel"],
                ["matrix", "feathers.nwk", "wings.nwk", "--measure", "splits"],
                ["matrix", "feathers.nwk", "wings.nwk", "--measure", "triplets", "--outgroup", "Bute"],
                ["influence", "feathers.nwk", "wings.nwk", "--drop", "2"]]

    def test_256_tips_soon(self) -> None:
        """Any size goes through the library: 255 * 2 - 1 edges of each tree."""
        names = [f"t{i:03}" for i in range(256)]
        first, second = balanced(256), caterpillar(256)
        self.file("large.nwk", newick_text(first, names) + newick_text(second, names))
        start = time.monotonic()
        done = run_leskwyn("compare", str(self.folder / "large.nwk"), "--format", "json")
        self.assertLess(time.monotonic() - start, 3)
        told = json.loads(done.stdout)
        self.assertEqual([told[key] for key in ("same", "different", "first_only", "second_only", "neither")],
                         [told["sets_of_four"] - told["different"], told["different"], 0, 0, 0])
        self.assertEqual([told[key] for key in ("first_splits", "second_splits", "common_splits", "robinson_foulds")],
                         split_counts(first, second))
        self.assertEqual([told[key] for key in TRIPLET_KEYS[:6]], triplet_table(first, second))

    def test_common(self) -> None:
        self.file("more.nwk", "((Azores,Zeist),Bute,(Coll,(Foula,'Y e')),(Lundy,Texel));")
        done = self.here("compare", "feathers.nwk", "more.nwk", "--common", "--listing")
        self.assertEqual((done.returncode, done.stdout), (0, LISTING))
        self.assertEqual(done.stderr.decode(), "leskwyn: left out of more.nwk: 'Y e', 'Zeist'\n")
        done = self.here("compare", "feathers.nwk", "more.nwk")
        self.assert_message(done, 1, "different tips", "only more.nwk has 'Y e', 'Zeist'", "--common")
        many = star_text(["Azores", *(f"x{i:02}" for i in range(24))])
        done = self.here("compare", "feathers.nwk", "-", stdin=many)
        self.assert_message(done, 1, "only feathers.nwk has 'Bute', 'Coll', 'Foula', 'Lundy', 'Texel';",
                            "only standard input has 'x00', ", "'x19' and 4 more;")
        self.assert_message(self.here("compare", "feathers.nwk", "-", "--common", stdin=many), 1, "share 1 name")
        self.assert_message(self.here("compare", "-", "--common", stdin=packed(P, Q)), 2, "a comparison file has none")

    def test_unicode_forms_left_out(self) -> None:
        done = self.here("compare", "-", "--common", "--listing", stdin="(M\u00f6we,B,C);(Mo\u0308we,B,C);")
        self.assertEqual(done.returncode, 0)
        self.assertIn("'M\u00f6we' differs only in Unicode form", done.stderr.decode())


NAMES = ["Azores", "Bute", "Coll", "Foula", "Lundy", "Texel"]
# By hand, of feathers and wings without these names: A to E, the splits of the first tree, of the second and of both.
# Without Foula feathers still pair Bute with Coll and Lundy with Texel, wings Lundy with Texel alone; without Coll both pair only
# Lundy with Texel; without Azores both have their two pairs, and Bute, Coll, Foula with Lundy or Texel are parted differently;
# without both Azores and Foula the edges to Bute and Coll and to Lundy and Texel are one split of feathers; without Lundy and Texel
# one set of four is left, and parted differently. Three names or fewer are in no set of four.
KEPT = {"": ([6, 3, 2, 2, 2], [2, 2, 1]), "Foula": ([3, 0, 2, 0, 0], [2, 1, 1]), "Coll": ([3, 0, 0, 0, 2], [1, 1, 1]),
        "Azores": ([3, 2, 0, 0, 0], [2, 2, 1]), "Azores Foula": ([1, 0, 0, 0, 0], [1, 1, 1]),
        "Lundy Texel": ([0, 1, 0, 0, 0], [1, 1, 0]), "Azores Bute Coll": ([0] * 5, [0] * 3),
        "Bute Coll Foula Lundy Texel": ([0] * 5, [0] * 3), " ".join(NAMES): ([0] * 5, [0] * 3)}


def figures_without(struck: list[str]) -> dict[str, object]:
    """What follows from the cases and the splits."""
    (a, b, c, d, e), (first, second, common) = KEPT[" ".join(struck)]
    whole, apart = a + b + c + d + e, first + second - 2 * common
    return {"tips": 6, "sets_of_four": whole, "same": a, "different": b, "first_only": c, "second_only": d, "neither": e,
            "distance": b + c + d, "normalised_distance": (b + c + d) / (whole or 1), "first_splits": first,
            "second_splits": second, "common_splits": common, "robinson_foulds": apart,
            "normalised_robinson_foulds": apart / (first + second or 1), "first_claims": 2 * (a + b + c),
            "second_claims": 2 * (a + b + d), "same_claims": 2 * a, "different_claims": 4 * b, "names": NAMES,
            "sets_of_three": 10, **UNDER_AZORES, "kept": 6 - len(struck), "struck": struck}


class Strike(TreesTest):
    """Populations struck from the count, by --strike and by --strike-file."""

    NOTE = "leskwyn: note: the triplets count all 6 populations, struck ones too\n"

    def options(self, words: str) -> list[str]:
        return [part for name in words.split() for part in ("--strike", name)]

    def test_figures(self) -> None:
        """Of none, one, few, all but one and all, in any order; the triplets are those of all."""
        for words in KEPT:
            for order in (words.split(), words.split()[::-1], words.split() * 2):
                name = self.file("struck.txt", "".join(f"{one}\n" for one in order))
                for options in ([self.options(" ".join(order))] if words else []) + [["--strike-file", name]]:
                    told = self.figures("feathers.nwk", "wings.nwk", *options)
                    self.assertEqual(told, {"first": "feathers.nwk", "second": "wings.nwk", **figures_without(words.split())})
                    self.assertEqual(list(told), [*KEYS, *STRUCK_KEYS])

    def test_text(self) -> None:
        done = self.here("compare", "feathers.nwk", "wings.nwk", "--strike", "Foula")
        self.assertEqual((done.returncode, done.stderr), (0, b""))
        lines = [" ".join(line.split()) for line in done.stdout.decode().split("\n")]
        plain = [" ".join(line.split()) for line in self.here("compare", "feathers.nwk", "wings.nwk").stdout.decode().split("\n")]
        at = plain.index("outgroup: Azores, the first of the sorted names; --outgroup NAME takes another")
        self.assertEqual(lines, [
            "first tree: feathers.nwk", "second tree: wings.nwk", "struck: Foula", "", "populations 6",
            "kept 5 of 6; sets of four and splits count these alone", "sets of four 5", "A parted alike by both trees 3 60.0 %",
            "B parted differently 0 0.0 %", "C parted by the first tree only 2 40.0 %", "D parted by the second tree only 0 0.0 %",
            "E left open by both trees 0 0.0 %", "distance 2 B + C + D", "normalised distance 0.4000 distance / sets of four", "",
            "splits of the first tree 2", "splits of the second tree 1", "splits of both 1",
            "Robinson-Foulds distance 1 splits of one tree only",
            "normalised Robinson-Foulds 0.3333 distance / splits of the first and the second", "", plain[at],
            "the triplets count all 6 populations, struck ones too", *plain[at + 1:]])

    def test_text_of_few(self) -> None:
        """All struck names stand there, in the order of their labels; without sets of four and splits the text says so."""
        options = self.options("Foula Azores Texel Coll Bute")
        text = self.here("compare", "both.nwk", "--outgroup", "Texel", *options, "--weight", "1/2").stdout.decode()
        self.assertIn("\nstruck: Texel, Azores, Bute, Coll, Foula\n\n", text)
        self.assertIn("\noutgroup: Texel\nthe triplets count all 6 populations, struck ones too\nsets of three", text)
        text = " ".join(text.split())
        for words in ("kept 1 of 6; ", "sets of four 0 A parted alike by both trees 0 none", "0.0000 neither tree has a split",
                      "normalised distance 0.0000 there are no sets of four",
                      "normalised weighted distance 0.0000 there are no sets of four"):
            self.assertIn(words, text)

    def test_nothing_struck(self) -> None:
        """A file without names strikes nothing, and the output says so: the figures are those without it."""
        name = self.file("none.txt", "# no season without recoveries\n\n")
        plain = self.here("compare", "both.nwk").stdout.decode()
        done = self.here("compare", "both.nwk", "--strike-file", name)
        kept = f"{'kept':36} {6:>10}   of 6; sets of four and splits count these alone\n"
        self.assertEqual(done.stdout.decode(), plain.replace("sets of four  ", kept + "sets of four  ", 1))
        self.assertEqual(done.stderr, b"")
        for command, *words in (["compare", "both.nwk"], ["against", "feathers.nwk", "wings.nwk"]):
            plain, done = (self.here(command, *words, *more, "--format", "tsv").stdout.decode().splitlines()
                           for more in ([], ["--strike-file", name]))
            self.assertEqual(done, [plain[0] + "\tkept\tstruck", plain[1] + "\t6\t"])
        plain, done = (self.here("matrix", "both.nwk", *more) for more in ([], ["--strike-file", name]))
        self.assertEqual((done.stdout, done.stderr), (plain.stdout, b"leskwyn: kept 6 of 6 populations\n"))

    def test_for_programs(self) -> None:
        """Two keys more, after those of a weight; standard error says what the triplets count."""
        for command, *words in (["compare", "both.nwk"], ["against", "feathers.nwk", "wings.nwk"]):
            done = self.here(command, *words, "--format", "tsv", *self.options("Texel Foula Azores"))
            header, row = [line.split("\t") for line in done.stdout.decode().removesuffix("\n").split("\n")]
            self.assertEqual(header, [key for key in (*KEYS, *STRUCK_KEYS) if key != "names"])
            self.assertEqual((len(row), row[-2:], done.stderr.decode()), (len(header), ["3", "Azores,Foula,Texel"], self.NOTE))
            done = self.here(command, *words, "--format", "json", "--strike", "Foula", "--weight", "1/2")
            told = json.loads(done.stdout)
            self.assertEqual(list(told), [*KEYS, *WEIGHTED_KEYS, *STRUCK_KEYS])
            self.assertEqual([told[key] for key in WEIGHTED_KEYS], [0.5, 1.0, 1.0 / 5])
            self.assertEqual((told["kept"], told["struck"], done.stderr.decode()), (5, ["Foula"], self.NOTE))

    def test_names_as_they_are_written(self) -> None:
        """In the text a name that could be read as several stands in quotes; in tsv all are written as in Newick text."""
        self.file("names.nwk", "(('a, b',Parus_major),('c + d','e\nf',\"it's\",' g'),M\u00f6we);" * 2)
        words = ["a, b", "Parus_major", "e\nf", "'it''s'", "' g'", "c + d", "M\u00f6we"]
        options = [part for word in words for part in ("--strike", word)]
        told = "struck: ' g', M\u00f6we, Parus major, 'a, b', 'c + d', e\\nf, it's\n"
        self.assertIn(f"\n{told}", self.here("compare", "names.nwk", *options).stdout.decode())
        row = self.here("compare", "names.nwk", *options, "--format", "tsv").stdout.decode().splitlines()[1]
        self.assertEqual(row.split("\t")[-1], "' g','M\u00f6we','Parus major','a, b','c + d','e\\nf','it''s'")
        self.assertEqual(self.figures("names.nwk", *options)["struck"],
                         [" g", "M\u00f6we", "Parus major", "a, b", "c + d", "e\nf", "it's"])
        done = self.here("matrix", "names.nwk", *options)
        self.assertEqual(done.stderr.decode(), f"leskwyn: kept 0 of 7 populations; {told}")

    def test_many_names(self) -> None:
        """All of them are told."""
        names = [f"t{i:03}" for i in range(256)]
        self.file("many.nwk", star_text(names) * 2)
        done = self.here("compare", "many.nwk", "--strike-file", self.file("struck.txt", "\n".join(names[:0:-1])))
        self.assertIn(f"\nstruck: {', '.join(names[1:])}\n", done.stdout.decode())

    def test_both_options(self) -> None:
        """What both tell is struck, and what stands twice once; files add up."""
        self.file("some.txt", "Azores\nFoula\n")
        self.file("more.txt", "Foula\n")
        expected = {"first": "feathers.nwk", "second": "wings.nwk"}
        for options, words in ((["--strike", "Azores", "--strike-file", "more.txt"], "Azores Foula"),
                               (["--strike-file", "some.txt", "--strike", "Foula", "--strike", "'Foula'"], "Azores Foula"),
                               (["--strike-file", "more.txt", "--strike-file", "some.txt"], "Azores Foula"),
                               (["--strike-file", "more.txt", "--strike-file", "more.txt"], "Foula"),
                               (["--strike=Foula"], "Foula"), (["--strike-file=some.txt"], "Azores Foula")):
            told = self.figures("feathers.nwk", "wings.nwk", *options)
            self.assertEqual(told, {**expected, **figures_without(words.split())}, options)

    def test_files(self) -> None:
        """Comments, blank lines, Windows line ends, a byte order mark, no line end at the end; - is standard input."""
        texts = ["Foula\nAzores", "# season 3\n\nFoula\n \t\n#Bute\nAzores\n\n", "Azores\r\n\r\n# x\r\nFoula\r\n",
                 "Foula\n'Azores'\nFoula"]
        expected = figures_without(["Azores", "Foula"])
        for text in texts:
            for content in (text.encode(), b"\xef\xbb\xbf" + text.encode(), text.encode("utf-16")):
                told = self.figures("both.nwk", "--strike-file", self.file("struck.txt", content))
                self.assertEqual(told | expected, told, text)
                told = self.figures("both.nwk", "--strike-file", "-", stdin=content)
                self.assertEqual(told | expected, told, text)
        told = self.figures("-", "--strike-file", "struck.txt", stdin=FEATHERS + WINGS)
        self.assertEqual(told | expected, told)
        # what begins with # is a name in quotes, and blanks are of the name
        self.file("signs.nwk", "('#a',' b',(c_d,e));" * 2)
        told = self.figures("signs.nwk", "--strike-file", self.file("signs.txt", "#a\n'#a'\n b\nc_d\n"))
        self.assertEqual((told["struck"], told["kept"]), ([" b", "#a", "c d"], 1))

    def test_names_that_are_refused(self) -> None:
        self.file("struck.txt", "Foula\nZeist\n")
        self.file("more.nwk", "((Azores,Zeist),Bute,(Coll,Foula),(Lundy,Texel));")
        for command, options in itertools.product(("compare", "against", "matrix", "influence"),
                                                  (["--strike", "Zeist"], ["--strike-file", "struck.txt"])):
            done = self.here(command, "feathers.nwk", "wings.nwk", *options)
            self.assert_message(done, 1, "leskwyn: cannot strike 'Zeist': not a tip of every tree\n")
            done = self.here(command, "feathers.nwk", "wings.nwk", "--strike", "Yell", *options)
            self.assert_message(done, 1, "cannot strike 'Yell', 'Zeist': not tips of every tree\n")
            done = self.here(command, "feathers.nwk", "more.nwk", "--common", *options)
            self.assertEqual((done.returncode, done.stdout), (1, b""))
            self.assertEqual(done.stderr.decode(), "leskwyn: left out of more.nwk: 'Zeist'\n"
                                                   "leskwyn: cannot strike 'Zeist': not a tip of every tree\n")
        for name, words in (("", "cannot strike '': not a tip"), ("foula", "cannot strike 'foula': not a tip"),
                            ("a\nb", "cannot strike 'a\\nb': not a tip"), ("Foula ", "cannot strike 'Foula ': not a tip")):
            self.assert_message(self.here("compare", "both.nwk", "--strike", name), 1, words)
        done = self.here("compare", "-", "--strike", "Mo\u0308we", stdin="(M\u00f6we,B,C);" * 2)
        self.assert_message(done, 1, "cannot strike 'Mo\u0308we'", "'M\u00f6we' differs only in Unicode form")

    def test_common(self) -> None:
        self.file("more.nwk", "((Azores,Zeist),Bute,(Coll,Foula),(Lundy,Texel));")
        done = self.here("compare", "feathers.nwk", "more.nwk", "--common", "--strike", "Foula", "--format", "json")
        self.assertEqual((done.returncode, done.stderr.decode()), (0, "leskwyn: left out of more.nwk: 'Zeist'\n" + self.NOTE))
        told = json.loads(done.stdout)
        self.assertEqual(told | figures_without(["Foula"]), told)

    def test_comparison_files(self) -> None:
        """By labels: Azores has 0 and Foula 3. A label that is not there is told with 32, after what is wrong with the tables."""
        self.assertEqual(self.here("table", "both.nwk", "-o", "pair.bin", "--quiet").returncode, 0)
        self.file("labels.txt", "# Foula\n3\n")
        for options, words, labels in ((["--strike", "3"], "Foula", ["3"]), (["--strike-file", "labels.txt"], "Foula", ["3"]),
                                       (["--strike-file", "labels.txt", "--strike", "0", "--tables"], "Azores Foula", ["0", "3"])):
            told = self.figures("pair.bin", *options)
            self.assertEqual(told | figures_without(words.split()) | {"names": [], "outgroup": "", "struck": labels}, told)
        self.assertIn("\nstruck: 0, 3\n", self.here("compare", "pair.bin", *self.options("3 0")).stdout.decode())
        for label, words in (("6", "refused 32: pair.bin: there is no label 6 to strike: the labels are 0 to 5"),
                             ("Foula", "pair.bin: 'Foula' is no label: a comparison file has no names")):
            self.assert_message(self.here("compare", "pair.bin", "--strike", label), 1, words)
        for content, number in ((packed(P), 101), (packed(P, THREE), 8), (packed(P[:16] + [5] + P[17:], Q), 6), (packed(P, Q), 32)):
            done = self.here("compare", "-", "--tables", "--strike", "9", stdin=content)
            self.assert_message(done, 1, f"leskwyn: refused {number}: standard input: ")

    def test_example_trees(self) -> None:
        done = run_leskwyn("compare", "--strike", "Coll", cwd=self.folder)
        self.assertIn(b"these are the example trees", done.stderr)
        self.assertRegex(done.stdout, rb"(?s)\nstruck: Coll\n.*\ndistance +0   B \+ C \+ D\n")

    def test_many(self) -> None:
        """Feathers, wings and a star, without Foula: feathers part all five sets of four, wings three of them, and alike."""
        star = self.file("star.nwk", star_text(NAMES))
        trees = ["feathers.nwk", "wings.nwk", star]
        for arguments, near, far, other, over in (([], 2, 5, 3, 5), (["--measure", "splits"], 1, 2, 1, None),
                                                  (["--measure", "weighted", "--weight", "1/4"], 0.5, 1.25, 0.75, 5)):
            square = [[0, near, far], [near, 0, other], [far, other, 0]]
            for jobs, normalised in itertools.product(("1", "3"), (False, True)):
                done = self.here("matrix", *trees, *arguments, "--strike", "Foula", "--jobs", jobs, *["--normalised"] * normalised)
                self.assertEqual((done.returncode, done.stderr), (0, b"leskwyn: kept 5 of 6 populations; struck: Foula\n"))
                told = [line.split("\t")[1:] for line in done.stdout.decode().removesuffix("\n").split("\n")[1:]]
                # of splits: two of feathers, one of wings, none of the star
                whole = [[over or (s + t or 1) for t in (2, 1, 0)] for s in (2, 1, 0)]
                expected = [[a / b if normalised else a for a, b in zip(*rows)] for rows in zip(square, whole)]
                self.assertEqual([[float(number) for number in row] for row in told], expected, arguments)
        done = self.here("against", *trees, "--format", "json", "--strike", "Foula")
        rows = [json.loads(line) for line in done.stdout.decode().removesuffix("\n").split("\n")]
        keys = ["second", "distance", "normalised_distance", "robinson_foulds", "kept", "struck"]
        self.assertEqual([[row[key] for key in keys] for row in rows],
                         [["wings.nwk", 2, 2 / 5, 1, 5, ["Foula"]], [star, 5, 1.0, 2, 5, ["Foula"]]])
        self.assertEqual(done.stderr.decode(), self.NOTE)

    def test_a_square_of_triplets(self) -> None:
        """It counts all populations, and standard error says so."""
        plain, done = (self.here("matrix", "both.nwk", "--measure", "triplets", "--outgroup", "Azores", *options)
                       for options in ([], self.options("Azores Coll")))
        self.assertEqual((done.returncode, done.stdout, plain.stderr), (0, plain.stdout, b""))
        self.assertEqual(done.stderr.decode(), "leskwyn: kept 4 of 6 populations; struck: Azores, Coll\n" + self.NOTE)

    def test_wrong_usage(self) -> None:
        self.file("struck.txt", "Foula\n")
        for option in (["--strike", "Foula"], ["--strike-file", "struck.txt"], ["--strike-file", "absent"]):
            for arguments in (["both.nwk", "--listing", *option], [*option, "--listing"]):
                words = f"--listing and {option[0]} exclude each other: the proved program keeps all populations"
                self.assert_message(self.here("compare", *arguments), 2, words, "leskwyn compare --help tells the usage")
            for command, *words in (["why", "both.nwk", "Azores", "Bute", "Coll", "Lundy"], ["table", "both.nwk"], ["show", "x"]):
                self.assert_message(self.here(command, *words, *option), 2, f"unrecognized arguments: {option[0]}",
                                    f"leskwyn {command} --help tells the usage")
        for command in ("compare", "matrix", "against", "influence"):
            words = ["feathers.nwk", "wings.nwk"]
            for arguments, told in ((["--strike"], "--strike: expected one argument"),
                                    (["--strike-file", ""], "an empty file name"),
                                    (["-", "--strike-file", "-"], "standard input can be read only once"),
                                    (["--strike-file", "-", "--strike-file", "-"], "standard input can be read only once"),
                                    (["--struck", "Foula"], "unrecognized arguments: --struck")):
                done = self.here(command, *(words[:1] if "-" in arguments[:1] else words), *arguments)
                self.assert_message(done, 2, told, f"leskwyn {command} --help tells the usage")
            self.assert_message(self.here(command, *words, "--strike-file", "absent"), 2, "cannot read absent: No such file")
            self.assert_message(self.here(command, *words, "--strike-file", "."), 2, "cannot read .: Is a directory")
            done = self.here(command, *words, "--strike-file", self.file("latin", "M\u00f6we\n".encode("latin-1")))
            self.assert_message(done, 1, "latin: not UTF-8 text, at byte 1 (line 1), 0xf6; save the file as UTF-8")

    def test_before_there_is_a_library(self) -> None:
        """A file that is not there is told, before the library is built."""
        self.file("struck.txt", "Zeist\n")
        for arguments, status in ((["--strike-file", "absent"], 2), (["--strike-file", "struck.txt", "--strike", "Yell"], 3)):
            for command in ("compare", "matrix", "against", "influence", "same"):
                with inside(self.folder), contextlib.redirect_stderr(io.StringIO()) as said:
                    done = commands.main([command, "feathers.nwk", "wings.nwk", *arguments], has_library=False)
                self.assertEqual((done, "cannot read absent: " in said.getvalue()), (status, status == 2))


class Refusals(TreesTest):
    """Every number of a comparison file is told in words."""

    def refused(self, content: bytes, number: int, *words: str) -> None:
        for arguments in (["--tables"], ["--tables", "--format", "json"]):
            done = self.here("compare", "-", *arguments, stdin=content)
            self.assert_message(done, 1, f"leskwyn: refused {number}: standard input: ", *words)
        done = self.here("compare", "-", "--tables", "--listing", stdin=content)
        self.assertEqual((done.returncode, done.stdout), (1, b"refused %d\n" % number))
        self.assertIn(f"refused {number}: ", done.stderr.decode())

    def test_every_number(self) -> None:
        def changed(at: int, word: int) -> list[int]:
            return P[:at] + [word] + P[at + 1:]
        self.refused(b"", 1, "first tree", "too short: 0 of the 2 words")
        self.refused(packed(P), 101, "second tree", "too short", "make it again")
        self.refused(packed(P[:-3]), 4, "first tree", "words missing: 3", "make the file again")
        self.refused(packed(P, Q, [7, 7]), 104, "second tree", "words left over: 2", "make the file again")
        for table, number, words in ((changed(0, 257), 2, ["n is 257", "too small or too large"]),
                                     (changed(0, 9), 3, ["m is 8, not 9 to 36", "nodes are missing, or there are too many"]),
                                     ([2, 9, 0, 0, *range(1, 8), 0, *[X] * 7, 1], 3, ["m is 9, not 2 to 8", "count them again"]),
                                     (changed(5, 3), 5, ["the parent of node 3 is 3, not 1 to 2", "after its parent"]),
                                     (changed(16, 5), 6, ["the label of node 6 is 5, neither below n", "mend the export"]),
                                     (changed(10, 1), 6, ["the label of node 0 is 1, not 0", "mend the export"]),
                                     (changed(16, 4), 31, ["label 3 stands 0 times, label 4 stands 2 times, not once",
                                                           "a population that stands twice or is missing"]),
                                     (changed(16, X), 31, ["label 3 stands 0 times, not once", "field sheet"]),
                                     ([5, 9, *P[2:10], 1, *P[10:], X], 7, ["inner node 8 has no child",
                                                                           "take out inner nodes without a child"]),
                                     (changed(6, 2), 7, ["node 2 is a tip and has a child", "give tips no child"])):
            self.refused(packed(table, Q), number, "first tree", *words)
            self.refused(packed(Q, table), 100 + number, "second tree", *words, "word 1")
        self.refused(packed(P, THREE), 8, "the first tree has 5 tips, the second 3", "take the populations out")
        self.refused(packed(P, Q) + b"\0", 15, "odd number of bytes", "make it again")

    def test_label_trouble(self) -> None:
        for table, number in LABEL_TROUBLE:
            self.refused(packed(table, Q), number, "first tree")
            self.refused(packed(Q, table), 100 + number, "second tree")

    def test_damaged_tables(self) -> None:
        for t, u in itertools.chain(((t, list(W)) for t in damaged(P)), ((list(P), t) for t in damaged(W))):
            words = t + u
            size = 2 + 2 * words[1] if len(words) > 1 else len(words)
            number = pair_refusal(words[:size], words[size:], 10**6)
            if number:
                self.refused(packed(t, u), number)

    def test_comparison_files_told_by_their_bytes(self) -> None:
        done = self.here("compare", "-", stdin=packed(P, Q)[:-2])
        self.assert_message(done, 1, "refused 104: ", "second tree")
        self.assert_message(self.here("compare", "-", stdin=b""), 1, "no tree in the file; two trees are needed")
        self.assert_message(self.here("compare", "feathers.nwk", "-", stdin=packed(P, Q)), 1, "is a comparison file", "alone")

    def test_texts(self) -> None:
        for text, words in (("(A,B);", "one tree in the file; two trees are needed"), ("(A,B);(A,B;", "( without its )"),
                            ("(A,B,A);(A,B);", "first tree: repeated tip names: 'A'"), ("(A,B:0,5);(A,B);", "decimal comma"),
                            (star_text(map(str, range(300))) * 2, "first tree: 300 tips; a tree needs 2 to 256")):
            done = self.here("compare", "-", "--listing", stdin=text)
            self.assert_message(done, 1, "standard input", words)


class Why(TreesTest):
    """Feathers have edge 2 to Bute and Coll and edge 6 to Lundy and Texel, wings edge 3 to Coll and Foula and edge 6."""

    FOUR = ["Azores", "Bute", "Coll", "Lundy"]
    # The four of README.md, 'Five minutes', with what parts them, by hand.
    FEATHERS = ["parts them two and two, by edge 2:", "  Azores + Lundy   with Foula, Texel", "  Bute + Coll", ""]
    WINGS = ["leaves them open; they meet at node 1, on four branches:", "  Azores", "  Bute", "  Coll     with Foula",
             "  Lundy    with Texel", ""]
    TOLD = {"names": FOUR, "case": "C",
            "first_tree": {"pairs": [["Azores", "Lundy"], ["Bute", "Coll"]], "edge": 2, "node": None,
                           "parts": [["Azores", "Foula", "Lundy", "Texel"], ["Bute", "Coll"]]},
            "second_tree": {"pairs": None, "edge": None, "node": 1,
                            "parts": [["Azores"], ["Bute"], ["Coll", "Foula"], ["Lundy", "Texel"]]}}

    def why(self, *arguments: str, stdin: bytes | str = b"") -> list[str]:
        done = self.here("why", *arguments, stdin=stdin)
        self.assertEqual((done.returncode, done.stderr), (0, b""), done)
        return done.stdout.decode().removesuffix("\n").split("\n")

    def told(self, *arguments: str, stdin: bytes | str = b"") -> dict[str, object]:
        line, = self.why(*arguments, "--format", "json", stdin=stdin)
        return json.loads(line)

    def test_text(self) -> None:
        for four in itertools.permutations(self.FOUR):
            self.assertEqual(self.why("feathers.nwk", "wings.nwk", *four),
                             ["first tree: feathers.nwk", *self.FEATHERS, "second tree: wings.nwk", *self.WINGS,
                              "case C: parted by the first tree only"])
        self.assertEqual(self.why("wings.nwk", "feathers.nwk", *self.FOUR)[1:], [
            *self.WINGS, "second tree: feathers.nwk", *self.FEATHERS, "case D: parted by the second tree only"])

    def test_cases(self) -> None:
        """README.md, 'Five minutes': sets of four of each case."""
        for four, case in (("Lundy Texel Bute Foula", "A: parted alike by both trees"),
                           ("Bute Coll Foula Lundy", "B: parted differently"),
                           ("Azores Bute Coll Texel", "C: parted by the first tree only"),
                           ("Azores Coll Foula Texel", "D: parted by the second tree only"),
                           ("Azores Bute Foula Texel", "E: left open by both trees")):
            self.assertEqual(self.why("both.nwk", *four.split())[-1], f"case {case}")
            self.assertEqual(self.told("both.nwk", *four.split())["case"], case[0])

    def test_every_way_of_giving_two_trees(self) -> None:
        for trees, stdin, first, second in (
                (["feathers.nwk", "wings.nwk"], "", "feathers.nwk", "wings.nwk"),
                (["both.nwk"], "", "both.nwk, first tree", "both.nwk, second tree"),
                (["-"], FEATHERS + WINGS, "standard input, first tree", "standard input, second tree"),
                (["-", "wings.nwk"], FEATHERS, "standard input", "wings.nwk"),
                (["feathers.nwk", "-"], WINGS, "feathers.nwk", "standard input")):
            expected = {"first": first, "second": second, **self.TOLD}
            for words in ([*trees, *self.FOUR], ["--", *trees, *self.FOUR], [*trees, "--", *self.FOUR],
                          [*trees, "--common", *self.FOUR], [*trees, *self.FOUR[:2], "--outgroup", "Azores", *self.FOUR[2:]]):
                done = self.here("why", "--format", "json", *words, stdin=stdin)
                self.assertEqual((done.returncode, done.stderr, done.stdout.count(b"\n")), (0, b"", 1), words)
                self.assertEqual(json.loads(done.stdout), expected)
        self.assertEqual(list(expected), ["first", "second", "names", "case", "first_tree", "second_tree"])

    def test_comparison_files(self) -> None:
        """With labels for names; the numbers are those of the trees' texts."""
        self.assertEqual(self.here("table", "both.nwk", "-o", "pair.bin", "--quiet").returncode, 0)
        labels = {name: str(label) for label, name in enumerate(["Azores", "Bute", "Coll", "Foula", "Lundy", "Texel"])}
        told = self.told("pair.bin", *(labels[name] for name in self.FOUR))
        for tree in ("first_tree", "second_tree"):
            for key in ("edge", "node"):
                self.assertEqual(told[tree][key], self.TOLD[tree][key])
            self.assertEqual(told[tree]["parts"], [[labels[name] for name in part] for part in self.TOLD[tree]["parts"]])
        self.assertEqual((told["first"], told["case"], told["names"]), ("pair.bin, first tree", "C", ["0", "1", "2", "4"]))
        self.assertEqual(self.why("-", "4", "3", "2", "1", "--tables", stdin=packed(P, Q)), [
            "first tree: standard input, first tree", "parts them two and two, by edge 5:", "  1 + 2   with 0", "  3 + 4", "",
            "second tree: standard input, second tree", "leaves them open; they meet at node 3, on four branches:",
            "  1   with 0", "  2", "  3", "  4", "", "case C: parted by the first tree only"])

    def test_every_set_of_four_of_reference_tables(self) -> None:
        for t, u in itertools.product((P, Q, W), repeat=2):
            for four in itertools.combinations(range(5), 4):
                told = self.told("-", *map(str, four), stdin=packed(t, u))
                number, which, *shown = evidence(t, u, four)
                numbers = [one for tree in ("first_tree", "second_tree") for one in (told[tree]["edge"], told[tree]["node"])]
                expected = [one for edge, at in (shown[:2], shown[2:]) for one in ((at, None) if edge else (None, at))]
                self.assertEqual((number, told["case"], numbers), (0, "ABCDE"[which], expected))

    def test_ten_names_on_a_side(self) -> None:
        """The pair and eight others; of a branch one and nine others; then how many more. json has all."""
        for count, more in ((7, ""), (8, ""), (9, " and 1 more"), (20, " and 12 more")):
            names = [f"x{i:02}" for i in range(count)]
            self.file("many.nwk", f"((a,b),(c,d,{','.join(names)}));((a,{','.join(names)}),b,c,d);")
            lines = self.why("many.nwk", "a", "b", "c", "d")
            self.assertEqual(lines[1:4], ["parts them two and two, by edge 3:", "  a + b",
                                          f"  c + d   with {', '.join(names[:8])}{more}"])
            more = f" and {count - 9} more" if count > 9 else ""
            self.assertIn(f"  a   with {', '.join(names[:9])}{more}", lines)
            self.assertEqual(self.told("many.nwk", "a", "b", "c", "d")["first_tree"]["parts"], [["a", "b"], ["c", "d", *names]])

    def test_other_branches(self) -> None:
        lines = self.why("-", "a", "b", "c", "d", stdin="(a,b,c,d,(x,y));(d,c,b,a,x,y);")
        self.assertEqual([line for line in lines if "other" in line], ["  on 1 other branch: x, y", "  on 2 other branches: x, y"])
        names = [f"x{i:02}" for i in range(16)]
        lines = self.why("-", "a", "b", "c", "d", stdin=star_text(["a", "b", "c", "d", *names]) * 2)
        self.assertEqual(lines[2:7], ["  a", "  b", "  c", "  d", f"  on 16 other branches: {', '.join(names[:10])} and 6 more"])

    def test_outgroup(self) -> None:
        """Of several edges that part the four, that nearest to the outgroup has the lowest number here."""
        self.file("worm.nwk", "(a,(b,(x,(c,d))));" * 2)
        for arguments, parts in (([], [["a", "b"], ["c", "d", "x"]]), (["--outgroup", "d"], [["d", "c"], ["a", "b", "x"]])):
            told = self.told("worm.nwk", "d", "c", "b", "a", *arguments)["first_tree"]
            self.assertEqual((told["parts"], sorted(map(sorted, told["pairs"]))), (parts, [["a", "b"], ["c", "d"]]))
        self.assert_message(self.here("why", "both.nwk", *self.FOUR, "--outgroup", "Zeist"), 1, "the outgroup 'Zeist' is not a tip")

    def test_common(self) -> None:
        self.file("more.nwk", "((Azores,Zeist),Bute,(Coll,(Foula,'Y e')),(Lundy,Texel));")
        done = self.here("why", "feathers.nwk", "more.nwk", *self.FOUR, "--common")
        self.assertEqual((done.returncode, done.stderr.decode()), (0, "leskwyn: left out of more.nwk: 'Y e', 'Zeist'\n"))
        self.assertEqual(done.stdout.decode().split("\n")[-2], "case C: parted by the first tree only")
        done = self.here("why", "feathers.nwk", "more.nwk", *self.FOUR)
        self.assert_message(done, 1, "only more.nwk has 'Y e', 'Zeist'", "--common")
        done = self.here("why", "feathers.nwk", "more.nwk", "Azores", "Bute", "Coll", "Zeist", "--common")
        self.assertEqual((done.returncode, done.stdout), (1, b""))
        self.assertIn("leskwyn: 'Zeist' is not a tip of both trees\n", done.stderr.decode())

    def test_names_as_they_are_written(self) -> None:
        """A name that could be read as several stands in quotes, and no line has a line break of a name."""
        self.file("names.nwk", "(('a, b',Parus_major),('c + d','e\nf',\"it's\",' g'));" * 2)
        lines = self.why("names.nwk", "a, b", "Parus_major", "c + d", "e\nf")
        self.assertCountEqual(lines[2:4], ["  Parus major + 'a, b'", "  'c + d' + e\\nf" + 9 * " " + "with ' g', it's"])
        lines = self.why("-", "--", "-", "-x", "a", "b", stdin="(-,-x,(a,b));" * 2)
        self.assertEqual(lines[2:4], ["  - + -x", "  a + b"])

    def test_names_that_are_refused(self) -> None:
        for four, words in ((["Azores", "Bute", "Coll", "Zeist"], "'Zeist' is not a tip of both trees"),
                            (["azores", "Bute", "Coll", "Zeist"], "'azores', 'Zeist' are not tips of both trees"),
                            (["Azores", "Bute", "Coll", "Bute"], "'Bute' stands more than once; four different names are needed"),
                            (["Azores", "Bute", "Coll", ""], "'' is not a tip of both trees"),
                            (["Azores", "Bute", "Coll", "a\nb"], "'a\\nb' is not a tip of both trees")):
            for options in ([], ["--format", "json"]):
                self.assert_message(self.here("why", "feathers.nwk", "wings.nwk", *four, *options), 1, words)
        self.file("pair.bin", packed(P, Q))
        for four, words in (("0 1 2 5", "refused 10: pair.bin: there is no label 5: the labels are 0 to 4"),
                            ("0 9 9 65536", "refused 10: pair.bin: there is no label 9, 65536: the labels are 0 to 4"),
                            ("0 1 2 2", "refused 11: pair.bin: label 2 stands more than once; four different ones are needed"),
                            ("0 1 2 x", "pair.bin: 'x' is no label: a comparison file has no names, and its labels are numbers"),
                            ("0 1 2 123456", "pair.bin: '123456' is no label"), ("0 1 2 \u0663", "pair.bin: '\u0663' is no label")):
            self.assert_message(self.here("why", "pair.bin", *four.split()), 1, words)

    def test_trees_that_are_refused(self) -> None:
        """As compare refuses them, before labels are looked at."""
        for content, number in ((packed(P), 101), (packed(P, THREE), 8), (packed(P, Q) + b"\0", 15),
                                (packed(P[:16] + [5] + P[17:], Q), 6)):
            done, compared = (self.here(*words, "--tables", stdin=content)
                              for words in (["why", "-", "9", "9", "9", "9"], ["compare", "-"]))
            self.assertEqual((done.returncode, done.stdout, done.stderr), (1, b"", compared.stderr))
            self.assertTrue(done.stderr.decode().startswith(f"leskwyn: refused {number}: standard input: "))
        self.assert_message(self.here("why", "-", *self.FOUR, stdin=FEATHERS), 1, "one tree in the file; two trees are needed")
        done = self.here("why", "feathers.nwk", "-", *self.FOUR, stdin=packed(P, Q))
        self.assert_message(done, 1, "is a comparison file", "alone")
        self.assert_message(self.here("why", "-", *self.FOUR, stdin="(A,B,A);" * 2), 1, "first tree: repeated tip names: 'A'")

    def test_wrong_usage(self) -> None:
        for arguments, words in (([], "0 words; one or two files and four names are needed"), (["both.nwk"], "1 word; "),
                                 (self.FOUR, "4 words; "), (["feathers.nwk", "wings.nwk", *self.FOUR, "Foula"], "7 words; "),
                                 (["feathers.nwk", "wings.nwk", *self.FOUR, "--tables"], "2 files; one comparison file is needed"),
                                 (["-", "-", *self.FOUR], "standard input can be read only once"),
                                 (["", "wings.nwk", *self.FOUR], "an empty file name"),
                                 (["both.nwk", *self.FOUR, "--format", "tsv"], "invalid choice: 'tsv'"),
                                 (["both.nwk", *self.FOUR, "--weight", "1/2"], "unrecognized arguments: --weight"),
                                 (["feathers.nwk", "wings.nwk", *self.FOUR[:3]],
                                  "'wings.nwk' is a file, and after it stand three names; four are needed")):
            self.assert_message(self.here("why", *arguments), 2, words, "leskwyn why --help tells the usage")
        for option, words in (["--common"], "--common goes by names"), (["--outgroup", "0"], "its outgroup is label 0"):
            done = self.here("why", "-", "0", "1", "2", "3", *option, stdin=packed(P, Q))
            self.assert_message(done, 2, words, "leskwyn why --help tells the usage")


def squeezed(text: str) -> list[str]:
    """The lines, with one blank between two words."""
    return [" ".join(line.split()) for line in text.split("\n")]


class Influence(TreesTest):
    """The sets of four that hold each population, by a look at all of them."""

    # README.md, 'Five minutes': what feathers and wings keep together.
    SIDES = [[frozenset(pair.split()) for pair in pairs] for pairs in (["Bute Coll", "Lundy Texel"], ["Coll Foula", "Lundy Texel"])]
    PLACES = {"first": "feathers.nwk", "second": "wings.nwk"}
    COUNTED = ["sets_of_four", *CASES, "distance", "normalised_distance"]
    HOLDING, DROPPED = ["name", *COUNTED], ["name", "kept", *COUNTED]
    # Struck names, and how many are dropped.
    ASKED = [(None, None), (None, 1), (None, 2), ([], None), (["Foula"], 1), (["Coll"], 3), (["Texel", "Azores"], 256),
             (["Azores", "Bute", "Coll"], 1), (NAMES, None), (NAMES, 1)]

    def options(self, struck: list[str] | None, drop: int | None) -> list[str]:
        name = self.file("struck.txt", "".join(f"'{one}'\n" for one in (struck or [])[1:]))
        return ([*(f"--strike={one}" for one in (struck or [])[:1]), *([] if struck is None else ["--strike-file", name]),
                 *([] if drop is None else ["--drop", str(drop)])])

    def told(self, *arguments: str, stdin: bytes | str = b"") -> dict[str, object]:
        done = self.here("influence", *arguments, "--format", "json", stdin=stdin)
        self.assertEqual((done.returncode, done.stdout.count(b"\n")), (0, 1), done)
        return json.loads(done.stdout)

    def words(self, told: dict[str, object]) -> list[str]:
        """The text of all that is told, squeezed."""
        def cells(row: dict[str, object]) -> list[str]:
            return [str(row[key]) for key in row if key != "normalised_distance"] + [f"{row['normalised_distance']:.4f}"]
        whole, names = told["sets_of_four"], ["parted alike by both trees", "parted differently", "parted by the first tree only",
                                              "parted by the second tree only", "left open by both trees"]
        counts = [told[key] for key in CASES]
        lines = [f"first tree: {told['first']}", f"second tree: {told['second']}"]
        lines += [f"struck: {', '.join(told['struck'])}"] if told.get("struck") else []
        lines += ["", f"populations {told['tips']}"]
        lines += [f"kept {told['kept']} of {told['tips']}; sets of four count these alone"] if "kept" in told else []
        lines += [f"sets of four {whole}"]
        lines += [f"{letter} {name} {count} " + (f"{100 * count / whole:.1f} %" if whole else "none")
                  for letter, name, count in zip("ABCDE", names, counts)]
        lines += [f"distance {told['distance']} B + C + D", f"normalised distance {told['normalised_distance']:.4f} "
                  + ("distance / sets of four" if whole else "there are no sets of four")]
        if told["populations"]:
            lines += ["", "population sets that hold it A B C D E distance normalised"]
            lines += [" ".join(cells(row)) for row in told["populations"]]
        if told.get("dropped"):
            lines += ["", "dropped kept sets of four A B C D E distance normalised"]
            lines += [" ".join(cells(row)) for row in told["dropped"]]
        return [*lines, *(["", self.end(told)] if self.end(told) else []), ""]

    def end(self, told: dict[str, object]) -> str:
        """What is said if none is left to drop."""
        dropped = told.get("dropped")
        if dropped is None or (dropped or [told])[-1]["distance"]:
            return ""
        return ("no more populations are" if dropped else "no population is") + " dropped: the distance is 0"

    def test_text(self) -> None:
        for struck, drop in self.ASKED:
            done = self.here("influence", "feathers.nwk", "wings.nwk", *self.options(struck, drop))
            self.assertEqual((done.returncode, done.stderr), (0, b""))
            expected = self.words(self.PLACES | influence(*self.SIDES, NAMES, struck, drop))
            self.assertEqual(squeezed(done.stdout.decode()), expected, (struck, drop))

    def test_columns(self) -> None:
        """Names start in one column, and figures end in theirs, whatever the widths."""
        names = ["a", "a_longer_name_than_all_others", *(f"t{i}" for i in range(16))]
        self.file("long.nwk", "".join(f"({name}," for name in names[:-1]) + names[-1] + ")" * 17 + ";" + star_text(names))
        text = self.here("influence", "long.nwk", "--drop", "3").stdout.decode()
        for table, rows in zip(text.split("\n\n")[2:], (19, 4), strict=True):
            ends = [[cell.end() for cell in re.finditer(r"\S+(?: \S+)*", line)][1:] for line in table.splitlines()]
            self.assertEqual(ends, [ends[0]] * rows)
            self.assertIn("\na longer name than all others   ", table)

    def test_for_programs(self) -> None:
        """One object with everything; rows of populations, or of those that are dropped. Standard error has the rest."""
        for struck, drop in self.ASKED:
            expected = self.PLACES | influence(*self.SIDES, NAMES, struck, drop)
            options = self.options(struck, drop)
            end = f"leskwyn: note: {self.end(expected)}\n" if self.end(expected) else ""
            done = self.here("influence", "feathers.nwk", "wings.nwk", *options, "--format", "json")
            told = json.loads(done.stdout)
            self.assertEqual((told, list(told), done.stderr.decode()), (expected, list(expected), end))
            done = self.here("influence", "feathers.nwk", "wings.nwk", *options, "--format", "tsv")
            columns, rows = (self.HOLDING, told["populations"]) if drop is None else (self.DROPPED, told["dropped"])
            self.assertEqual([line.split("\t") for line in done.stdout.decode().removesuffix("\n").split("\n")],
                             [columns, *([str(row[column]) for column in columns] for row in rows)])
            names = f"; struck: {', '.join(expected['struck'])}" if struck else ""
            kept = "" if struck is None else f"leskwyn: kept {expected['kept']} of 6 populations{names}\n"
            self.assertEqual((done.returncode, done.stderr.decode()), (0, kept + end))

    def test_random_trees(self) -> None:
        """Of any names, with nodes of many branches and with pass-through nodes, some names struck or none."""
        rng, shares = random.Random(57), set()
        for case in range(60):
            names = sorted(random_names(rng, 4 + case % 7))
            plain = [random_tree(rng, names, rng.choice([0, 0.3, 0.8])) for _ in range(2)]
            trees = [with_pass_through(rng, tree, rng.randint(1, 9)) if case % 2 else tree for tree in plain]
            for name, tree in zip(("first", "second"), trees):
                self.file(name, written_tree(rng, tree))
            struck, drop = rng.sample(names, case % 4) if case % 4 else None, rng.choice([None, 1, 2, 9])
            options = [*(f"--strike={name}" for name in struck or ()), *([] if drop is None else [f"--drop={drop}"])]
            expected = influence(*map(sides_of, plain), names, struck, drop)
            with self.subTest(case=case, options=options, names=names):
                told = self.told("first", "second", *options)
                self.assertEqual(told, {"first": "first", "second": "second", **expected})
                tsv = self.here("influence", "first", "second", *options, "--format", "tsv").stdout.decode()
                rows = expected["populations"] if drop is None else expected["dropped"]
                self.assertEqual([line.split("\t") for line in tsv.removesuffix("\n").split("\n")[1:]],
                                 [[str(value).replace("\t", "\\t") for value in row.values()] for row in rows])
            shares |= {row["normalised_distance"] for row in told["populations"]}
        self.assertGreater(len(shares), 30)

    def test_dropped_as_compared_anew(self) -> None:
        """After each strike the figures of compare with all of these struck."""
        rng, steps = random.Random(58), 0
        names = sorted(f"t{i}" for i in range(14))
        for case in range(8):
            for name in ("first", "second"):
                self.file(name, written_tree(rng, random_tree(rng, names, 0.2)))
            gone = names[:case % 3]
            options = [f"--strike={name}" for name in gone]
            told = self.told("first", "second", *options, "--drop", "4")
            for row in told["dropped"]:
                options.append(f"--strike={row['name']}")
                fresh = self.figures("first", "second", *options)
                self.assertEqual(row, {"name": row["name"], **{key: fresh[key] for key in self.DROPPED[1:]}})
                steps += 1
        self.assertEqual(steps, 32)

    def test_every_way_of_giving_two_trees(self) -> None:
        expected = influence(*self.SIDES, NAMES, None, 2)
        for trees, stdin, first, second in (
                (["feathers.nwk", "wings.nwk"], "", "feathers.nwk", "wings.nwk"),
                (["both.nwk"], "", "both.nwk, first tree", "both.nwk, second tree"),
                (["-"], FEATHERS + WINGS, "standard input, first tree", "standard input, second tree"),
                (["-", "wings.nwk"], FEATHERS, "standard input", "wings.nwk"),
                (["--", "feathers.nwk", "wings.nwk"], "", "feathers.nwk", "wings.nwk"),
                (["feathers.nwk", "--common", "wings.nwk"], "", "feathers.nwk", "wings.nwk")):
            done = self.here("influence", "--drop", "2", "--format", "json", *trees, stdin=stdin)
            self.assertEqual(json.loads(done.stdout), {"first": first, "second": second, **expected})

    def test_comparison_files(self) -> None:
        """With labels for names: Azores has 0, Coll 2 and Foula 3."""
        self.assertEqual(self.here("table", "both.nwk", "-o", "pair.bin", "--quiet").returncode, 0)
        label = {name: str(at) for at, name in enumerate(NAMES)}
        sides = [[frozenset(map(label.get, side)) for side in one] for one in self.SIDES]
        for options, struck in (([], None), (["--tables"], None), (["--strike", "3"], ["3"]),
                                (["--strike=2", "--strike=0"], ["0", "2"])):
            told = self.told("pair.bin", *options, "--drop", "1")
            self.assertEqual(told, {"first": "pair.bin, first tree", "second": "pair.bin, second tree",
                                    **influence(*sides, list(label.values()), struck, 1)})
        for option, words in (("6", "refused 32: pair.bin: there is no label 6 to strike: the labels are 0 to 5"),
                              ("Foula", "pair.bin: 'Foula' is no label: a comparison file has no names")):
            self.assert_message(self.here("influence", "pair.bin", "--strike", option), 1, words)

    def test_trees_that_are_refused(self) -> None:
        """As compare refuses them."""
        self.assert_refused_as_compared("influence", 1)
        self.assert_message(self.here("influence", "feathers.nwk", "-", stdin=packed(P, Q)), 1, "is a comparison file", "alone")

    def test_common(self) -> None:
        self.file("more.nwk", "((Azores,Zeist),Bute,(Coll,Foula),(Lundy,Texel));")
        done = self.here("influence", "feathers.nwk", "more.nwk", "--common", "--format", "tsv")
        self.assertEqual((done.returncode, done.stderr), (0, b"leskwyn: left out of more.nwk: 'Zeist'\n"))
        self.assertEqual(done.stdout, self.here("influence", "feathers.nwk", "wings.nwk", "--format", "tsv").stdout)
        self.assert_message(self.here("influence", "feathers.nwk", "more.nwk"), 1, "only more.nwk has 'Zeist'", "--common")

    def test_names_as_they_are_written(self) -> None:
        """In the text a name that could be read as several stands in quotes, and no row has a line break of a name."""
        self.file("names.nwk", "(('a, b',Parus_major),('c + d','e\nf'));(('a, b','c + d'),(Parus_major,'e\nf'));")
        parts = self.here("influence", "names.nwk", "--drop", "1").stdout.decode().split("\n\n")
        self.assertEqual([[re.split(" {3,}", line)[0] for line in part.split("\n")[1:]] for part in parts[2:4]],
                         [["Parus major", "'a, b'", "'c + d'", "e\\nf"], ["Parus major"]])
        tsv = self.here("influence", "names.nwk", "--format", "tsv").stdout.decode().splitlines()
        self.assertEqual([row.split("\t")[0] for row in tsv[1:]], ["Parus major", "a, b", "c + d", "e\\nf"])

    def test_wrong_usage(self) -> None:
        for arguments, words in (([], "0 files; one or two are needed"), (["a", "b", "c"], "3 files; one or two are needed"),
                                 (["feathers.nwk", "wings.nwk", "--tables"], "2 files; one comparison file is needed"),
                                 (["--tables"], "0 files; one comparison file is needed"),
                                 (["-", "-"], "standard input can be read only once"), (["", "wings.nwk"], "an empty file name"),
                                 (["both.nwk", "--format", "phylip"], "invalid choice: 'phylip'"),
                                 (["both.nwk", "--drop"], "--drop: expected one argument"),
                                 *((["both.nwk", f"--drop={k}"], f"--drop: '{k}' is not a number of populations from 1 to 256")
                                   for k in ("0", "257", "-1", "1.0", "x", "", "\u0663")),
                                 (["both.nwk", "--outgroup", "Azores"], "unrecognized arguments: --outgroup"),
                                 (["both.nwk", "--listing"], "unrecognized arguments: --listing")):
            self.assert_message(self.here("influence", *arguments), 2, words, "leskwyn influence --help tells the usage")
        self.assert_message(self.here("influence", "-", "--common", stdin=packed(P, Q)), 2, "--common goes by names")

    def test_the_page(self) -> None:
        """The examples of docs/COMMANDS.md tell what a look at every set of four tells."""
        page = (ROOT / "docs" / "COMMANDS.md").read_text(encoding="utf-8").split("## influence\n")[1].split("\n## ")[0]
        text, tsv = re.findall(r"(?ms)^```\n(.*?)^```$", page)
        places = {key: f"examples/{name}" for key, name in self.PLACES.items()}
        self.assertEqual(squeezed(text), self.words(places | influence(*self.SIDES, NAMES, None, 2)))
        rows = influence(*self.SIDES, NAMES, ["Foula"])["populations"]
        self.assertEqual([line.split("\t") for line in tsv.splitlines()],
                         [self.HOLDING, *([str(value) for value in row.values()] for row in rows)])
        keys = re.findall(r"`(\w+)`", " ".join(re.findall(r"(?m)^\| (`.*?) \|", page)))
        self.assertEqual(keys, list(places | influence(*self.SIDES, NAMES, [], 1)))


class Copy(TreesTest):
    """The canonical copy of one tree, by nested sets of names and by hand."""

    def line(self, *arguments: str, stdin: bytes | str = b"", said: str = "") -> str:
        done = self.here("copy", *arguments, stdin=stdin)
        self.assertEqual((done.returncode, done.stderr.decode(), done.stdout[-1:]), (0, said, b"\n"), done)
        return done.stdout.decode().removesuffix("\n")

    def test_by_hand(self) -> None:
        """Whatever the order in which the names stand, where the tree has its root, and what else is written."""
        self.file("again.nwk", "[&R] ((Texel:1,Lundy)0.9:2,(Foula,Azores,((Coll,Bute)x)));")
        for name in ("feathers.nwk", "again.nwk"):
            for struck, line in (([], FEATHERS), (["Azores"], "(Bute,Coll,(Foula,(Lundy,Texel)));"),
                                 (["Foula"], "(Azores,(Bute,Coll),(Lundy,Texel));"),
                                 (["Coll", "Texel"], "(Azores,Bute,Foula,Lundy);"),
                                 (["Azores", "Coll", "Foula"], "(Bute,Lundy,Texel);"),
                                 (["Azores", "Bute", "Coll", "Foula"], "(Lundy,Texel);")):
                said = f"leskwyn: kept {6 - len(struck)} of 6 populations; struck: {', '.join(struck)}\n" if struck else ""
                told = self.line(name, *(f"--strike={one}" for one in struck), said=said)
                self.assertEqual(told, line.rstrip(), (name, struck))
        for text, line in (("(b,a);", "(a,b);"), ("((b),((a)));", "(a,b);"), ("(c,(b,a));", "(a,b,c);"), ("(b,c,a);", "(a,b,c);"),
                           ("((d,a),(b,c));", "(a,(b,c),d);"), ("((((d,(e)),c),b),a);", "(a,b,(c,(d,e)));")):
            self.assertEqual((self.line("-", stdin=text), self.line("-", stdin=line)), (line, line))

    def test_random_trees(self) -> None:
        """Of any names, with nodes of many branches and with pass-through nodes, some names struck or none; a copy's copy is
        itself, and every file with the tree gives the same bytes."""
        rng, seen = random.Random(66), set()
        for case in range(60):
            names = sorted(random_names(rng, 2 + case % 9))
            plain = random_tree(rng, names, rng.choice([0, 0.3, 0.8]))
            struck = rng.sample(names, rng.randint(0, len(names) - 2)) if case % 3 else []
            kept, sides = [name for name in names if name not in struck], sides_of(plain)
            options, expected = [f"--strike={name}" for name in struck], copy_text(sides, kept) + "\n"
            for tree in (plain, with_pass_through(rng, plain, rng.randint(1, 12))):
                text = written_tree(rng, tree)
                with self.subTest(case=case, text=text, options=options):
                    self.assertEqual(self.here("copy", "-", *options, stdin=text).stdout.decode(), expected)
                    self.assertEqual(self.here("copy", "-", stdin=expected).stdout.decode(), expected)
                    words = self.here("copy", "-", "--table", *options, stdin=text).stdout.decode()
                    self.assertEqual(words, " ".join(map(str, copy_table(sides, kept))) + "\n")
            seen.add(len(kept))
        self.assertEqual(seen, set(range(2, 11)))

    def test_table(self) -> None:
        """By hand; and the words are those that table writes of the copy's text."""
        done = self.here("copy", "wings.nwk", "--strike", "Azores", "--table")
        table = [5, 8, 0, 0, 1, 2, 2, 1, 5, 5, 0, X, X, 1, 2, X, 3, 4]
        self.assertEqual(done.stdout.decode(), " ".join(map(str, table)) + "\n")
        self.file("copies.nwk", 2 * self.line("wings.nwk", "--strike", "Azores", said=done.stderr.decode()))
        self.assertEqual(self.here("table", "copies.nwk", "-o", "pair.bin", "--quiet").returncode, 0)
        self.assertEqual((self.folder / "pair.bin").read_bytes(), packed(table, table))

    def test_names_as_they_are_written(self) -> None:
        """In quotes unless letters, digits, points and hyphens make the name, and in the order of code points."""
        text = "(('b_c',\"it's\"),(Parus_major,'(x)'),'e\nf',7,-.,a-b.c,\u00e4);"
        line = "('(x)',('-.',7,a-b.c,('b_c','it''s'),'e\nf','\u00e4'),'Parus major');"
        self.assertEqual((self.line("-", stdin=text), self.line("-", stdin=line)), (line, line))

    def test_struck_names(self) -> None:
        """By --strike and by --strike-file; a name that stands twice is struck once, and an empty list strikes none."""
        self.file("struck.txt", "# a comment\n\nFoula\nAzores\n")
        said = "leskwyn: kept 4 of 6 populations; struck: Azores, Foula\n"
        for options in (["--strike-file", "struck.txt"], ["--strike=Foula", "--strike=Azores", "--strike", "Foula"],
                        ["--strike", "'Foula'", "--strike-file", "struck.txt"]):
            self.assertEqual(self.line("wings.nwk", *options, said=said), "(Bute,Coll,(Lundy,Texel));")
        said = "leskwyn: kept 6 of 6 populations\n"
        self.assertEqual(self.line("wings.nwk", "--strike-file", self.file("none.txt", ""), said=said), WINGS.rstrip())

    def test_trees_that_are_refused(self) -> None:
        for arguments, stdin, words in (
                (["feathers.nwk", "--strike", "Zeist"], "", "leskwyn: cannot strike 'Zeist': not a tip of the tree\n"),
                (["-", "--strike=b", "--strike=a"], "(a,(c,b));", "refused 35: standard input: 1 tip kept; a tree needs 2 or"),
                (["-", "--strike=b", "--strike=a"], "(a,b);", "refused 35: standard input: 0 tips kept; a tree needs 2 or more\n"),
                (["both.nwk"], "", "both.nwk: 2 trees in the file; one tree is needed here"),
                (["-"], "(a,(b,c);", "standard input, line 1: a ( without its )"), (["-"], "a;", "1 tip; a tree needs 2 to 256"),
                (["-"], "(a,b,a);", "repeated tip names: 'a'"), (["-"], packed(P, Q), "standard input is a comparison file")):
            self.assert_message(self.here("copy", *arguments, stdin=stdin), 1, words)

    def test_wrong_usage(self) -> None:
        for arguments, words in (([], "0 files; one is needed"), (["a", "b"], "2 files; one is needed"),
                                 ([""], "an empty file name"),
                                 (["-", "--strike-file", "-"], "standard input can be read only once"),
                                 (["both.nwk", "--common"], "unrecognized arguments: --common"),
                                 (["both.nwk", "--strike"], "--strike: expected one argument")):
            self.assert_message(self.here("copy", *arguments), 2, words, "leskwyn copy --help tells the usage")
        self.assert_message(self.here("copy", "absent"), 2, "cannot read absent: No such file")


class Same(TreesTest):
    """Whether two trees are the same: the exit status and the sentence, by their splits."""

    SAME, DIFFERENT = "the trees are the same", "the trees differ"

    def told(self, *arguments: str, stdin: bytes | str = b"") -> tuple[int, str]:
        """The status and the sentence; with --quiet there is the status alone."""
        done, quiet = (self.here("same", *arguments, *more, stdin=stdin) for more in ([], ["--quiet"]))
        self.assertEqual((done.stderr, done.stdout[-1:]), (b"", b"\n"), done)
        self.assertEqual((quiet.returncode, quiet.stdout, quiet.stderr), (done.returncode, b"", b""))
        return done.returncode, done.stdout.decode().removesuffix("\n")

    def test_by_hand(self) -> None:
        """Feathers pair Bute with Coll, wings Coll with Foula, and both Lundy with Texel."""
        for options, status, words in (
                ([], 1, self.DIFFERENT), (["--strike=Coll"], 0, self.SAME + " on the 5 kept populations; struck: Coll"),
                (["--strike=Foula"], 1, self.DIFFERENT + " on the 5 kept populations; struck: Foula"),
                (["--strike=Foula", "--strike=Bute"], 0, self.SAME + " on the 4 kept populations; struck: Bute, Foula"),
                (["--strike-file", self.file("none.txt", "#\n")], 1, self.DIFFERENT + " on the 6 kept populations"),
                ([f"--strike={name}" for name in NAMES[2:]], 0,
                 self.SAME + " on the 2 kept populations; struck: Coll, Foula, Lundy, Texel")):
            self.assertEqual(self.told("feathers.nwk", "wings.nwk", *options), (status, words))
        self.assertEqual(self.told("feathers.nwk", "feathers.nwk"), (0, self.SAME))
        for text, status in (("(a,b);(b,a);", 0), ("(a,(b,c));((c,a),b);", 0), ("((a,b),(c,d));(b,a,((d),c));", 0),
                             ("((a,b),(c,d));(a,b,c,d);", 1), ("((a,b),(c,d));((a,c),(b,d));", 1)):
            self.assertEqual(self.told("-", stdin=text), (status, [self.SAME, self.DIFFERENT][status]))

    def test_as_a_process(self) -> None:
        for words, status in ((["feathers.nwk", "wings.nwk"], 1), (["feathers.nwk", "feathers.nwk"], 0),
                              (["feathers.nwk", "absent"], 2), (["feathers.nwk", "wings.nwk", "--strike", "Zeist"], 2)):
            done = run_leskwyn("same", *words, cwd=self.folder)
            self.assertEqual((done.returncode, len(done.stdout) > 0, len(done.stderr) > 0), (status, status < 2, status == 2))

    def test_random_trees(self) -> None:
        """The status is 0 exactly if the splits of the kept names are the same, and the lines of copy are; a struck name may be in
        one tree alone."""
        rng, outcomes = random.Random(67), []
        for case in range(60):
            names, more = sorted(random_names(rng, 4 + case % 4)), ["only here"] * (case % 4 == 0)
            trees = {"first": random_tree(rng, names, 0.6), "second": random_tree(rng, names + more, 0.6)}
            struck = rng.sample(names, rng.randint(0, len(names) - 2)) if case % 3 else []
            for name, tree in trees.items():
                self.file(name, written_tree(rng, with_pass_through(rng, tree, case % 5)))
            kept = set(names) - set(struck)
            one, other = (kept_splits(sides_of(tree), kept) for tree in trees.values())
            options = [f"--strike={name}" for name in struck]
            with self.subTest(case=case, names=names, struck=struck):
                done = self.here("same", "first", "second", "--quiet", *options, *(f"--strike={name}" for name in more))
                self.assertEqual((done.returncode, done.stderr), (int(one != other), b""))
                if not more:
                    lines = [self.here("copy", name, *options).stdout for name in trees]
                    self.assertEqual(int(lines[0] != lines[1]), done.returncode)
            outcomes.append(done.returncode)
        self.assertTrue(15 < sum(outcomes) < 45, sum(outcomes))

    def test_every_way_of_giving_two_trees(self) -> None:
        self.assertEqual(self.here("table", "both.nwk", "-o", "pair.bin", "--quiet").returncode, 0)
        for trees, stdin in ((["feathers.nwk", "wings.nwk"], ""), (["both.nwk"], ""), (["-"], FEATHERS + WINGS),
                             (["-", "wings.nwk"], FEATHERS), (["feathers.nwk", "-"], WINGS), (["--common", "both.nwk"], ""),
                             (["pair.bin"], ""), (["--tables", "pair.bin"], ""), (["-"], (self.folder / "pair.bin").read_bytes())):
            self.assertEqual(self.told(*trees, stdin=stdin), (1, self.DIFFERENT))
        self.assertEqual(self.told("pair.bin", "--strike", "2"), (0, self.SAME + " on the 5 kept populations; struck: 2"))

    def test_different_populations(self) -> None:
        """Refused as by compare, with status 2, unless those that one tree alone has are struck or left out."""
        self.file("more.nwk", "((Azores,Zeist),Bute,(Coll,Foula),(Lundy,Texel));")
        words = "the trees have different tips: only more.nwk has 'Zeist'; --common"
        self.assert_message(self.here("same", "wings.nwk", "more.nwk"), 2, words)
        self.assert_message(self.here("same", "wings.nwk", "more.nwk", "--strike", "Coll"), 2, words)
        for trees, status in ((["wings.nwk", "more.nwk"], 0), (["more.nwk", "wings.nwk"], 0), (["feathers.nwk", "more.nwk"], 1)):
            told = [self.SAME, self.DIFFERENT][status]
            self.assertEqual(self.told(*trees, "--strike", "Zeist"), (status, told + " on the 6 kept populations; struck: Zeist"))
            done = self.here("same", *trees, "--common")
            self.assertEqual((done.returncode, done.stdout.decode(), done.stderr),
                             (status, told + "\n", b"leskwyn: left out of more.nwk: 'Zeist'\n"))

    def test_trees_that_are_refused(self) -> None:
        """With status 2 and the words of compare; two populations or more must be kept."""
        self.assert_refused_as_compared("same", 2)
        for arguments, stdin, words in (
                (["-", "--strike=2", "--strike=6"], packed(P, Q), "refused 32: standard input: there is no label 6 to strike"),
                (["-", *(f"--strike={one}" for one in range(4))], packed(P, Q), "refused 35: standard input: 1 tip kept; a tree"),
                (["both.nwk", *(f"--strike={one}" for one in NAMES)], "", "refused 35: 0 tips kept; a tree needs 2 or more\n"),
                (["both.nwk", "--strike=Zeist"], "", "leskwyn: cannot strike 'Zeist': not a tip of either tree\n"),
                (["-", "--common"], "(A,B);(C,D);", "the trees share 0 names; 2 or more are needed"),
                (["both.nwk", "--strike-file", self.file("latin", b"\xf6\n")], "", "latin: not UTF-8 text")):
            for quiet in ([], ["--quiet"]):
                self.assert_message(self.here("same", *arguments, *quiet, stdin=stdin), 2, words)

    def test_wrong_usage(self) -> None:
        for arguments, words in (([], "0 files; one or two are needed"), (["a", "b", "c"], "3 files; one or two are needed"),
                                 (["feathers.nwk", "wings.nwk", "--tables"], "2 files; one comparison file is needed"),
                                 (["-", "-"], "standard input can be read only once"), (["", "wings.nwk"], "an empty file name"),
                                 (["both.nwk", "--outgroup", "Azores"], "unrecognized arguments: --outgroup")):
            self.assert_message(self.here("same", *arguments), 2, words, "leskwyn same --help tells the usage")
        self.assert_message(self.here("same", "-", "--common", stdin=packed(P, Q)), 2, "--common goes by names")
        self.assert_message(self.here("same", "feathers.nwk", "absent"), 2, "cannot read absent: No such file")


class Exchange(TreesTest):
    """How far two exchanged populations move a tree, by a look at every set of four."""

    # README.md, 'Five minutes': what feathers keep together.
    SIDES = [frozenset(["Bute", "Coll"]), frozenset(["Lundy", "Texel"])]
    PAIR = ["name", "other", "distance", "normalised_distance"]
    SHARES = [*(f"{10 * tally} to {10 * tally + 10} %" for tally in range(10)), "100 %"]

    def words(self, told: dict[str, object]) -> list[str]:
        """The text of all that is told, squeezed."""
        def cells(row: dict[str, object]) -> str:
            return f"{row['name']} + {row['other']} {row['distance']} {row['normalised_distance']:.4f}"
        distances = ["-" if one is None else " to ".join(map(str, dict.fromkeys(one))) for one in told["bounds"]]
        lines = [f"tree: {told['tree']}", "", f"populations {told['tips']}", f"sets of four {told['sets_of_four']}",
                 f"exchanges {told['exchanges']} pairs of populations", "", "share of the sets distance exchanges"]
        lines += [" ".join(map(str, row)) for row in zip(self.SHARES, distances, told["tallies"], strict=True)]
        for key in ("most", "least") if "most" in told else ():
            lines += ["", f"moves the tree {key} distance normalised", *map(cells, told[key])]
        return [*lines, ""]

    def rows(self, told: dict[str, object]) -> list[list[str]]:
        """The rows of tsv."""
        if "most" in told:
            return [["moves", *self.PAIR], *([key, *(str(row[column]) for column in self.PAIR)] for key in ("most", "least")
                                             for row in told[key])]
        limits = [["", ""] if one is None else list(map(str, one)) for one in told["bounds"]]
        return [["tally", "lowest", "highest", "exchanges"], *([str(tally), *limits[tally], str(count)]
                                                               for tally, count in enumerate(told["tallies"]))]

    def assert_told(self, path: str, options: list[str], expected: dict[str, object], stdin: str = "") -> None:
        """All three formats; standard error is empty."""
        text, tsv, told = (self.here("exchange", path, *options, *more, stdin=stdin) for more in ([], ["--format", "tsv"],
                                                                                                 ["--format=json"]))
        self.assertEqual([(done.returncode, done.stderr) for done in (text, tsv, told)], [(0, b"")] * 3)
        self.assertEqual(squeezed(text.stdout.decode()), self.words(expected))
        self.assertEqual([line.split("\t") for line in tsv.stdout.decode().removesuffix("\n").split("\n")], self.rows(expected))
        self.assertEqual((told.stdout.count(b"\n"), json.loads(told.stdout), list(json.loads(told.stdout))),
                         (1, expected, list(expected)))

    def test_by_hand(self) -> None:
        """Of feathers 3, 8 and 4 exchanges move 0, 7 and 13 of the 15 sets of four; of a caterpillar of five those of P."""
        moved = self.words({"tree": "feathers.nwk", **exchanges(self.SIDES, NAMES)})
        for line in ("0 to 10 % 0 to 1 3", "40 to 50 % 6 to 7 8", "80 to 90 % 12 to 13 4", "100 % 15 0"):
            self.assertIn(line, moved)
        for pairs in (None, 1, 3, 15, 16, 10**9):
            options = [] if pairs is None else ["--pairs", str(pairs)]
            self.assert_told("feathers.nwk", options, {"tree": "feathers.nwk", **exchanges(self.SIDES, NAMES, pairs)})
        for t, tallies in REFERENCE_TALLIES:
            told = json.loads(self.here("exchange", "-", "--format", "json", stdin=newick_text(t)).stdout)
            self.assertEqual((told["tips"], told["tallies"]), (t[0], tallies))

    def test_few_tips(self) -> None:
        """Nothing moves, and only tally 0 holds a distance; of four tips, tally 0 and the last do."""
        for text, sides, names in (("(b,a);", [], "ab"), ("(a,(c,b));", [], "abc"), ("((a,b),(c,d));", [frozenset("ab")], "abcd"),
                                   ("(a,b,c,d);", [], "abcd")):
            for pairs in (None, 2):
                options = [] if pairs is None else [f"--pairs={pairs}"]
                self.assert_told("-", options, {"tree": "standard input", **exchanges(sides, list(names), pairs)}, stdin=text)
        lines = squeezed(self.here("exchange", "-", stdin="(a,b,c);").stdout.decode())
        self.assertEqual(lines[-12:], ["0 to 10 % 0 3", *(f"{share} - 0" for share in self.SHARES[1:]), ""])

    def test_random_trees(self) -> None:
        """With nodes of many branches and with pass-through nodes."""
        rng, seen = random.Random(73), set()
        for case in range(30):
            names = sorted(f"t{at}" for at in range(4 + case % 6))
            plain = random_tree(rng, names, rng.choice([0, 0.3, 0.8]))
            self.file("tree", written_tree(rng, with_pass_through(rng, plain, rng.randint(1, 9)) if case % 2 else plain))
            pairs = rng.choice([None, 1, 2, 5, 99])
            expected = {"tree": "tree", **exchanges(sides_of(plain), names, pairs)}
            with self.subTest(case=case, pairs=pairs):
                self.assert_told("tree", [] if pairs is None else ["--pairs", str(pairs)], expected)
            seen |= {tally for tally, count in enumerate(expected["tallies"]) if count}
        self.assertGreaterEqual(len(seen), 8)

    def test_columns(self) -> None:
        """What stands first starts in one column, and figures end in theirs, whatever the widths."""
        names = ["a", "a_longer_name_than_all_others", *(f"t{i}" for i in range(16))]
        self.file("long.nwk", "".join(f"({name}," for name in names[:-1]) + names[-1] + ")" * 17 + ";")
        tables = self.here("exchange", "long.nwk", "--pairs", "40").stdout.decode().split("\n\n")[2:]
        for table, rows in zip(tables, (12, 41, 41), strict=True):
            ends = [[cell.end() for cell in re.finditer(r"\S+(?: \S+)*", line)][1:] for line in table.splitlines()]
            self.assertEqual(ends, [ends[0]] * rows)
        self.assertIn("\na + a longer name than all others   ", tables[2])

    def test_names_as_they_are_written(self) -> None:
        """In the text a name that could be read as several stands in quotes, and no row has a line break or a TAB of a name."""
        self.file("names.nwk", "(('a, b',Parus_major),('c + d',('e\nf','g\th')));")
        most = self.here("exchange", "names.nwk", "--pairs", "4").stdout.decode().split("\n\n")[3].splitlines()[1:]
        self.assertEqual([re.split(" {3,}", line)[0] for line in most],
                         ["Parus major + e\\nf", "Parus major + g\\th", "'a, b' + e\\nf", "'a, b' + g\\th"])
        tsv = self.here("exchange", "names.nwk", "--pairs", "4", "--format", "tsv").stdout.decode().splitlines()
        self.assertEqual([row.split("\t")[:3] for row in tsv[1:5]],
                         [["most", x, y] for x in ("Parus major", "a, b") for y in ("e\\nf", "g\\th")])
        self.assertEqual(tsv[5].split("\t")[:3], ["least", "Parus major", "a, b"])

    def test_every_way_of_giving_a_tree(self) -> None:
        expected = exchanges(self.SIDES, NAMES, 2)
        for arguments, stdin, place in ((["feathers.nwk"], "", "feathers.nwk"), (["-"], FEATHERS, "standard input"),
                                        (["--", "feathers.nwk"], "", "feathers.nwk")):
            done = self.here("exchange", "--pairs", "2", "--format", "json", *arguments, stdin=stdin)
            self.assertEqual(json.loads(done.stdout), {"tree": place, **expected})
        copy = self.here("copy", "feathers.nwk", "--strike", "Azores").stdout
        told = json.loads(self.here("exchange", "-", "--format", "json", stdin=copy).stdout)
        self.assertEqual(told, {"tree": "standard input", **exchanges(self.SIDES, NAMES[1:])})

    def test_256_tips(self) -> None:
        """In a caterpillar the ends move most, and all 32640 exchanges stand there if so many are wanted."""
        names = [f"t{i:03}" for i in range(256)]
        self.file("worm.nwk", "".join(f"({name}," for name in names[:-1]) + names[-1] + ")" * 255 + ";")
        rows = self.here("exchange", "worm.nwk", "--pairs", "99999", "--format", "tsv").stdout.decode().splitlines()[1:]
        most, least = rows[:32640], rows[32640:]
        self.assertEqual(sorted(row.split("\t", 1)[1] for row in most), sorted(row.split("\t", 1)[1] for row in least))
        distances = [int(row.split("\t")[3]) for row in most]
        self.assertEqual((distances, distances[:4]), (sorted(distances, reverse=True), [2 * comb(254, 3) + comb(254, 2)] * 4))
        self.assertEqual([int(row.split("\t")[3]) for row in least], distances[::-1])

    def test_trees_that_are_refused(self) -> None:
        for arguments, stdin, words in (
                (["both.nwk"], "", "both.nwk: 2 trees in the file; one tree is needed here"),
                (["-"], "(a,(b,c);", "standard input, line 1: a ( without its )"), (["-"], "a;", "1 tip; a tree needs 2 to 256"),
                (["-"], "(a,b,a);", "repeated tip names: 'a'"), (["-"], packed(P, Q), "standard input is a comparison file")):
            for pairs in ([], ["--pairs", "3"]):
                self.assert_message(self.here("exchange", *arguments, *pairs, stdin=stdin), 1, words)

    def test_wrong_usage(self) -> None:
        for arguments, words in (([], "0 files; one is needed"), (["a", "b"], "2 files; one is needed"),
                                 ([""], "an empty file name"), (["both.nwk", "--pairs"], "--pairs: expected one argument"),
                                 *((["both.nwk", f"--pairs={k}"], f"--pairs: '{k}' is not a number of pairs from 1 on")
                                   for k in ("0", "-1", "1.0", "x", "", "\u0663")),
                                 (["both.nwk", "--format", "phylip"], "invalid choice: 'phylip'"),
                                 (["both.nwk", "--strike", "Azores"], "unrecognized arguments: --strike")):
            self.assert_message(self.here("exchange", *arguments), 2, words, "leskwyn exchange --help tells the usage")
        self.assert_message(self.here("exchange", "absent"), 2, "cannot read absent: No such file")

    def test_the_page(self) -> None:
        """The examples of docs/COMMANDS.md tell what a look at every set of four tells."""
        page = (ROOT / "docs" / "COMMANDS.md").read_text(encoding="utf-8").split("## exchange\n")[1].split("\n## ")[0]
        text, tsv, told = re.findall(r"(?ms)^```\n(.*?)^```$", page)
        place = {"tree": "examples/feathers.nwk"}
        self.assertEqual(squeezed(text), self.words(place | exchanges(self.SIDES, NAMES, 3)))
        self.assertEqual([line.split("\t") for line in tsv.splitlines()], self.rows(exchanges(self.SIDES, NAMES)))
        self.assertEqual(json.loads(told), place | exchanges(self.SIDES, NAMES, 1))
        for column in ["moves", *self.PAIR]:
            self.assertIn(f"`{column}`", page)
        keys = re.findall(r"`(\w+)`", " ".join(re.findall(r"(?m)^\| (`.*?) \|", page)))
        self.assertEqual(keys, list(place | exchanges(self.SIDES, NAMES, 1)))


class View(TreesTest):
    """What a viewer may see, by a look at every set of four visible names; and nothing of what is hidden."""

    FEATHERS = [frozenset(["Bute", "Coll"]), frozenset(["Lundy", "Texel"])]
    WINGS = [frozenset(["Coll", "Foula"]), frozenset(["Lundy", "Texel"])]
    FORMATS = ("text", "tsv", "json")
    NOT_SEEN = b"leskwyn: refused 10: not all of the four names are populations that this viewer sees\n"

    def setUp(self) -> None:
        super().setUp()
        self.levels(dict.fromkeys(NAMES, 0) | {"Foula": 3})

    def levels(self, levels: dict[str, int], name: str = "levels.tsv") -> str:
        lines = [label_list([one]).split("\t", 1)[1].rstrip("\n") + f"\t{level}\n" for one, level in levels.items()]
        return self.file(name, "".join(lines))

    def view(self, *arguments: str, levels: str = "levels.tsv", viewer: int = 0, stdin: bytes | str = b"") -> Done:
        return self.here("view", *arguments, "--levels", levels, "--viewer", str(viewer), stdin=stdin)

    def topology(self, *arguments: str, levels: str = "levels.tsv", viewer: int = 0, stdin: bytes | str = b"") -> Done:
        return self.here("view-topology", "--levels", levels, "--viewer", str(viewer), *arguments, stdin=stdin)

    def told(self, done: Done) -> object:
        self.assertEqual((done.returncode, done.stderr, done.stdout.count(b"\n")), (0, b"", 1), done)
        return json.loads(done.stdout)

    def words(self, told: dict[str, object]) -> list[str]:
        """The text of all that is told of two trees, squeezed."""
        cases = [told[key] for key in CASES]
        shares = [f"{100 * count / sum(cases):.1f} %" if sum(cases) else "none" for count in cases]
        names = ["parted alike by both trees", "parted differently", "parted by the first tree only",
                 "parted by the second tree only", "left open by both trees"]
        splits = told["first_splits"] + told["second_splits"]
        return [f"visible populations {told['visible']}", f"sets of four {told['sets_of_four']}",
                *(" ".join(map(str, row)) for row in zip("ABCDE", names, cases, shares, strict=True)),
                f"distance {told['distance']} B + C + D", f"normalised distance {told['normalised_distance']:.4f} "
                + ("distance / sets of four" if sum(cases) else "there are no sets of four"), "",
                f"splits of the first tree {told['first_splits']}", f"splits of the second tree {told['second_splits']}",
                f"splits of both {told['common_splits']}",
                f"Robinson-Foulds distance {told['robinson_foulds']} splits of one tree only",
                f"normalised Robinson-Foulds {told['normalised_robinson_foulds']:.4f} "
                + ("distance / splits of the first and the second" if splits else "neither tree has a split"), ""]

    def assert_view(self, expected: dict[str, object], *arguments: str, viewer: int = 0) -> None:
        """All three formats; standard error is empty."""
        text, tsv, told = (self.view(*arguments, "--format", one, viewer=viewer) for one in self.FORMATS)
        self.assertEqual([(done.returncode, done.stderr) for done in (text, tsv)], [(0, b"")] * 2)
        self.assertEqual(squeezed(text.stdout.decode()), self.words(expected))
        columns = [key for key in expected if key != "names"]
        self.assertEqual([line.split("\t") for line in tsv.stdout.decode().splitlines()],
                         [columns, [str(expected[key]) for key in columns]])
        self.assertEqual((self.told(told), list(json.loads(told.stdout))), (expected, list(expected)))

    def test_by_hand(self) -> None:
        """Feathers and wings without the names that are hidden, as KEPT has them."""
        for hidden, (cases, splits) in KEPT.items():
            names = [name for name in NAMES if name not in hidden.split()]
            apart = splits[0] + splits[1] - 2 * splits[2]
            expected = {"visible": len(names), "sets_of_four": sum(cases), **dict(zip(CASES, cases)), "distance": sum(cases[1:4]),
                        "normalised_distance": sum(cases[1:4]) / (sum(cases) or 1), "first_splits": splits[0],
                        "second_splits": splits[1], "common_splits": splits[2], "robinson_foulds": apart,
                        "normalised_robinson_foulds": apart / (splits[0] + splits[1] or 1), "names": names}
            for viewer in range(3):
                self.levels({name: viewer if name in names else viewer + 1 for name in NAMES})
                for files in (["feathers.nwk", "wings.nwk"], ["both.nwk"]):
                    self.assert_view(expected, *files, viewer=viewer)

    def test_random_trees(self) -> None:
        """With nodes of many branches and pass-through nodes; all levels and viewers are met."""
        rng, seen = random.Random(81), set()
        for case in range(40):
            names = sorted(f"t{at}" for at in range(3 + case % 6))
            trees = [random_tree(rng, names, rng.choice([0, 0.3, 0.8])) for _ in range(2)]
            for name, tree in zip(("a.nwk", "b.nwk"), trees):
                self.file(name, written_tree(rng, with_pass_through(rng, tree, rng.randint(1, 9)) if case % 2 else tree))
            levels, viewer = {name: rng.choice([0, 0, 1, 2, 3]) for name in names}, rng.randrange(4)
            self.levels(levels)
            expected = view(*map(sides_of, trees), levels, viewer)
            with self.subTest(case=case):
                self.assert_view(expected, "a.nwk", "b.nwk", viewer=viewer)
                for four in itertools.combinations(visible(levels, viewer), 4):
                    told = self.topology("a.nwk", *rng.sample(four, 4), "--format=json", viewer=viewer)
                    self.assertEqual(self.told(told), topology(sides_of(trees[0]), four))
            seen |= {(viewer, min(expected["visible"], 4))}
        self.assertGreaterEqual(seen, {(viewer, 4) for viewer in range(4)})

    def desk(self, rng: random.Random, name: str, trees: list[Tree], shown: list[str]) -> tuple[list[str], dict[str, object]]:
        """The files of a desk whose visible names are these: hidden tips, levels and the viewer's level are its own."""
        hidden = [f"hush{at}{name}" for at in rng.sample(range(100), rng.randint(0, 6))]
        viewer = rng.randrange(3) if hidden else rng.randrange(4)
        levels = {one: rng.randint(0, viewer) for one in shown} | {one: rng.randint(viewer + 1, 3) for one in hidden}
        order = rng.sample(sorted(levels), len(levels))
        paths = [self.file(f"{name}{at}-hush.nwk", written_tree(rng, with_tips(rng, tree, hidden)))
                 for at, tree in enumerate(trees)]
        return paths, {"levels": self.levels({one: levels[one] for one in order}, f"{name}-hush.tsv"), "viewer": viewer}

    def test_what_is_hidden_changes_nothing(self) -> None:
        """Two desks that agree on the visible names and their topologies: hidden tips, their number, names and places, levels, the
        viewer's level and the files' names differ. Every byte on both streams is the same, and none is of a hidden name."""
        rng = random.Random(82)
        for case in range(30):
            shown = sorted(f"t{at}" for at in range(4 + case % 4))
            trees = [random_tree(rng, shown, rng.choice([0, 0.3, 0.8])) for _ in range(2)]
            (paths, one), (others, other) = (self.desk(rng, name, trees, shown) for name in ("x", "y"))
            runs = [(self.view(*paths, "--format", form, **one), self.view(*others, "--format", form, **other))
                    for form in self.FORMATS]
            asked = [*itertools.combinations(shown, 4), ["t0", "t1", "t2", "hush1x"], ["hush2x"] * 4, ["t0", "t0", "t1", "t2"],
                     ["hush3y", "t0", "t0", "t1"], ["t0", "t1", "t2", "0"]]
            runs += [(self.topology(paths[0], *four, "--format", form, **one),
                      self.topology(others[0], *four, "--format", form, **other)) for four in asked for form in self.FORMATS]
            with self.subTest(case=case):
                for done, again in runs:
                    self.assertEqual((done.returncode, done.stdout, done.stderr), (again.returncode, again.stdout, again.stderr))
                    self.assertNotIn(b"hush", done.stdout + done.stderr)
                self.assertEqual({done.returncode for done, _ in runs}, {0, 1})

    def test_every_hidden_name_is_asked_about(self) -> None:
        """Each of a desk's own hidden names, where it stands and how often."""
        rng, shown = random.Random(83), [f"t{at}" for at in range(5)]
        for name in "xyz":
            paths, options = self.desk(rng, name, [random_tree(rng, shown, 0.3)], shown)
            tips = re.findall(rf"hush\d+{name}", (self.folder / options["levels"]).read_text())
            for hidden, at in itertools.product([*tips, "Zeist", "", "65535"], range(4)):
                for four in (["t0", "t1", "t2"], ["t0", "t0", "t1"], [hidden] * 3):
                    done = self.topology(paths[0], *four[:at], hidden, *four[at:], **options)
                    self.assertEqual((done.returncode, done.stdout, done.stderr), (1, b"", self.NOT_SEEN), (hidden, four))

    def test_what_is_visible_counts(self) -> None:
        """One visible topology changed, and the answer is another."""
        self.file("other.nwk", FEATHERS.replace("(Bute,Coll)", "Coll").replace("(Lundy", "((Bute,Lundy)"))
        told = [[self.view(one, "wings.nwk").stdout, self.topology(one, *NAMES[:3], "Lundy").stdout]
                for one in ("feathers.nwk", "other.nwk")]
        self.assertNotEqual(told[0][0], told[1][0])
        self.assertNotEqual(told[0][1], told[1][1])
        self.assertNotEqual(self.view("both.nwk").stdout, self.view("both.nwk", viewer=3).stdout)

    def test_topology(self) -> None:
        """Feathers pair Bute with Coll and Lundy with Texel; Azores and Foula stand alone. The order of the names plays no part."""
        for four, pairs in ((["Azores", "Bute", "Coll", "Lundy"], [["Azores", "Lundy"], ["Bute", "Coll"]]),
                            (["Bute", "Coll", "Lundy", "Texel"], [["Bute", "Coll"], ["Lundy", "Texel"]]),
                            (["Azores", "Bute", "Foula", "Lundy"], None)):
            lines = [f"  {' + '.join(pair)}" for pair in pairs] if pairs else [f"  {name}" for name in four]
            text = "\n".join(["parts them two and two:" if pairs else "leaves them open:", *lines, ""])
            told = {"names": four, "topology": "butterfly" if pairs else "star", "pairs": pairs}
            row = [",".join(four), told["topology"], *(",".join(pair) for pair in pairs or [[], []])]
            tsv = f"names\ttopology\tfirst_pair\tsecond_pair\n{chr(9).join(row)}\n"
            for order in itertools.permutations(four):
                runs = [self.topology("feathers.nwk", *order, "--format", form, viewer=3) for form in self.FORMATS]
                self.assertEqual([(done.returncode, done.stderr) for done in runs], [(0, b"")] * 3)
                self.assertEqual([done.stdout.decode() for done in runs[:2]], [text, tsv])
                self.assertEqual((json.loads(runs[2].stdout), list(json.loads(runs[2].stdout))), (told, list(told)))

    def test_asked_names(self) -> None:
        """A visible name that stands twice is told, in whatever words; with a hidden one, or two, 10 comes first."""
        done = self.topology("wings.nwk", "Coll", "Bute", "'Coll'", "Azores")
        self.assert_message(done, 1, "refused 11: 'Coll' stands more than once; four different names are needed")
        done = self.topology("wings.nwk", "Coll", "Bute", "Bute", "Coll")
        self.assert_message(done, 1, "refused 11: 'Coll', 'Bute' stand more than once; four different names are needed")
        for four in ("Foula Foula Bute Coll", "Foula Bute Bute Coll", "Zeist Bute Bute Coll", "Foula Zeist Azores Bute"):
            done = self.topology("wings.nwk", *four.split())
            self.assertEqual((done.returncode, done.stdout, done.stderr), (1, b"", self.NOT_SEEN))

    def test_a_hidden_name_takes_no_word(self) -> None:
        """A word stands for a visible name as if the hidden ones were not there."""
        for hidden in ("'a_b'", "x"):
            self.file("tree.nwk", f"(('a b',c),({hidden},d),e);")
            self.file("words.tsv", f"'a b'\t0\nc\t0\nd\t1\ne\t1\n{hidden}\t2\n")
            told = self.told(self.topology("tree.nwk", "a_b", "c", "d", "e", "--format=json", levels="words.tsv", viewer=1))
            self.assertEqual(told, {"names": ["a b", "c", "d", "e"], "topology": "butterfly", "pairs": [["a b", "c"], ["d", "e"]]})

    def test_a_hidden_name_in_another_unicode_form(self) -> None:
        self.file("tree.nwk", "((M\u00f6we,b),(c,(d,e)));")
        self.levels({"M\u00f6we": 3, "b": 0, "c": 0, "d": 0, "e": 0})
        done = self.topology("tree.nwk", "Mo\u0308we", "b", "c", "d")
        self.assertEqual((done.returncode, done.stdout, done.stderr), (1, b"", self.NOT_SEEN))

    def test_forms_of_the_levels(self) -> None:
        """Line ends, byte order marks, blanks around a level, lines that are passed over, names in quotes or with _, escapes."""
        expected = self.view("both.nwk").stdout
        plain = (self.folder / "levels.tsv").read_text()
        for content in (plain.replace("\n", "\r\n"), plain.encode("utf-16"), "# a note\n\n" + plain, plain.removesuffix("\n"),
                        "".join(reversed(plain.splitlines(True))), plain.replace("Bute", "'Bute'"), plain.replace("\t", "\t ")):
            self.file("other.tsv", content)
            done = self.view("both.nwk", levels="other.tsv")
            self.assertEqual((done.returncode, done.stdout, done.stderr), (0, expected, b""), content)
        self.assertEqual(self.view("both.nwk", levels="-", stdin=plain).stdout, expected)
        self.file("names.nwk", "((Parus_major,'#1'),('e\nf',('g\th','i\\n')));")
        self.file("names.tsv", "Parus_major\t0\n'#1'\t0\ne\\nf\t0\ng\th\t0\ni\\\\n\t1\n")
        told = self.told(self.view("-", "--format=json", levels="names.tsv", stdin=(self.folder / "names.nwk").read_bytes() * 2))
        self.assertEqual((told["visible"], told["names"]), (4, ["#1", "Parus major", "e\nf", "g\th"]))

    def test_wrong_levels(self) -> None:
        """They are the desk's: status 2, a line that names the name, and nothing on standard output."""
        plain = (self.folder / "levels.tsv").read_text()
        for content, words in (
                (plain + "Zeist\t0\n", "wrong.tsv: the list has 'Zeist', not a tip of the trees"),
                (plain.replace("Foula\t3\n", ""), "wrong.tsv: the list lacks 'Foula'"),
                (plain.replace("Foula", "Zeist"), "wrong.tsv: the list lacks 'Foula' and has 'Zeist', not a tip of the trees"),
                (plain + "Foula\t3\n", "wrong.tsv: the list repeats 'Foula'"),
                (plain + "'Foula'\t0\n", "wrong.tsv: the list repeats 'Foula'"),
                (plain.replace("Foula\t3", "#Foula\t3"), "wrong.tsv: the list lacks 'Foula'"),
                (plain.replace("Foula\t3", "Foula\t4"), "refused 37: the level of 'Foula' is 4, not 0 to 3"),
                (plain.replace("Foula\t3", "Foula\t256"), "refused 37: the level of 'Foula' is 256, not 0 to 3"),
                (plain.replace("Foula\t3", "Foula\t-256"), "wrong.tsv: 'Foula\\t-256' is not a name, a TAB and a level"),
                (plain.replace("Foula\t3", "Foula\t"), "wrong.tsv: 'Foula\\t' is not a name, a TAB and a level"),
                (plain.replace("Foula\t3", "Foula 3"), "wrong.tsv: 'Foula 3' is not a name, a TAB and a level"),
                (plain.replace("Foula\t3", "Foula\t1.0"), "wrong.tsv: 'Foula\\t1.0' is not a name, a TAB and a level"),
                (plain.replace("Foula\t3", "Foula\t\u0663"), "wrong.tsv: 'Foula\\t\u0663' is not a name, a TAB and a level"),
                ("", "wrong.tsv: the list lacks 'Azores', 'Bute', 'Coll', 'Foula', 'Lundy', 'Texel'"),
                (b"F\xf6ula\t3\n", "wrong.tsv: not UTF-8 text")):
            self.file("wrong.tsv", content)
            for done in (self.view("both.nwk", levels="wrong.tsv"), self.topology("wings.nwk", *NAMES[:4], levels="wrong.tsv"),
                         self.topology("wings.nwk", "Zeist", *NAMES[:3], levels="wrong.tsv", viewer=3)):
                self.assert_message(done, 2, words)

    def test_trees_that_are_refused(self) -> None:
        """They are the desk's, too; of two trees with different names no --common is spoken of, since there is none."""
        for command, arguments, stdin, words in (
                (self.view, ["-"], FEATHERS, "one tree in the file; two trees are needed"),
                (self.view, ["feathers.nwk", "both.nwk"], "", "both.nwk: 2 trees in the file"),
                (self.view, ["-"], "(a,b);(a,(b);", "standard input, line 1: "),
                (self.view, ["-"], packed(P, Q), "standard input is a comparison file"),
                (self.view, ["feathers.nwk", "-"], "(Azores,Bute,Zeist);", "different tips: only feathers.nwk has 'Coll', "),
                (self.topology, ["both.nwk", *NAMES[:4]], "", "both.nwk: 2 trees in the file"),
                (self.topology, ["-", *NAMES[:4]], "(a,b,a);", "repeated tip names: 'a'"),
                (self.topology, ["-", *NAMES[:4]], "a;", "1 tip; a tree needs 2 to 256")):
            done = command(*arguments, stdin=stdin)
            self.assert_message(done, 2, words)
            self.assertNotIn(b"--common", done.stderr)

    def test_wrong_usage(self) -> None:
        options = ["--levels", "levels.tsv", "--viewer", "1"]
        for command, arguments, words in (
                ("view", [*options], "0 files; one or two are needed"),
                ("view", ["a", "b", "c", *options], "3 files; one or two are needed"),
                ("view", ["both.nwk", "--viewer", "1"], "required: --levels"),
                ("view", ["both.nwk", "--levels", "a"], "required: --viewer"),
                ("view", ["both.nwk", "--levels=a", *options], "2 files of levels; one is needed"),
                *(("view", ["both.nwk", "--levels=a", f"--viewer={k}"], f"--viewer: '{k}' is not a level from 0 to 3")
                  for k in ("4", "-1", "256", "65536", "1.0", "x", "", "01", "\u0663")),
                ("view", ["-", "--levels", "-", "--viewer", "0"], "standard input can be read only once"),
                ("view", ["", *options], "an empty file name"),
                ("view", ["both.nwk", "--levels=", "--viewer=0"], "an empty file name"),
                ("view", ["both.nwk", "--common", *options], "unrecognized arguments: --common"),
                ("view", ["both.nwk", "--format", "phylip", *options], "invalid choice: 'phylip'"),
                ("view-topology", ["wings.nwk", "a", "b", "c", *options], "4 words; a file and four names are needed"),
                ("view-topology", ["wings.nwk", *"abcde", *options], "6 words; a file and four names are needed"),
                ("view-topology", ["wings.nwk", *"abcd"], "required: --levels, --viewer")):
            self.assert_message(self.here(command, *arguments), 2, words, f"leskwyn {command} --help tells the usage")
        self.assert_message(self.view("absent", "wings.nwk"), 2, "cannot read absent: No such file")
        self.assert_message(self.view("both.nwk", levels="absent"), 2, "cannot read absent: No such file")
        self.assert_message(self.topology("absent", *NAMES[:4]), 2, "cannot read absent: No such file")

    def test_the_page(self) -> None:
        """The examples of docs/COMMANDS.md tell what a look at every set of four tells, and the keys are those of json."""
        levels = dict(line.split("\t") for line in (ROOT / "examples" / "levels.tsv").read_text().splitlines())
        page = (ROOT / "docs" / "COMMANDS.md").read_text(encoding="utf-8")
        shown, asked = (page.split(f"## {command}\n")[1].split("\n## ")[0] for command in ("view", "view-topology"))
        self.assertIn("".join(f"{name}\t{level}\n" for name, level in levels.items()), shown)
        _, text, tsv, told = re.findall(r"(?ms)^```\n(.*?)^```$", shown)
        expected = view(self.FEATHERS, self.WINGS, {name: int(level) for name, level in levels.items()}, 2)
        self.assertEqual((squeezed(text), json.loads(told)), (self.words(expected), expected))
        self.assertEqual(dict(zip(*(line.split("\t") for line in tsv.splitlines()))),
                         {key: str(value) for key, value in expected.items() if key != "names"})
        self.assertEqual(re.findall(r"`(\w+)`", " ".join(re.findall(r"(?m)^\| (`.*?) \|", shown))), list(expected))
        text, hidden, unknown, told = re.findall(r"(?ms)^```\n(.*?)^```$", asked)
        expected = topology(self.FEATHERS, ["Azores", "Bute", "Coll", "Lundy"])
        self.assertEqual(text, "parts them two and two:\n  Azores + Lundy\n  Bute + Coll\n")
        self.assertEqual(json.loads(told), expected)
        self.assertEqual((hidden, unknown), (self.NOT_SEEN.decode(), self.NOT_SEEN.decode()))
        self.assertEqual(re.findall(r"(?m)^\| `(\w+)` \|", asked), list(expected))


class Three(TreesTest):
    """Three trees side by side, by a look at every set of four of each two."""

    SONG = "(Azores,(Bute,(Coll,Foula)),(Lundy,Texel));\n"
    FILES = ["feathers.nwk", "wings.nwk", "song.nwk"]
    PLACES = dict(zip(["first", "second", "third"], FILES))
    # docs/COMMANDS.md, 'three': what each tree keeps together.
    SIDES = [[frozenset(part.split()) for part in parts] for parts in (
        ["Bute Coll", "Lundy Texel"], ["Coll Foula", "Lundy Texel"], ["Coll Foula", "Bute Coll Foula", "Lundy Texel"])]
    NOTE = ("with a weight below 1/2 the way through a third tree can be shorter than the direct one: the triangle inequality "
            "holds only from 1/2 on")
    CASE_NAMES = ["A parted alike by both", "B parted differently", "C parted by the first of the two only",
                  "D parted by the second of the two only", "E left open by both"]

    def setUp(self) -> None:
        super().setUp()
        self.file("song.nwk", self.SONG)

    def three(self, *arguments: str, stdin: bytes | str = b"") -> Done:
        return self.here("three", *arguments, stdin=stdin)

    def closest(self, told: dict[str, object]) -> str:
        """The line that tells which are closest."""
        key = "weighted_distance" if "weight" in told else "distance"
        least = min(pair[key] for pair in told["pairs"])
        distance = f"the {key.replace('_', ' ')} {str(least).removesuffix('.0')}"
        one, *others = [f"the {first} and the {second} tree" for first, second in told["closest"]]
        if len(others) == 2:
            return f"no two are closest: all three pairs have {distance}"
        return f"closest: {one}{', and as close ' + others[0] if others else ''}, with {distance}"

    def words(self, told: dict[str, object]) -> list[str]:
        """The text of all that is told, squeezed."""
        whole = "{} / sets of four" if told["sets_of_four"] else "there are no sets of four"
        def line(name: str, key: str, note: str = "", form: str = "") -> str:
            cells = [format(pair[key], form) for pair in told["pairs"]]
            return " ".join([name, *(cell.removesuffix(".0") for cell in cells), note]).strip()
        lines = [f"{which} tree: {told[which]}" for which in self.PLACES]
        lines += [f"struck: {', '.join(told['struck'])}"] if told.get("struck") else []
        lines += ["", f"populations {told['tips']}"]
        lines += [f"kept {told['kept']} of {told['tips']}; sets of four count these alone"] if "kept" in told else []
        lines += [f"sets of four {told['sets_of_four']}", "", "trees first, second first, third second, third"]
        lines += [line(name, key) for name, key in zip(self.CASE_NAMES, CASES, strict=True)]
        lines += [line("distance", "distance", "B + C + D"),
                  line("normalised distance", "normalised_distance", whole.format("distance"), ".4f")]
        if "weight" in told:
            weight = fractions.Fraction(told["weight"])
            lines += [line("weighted distance", "weighted_distance", f"B + p (C + D), p = {weight}"),
                      line("normalised weighted distance", "normalised_weighted_distance", whole.format("weighted distance"),
                           ".4f")]
        return [*lines, "", self.closest(told), *([self.NOTE] if told.get("weight", 1) < 1 / 2 else []), ""]

    def assert_three(self, expected: dict[str, object], *arguments: str, stdin: str = "") -> None:
        """All three formats; standard error has the note on small weights where the text has none."""
        note = f"leskwyn: note: {self.NOTE}\n" if expected.get("weight", 1) < 1 / 2 else ""
        text, tsv, told = (self.three(*arguments, "--format", one, stdin=stdin) for one in ("text", "tsv", "json"))
        self.assertEqual([(done.returncode, done.stderr.decode()) for done in (text, tsv, told)], [(0, ""), (0, note), (0, note)])
        self.assertEqual(squeezed(text.stdout.decode()), self.words(expected))
        rows = three_rows(expected)
        self.assertEqual([line.split("\t") for line in tsv.stdout.decode().removesuffix("\n").split("\n")],
                         [list(rows[0]), *([",".join(cell) if isinstance(cell, list) else str(cell) for cell in row.values()]
                                           for row in rows)])
        found = json.loads(told.stdout)
        self.assertEqual((found, told.stdout.count(b"\n")), (expected, 1))
        self.assertEqual((list(found), list(found["pairs"][0])), (list(expected), list(expected["pairs"][0])))

    def test_by_hand(self) -> None:
        """docs/COMMANDS.md, 'three'."""
        done = self.three(*self.FILES)
        self.assertEqual((done.returncode, done.stderr), (0, b""))
        self.assertEqual(squeezed(done.stdout.decode()), [
            "first tree: feathers.nwk", "second tree: wings.nwk", "third tree: song.nwk", "", "populations 6", "sets of four 15",
            "", "trees first, second first, third second, third", "A parted alike by both 6 8 11", "B parted differently 3 3 0",
            "C parted by the first of the two only 2 0 0", "D parted by the second of the two only 2 4 4",
            "E left open by both 2 0 0", "distance 7 7 4 B + C + D",
            "normalised distance 0.4667 0.4667 0.2667 distance / sets of four", "",
            "closest: the second and the third tree, with the distance 4", ""])
        self.assertEqual(done.stdout, run_leskwyn("three", *self.FILES, cwd=self.folder).stdout)
        # without Coll feathers and wings are the same, and song parts Bute and Foula from Azores and Lundy or Texel
        told = json.loads(self.three(*self.FILES, "--strike", "Coll", "--format", "json").stdout)
        self.assertEqual([[pair[key] for key in CASES] for pair in told["pairs"]],
                         [[3, 0, 0, 0, 2], [3, 0, 0, 2, 0], [3, 0, 0, 2, 0]])
        self.assertEqual((told["closest"], told["kept"], told["struck"]), ([["first", "second"]], 5, ["Coll"]))

    def test_weights_and_struck_names(self) -> None:
        """In every format, with none, one, few and all struck."""
        for spelling, p in ((None, None), ("none", 0), ("full", 1), ("1/2", 1 / 2), ("127/256", 127 / 256), ("0.25", 1 / 4)):
            for struck in (None, [], ["Coll"], ["Texel", "Azores"], ["Bute", "Coll", "Foula"], NAMES):
                self.file("struck.txt", "".join(f"{name}\n" for name in struck or ()))
                options = [*([] if p is None else ["--weight", spelling]),
                           *([] if struck is None else ["--strike-file", "struck.txt"])]
                weight = None if p is None else fractions.Fraction(p)
                with self.subTest(options=options, struck=struck):
                    self.assert_three(self.PLACES | three(self.SIDES, NAMES, weight, struck), *self.FILES, *options)

    def test_random_trees(self) -> None:
        rng, ties = random.Random(96), set()
        for case in range(48):
            names = sorted(f"t{at}" for at in range(3 + case % 7))
            trees = [random_tree(rng, names, rng.choice([0, 0.3, 0.8])) for _ in range(3)]
            trees[2] = trees[case % 3] if case % 5 == 0 else trees[2]
            for name, tree in zip(self.FILES, trees):
                self.file(name, written_tree(rng, with_pass_through(rng, tree, rng.randint(1, 9)) if case % 2 else tree))
            struck = rng.sample(names, case % 3) if case % 3 else None
            weight = fractions.Fraction(rng.randint(0, 256), 256) if case % 4 else None
            expected = three([sides_of(tree) for tree in trees], names, weight, struck)
            options = [*(f"--strike={name}" for name in struck or ()), *([] if weight is None else [f"--weight={weight}"])]
            with self.subTest(case=case, options=options):
                self.assert_three(self.PLACES | expected, *self.FILES, *options)
            ties.add(len(expected["closest"]))
        self.assertEqual(ties, {1, 2, 3})

    def test_ties(self) -> None:
        """Of two pairs, of all three with a distance, and of three equal trees."""
        butterfly, other, fan = "((a,b),(c,d));", "((a,c),(b,d));", "(a,b,c,d);"
        for trees, options, line in (
                ([butterfly, other, fan], [], "no two are closest: all three pairs have the distance 1"),
                ([butterfly] * 3, [], "no two are closest: all three pairs have the distance 0"),
                ([butterfly, fan, other], ["--weight=3/4"], "closest: the first and the second tree, and as close the second and "
                                                            "the third tree, with the weighted distance 0.75"),
                ([fan, fan, butterfly], ["--weight=1"], "closest: the first and the second tree, with the weighted distance 0"),
                ([butterfly, fan, butterfly], [], "closest: the first and the third tree, with the distance 0"),
                ([butterfly, other, fan], ["--strike=d"], "no two are closest: all three pairs have the distance 0")):
            done = self.three("-", *options, stdin="".join(trees))
            self.assertEqual((done.returncode, done.stdout.decode().split("\n")[-2:]), (0, [line, ""]), trees)

    def test_columns(self) -> None:
        """Figures end in their columns, whatever the widths, and no line ends with a blank."""
        names = [f"t{i}" for i in range(64)]
        trees = ["".join(f"({name}," for name in names[:-1]) + names[-1] + ")" * 63 + ";", star_text(names)]
        for stdin in ("".join([*trees, trees[0]]), "(a,b);" * 3):
            lines = self.three("-", "--weight=1/256", stdin=stdin).stdout.decode().split("\n")
            at = next(at for at, line in enumerate(lines) if line.startswith("trees "))
            ends = [[cell.end() for cell in re.finditer(r"\S+(?: {1,2}\S+)*", line)][1:4] for line in lines[at:at + 10]]
            self.assertEqual(ends, [ends[0]] * 10)
            self.assertEqual([line for line in lines if line != line.rstrip()], [])

    def test_every_way_of_giving_three_trees(self) -> None:
        every = FEATHERS + WINGS + self.SONG
        self.file("all.nwk", every)
        expected = three(self.SIDES, NAMES)
        for trees, stdin, places in (
                (["all.nwk"], "", [f"all.nwk, {which} tree" for which in self.PLACES]),
                (["-"], every, [f"standard input, {which} tree" for which in self.PLACES]),
                (["feathers.nwk", "-", "song.nwk"], WINGS, ["feathers.nwk", "standard input", "song.nwk"]),
                (["--common", "--", *self.FILES], "", self.FILES)):
            done = self.three("--format", "json", *trees, stdin=stdin)
            self.assertEqual(json.loads(done.stdout), dict(zip(self.PLACES, places)) | expected)
        done = self.three("feathers.nwk", "feathers.nwk", "wings.nwk")
        self.assertEqual((done.returncode, done.stdout.decode().split("\n")[-2]),
                         (0, "closest: the first and the second tree, with the distance 0"))

    def test_common(self) -> None:
        self.file("more.nwk", "((Azores,Zeist),(Bute,(Coll,Foula)),(Lundy,Texel));")
        self.assert_message(self.three("feathers.nwk", "wings.nwk", "more.nwk"), 1, "only more.nwk has 'Zeist'; --common")
        done = self.three("feathers.nwk", "wings.nwk", "more.nwk", "--common", "--format", "json")
        self.assertEqual((done.returncode, done.stderr), (0, b"leskwyn: left out of more.nwk: 'Zeist'\n"))
        self.assertEqual(json.loads(done.stdout), self.PLACES | {"third": "more.nwk"} | three(self.SIDES, NAMES))

    def test_names_as_they_are_written(self) -> None:
        """A struck name that could be read as several stands in quotes, and no field has a line break."""
        self.file("names.nwk", "(('a, b',Parus_major),('c + d','e\nf'),g);" * 3)
        struck = ["--strike=a, b", "--strike=Parus_major", "--strike=e\nf"]
        self.assertEqual(self.three("names.nwk", *struck).stdout.decode().split("\n")[3], "struck: Parus major, 'a, b', e\\nf")
        tsv = self.three("names.nwk", *struck, "--format=tsv").stdout.decode().splitlines()
        self.assertEqual([line.split("\t")[-1] for line in tsv[1:]], ["'Parus major','a, b','e\\nf'"] * 3)

    def test_refused_as_compared(self) -> None:
        """The status and the words of matrix and, of two trees, of compare."""
        self.file("other.nwk", "(Azores,Bute,Zeist);")
        self.file("twice.nwk", "(A,B,A);")
        self.file("open.nwk", "(A,(B,C);")
        self.file("pair.bin", packed(P, Q))
        for third, *options in (["other.nwk"], ["twice.nwk"], ["open.nwk"], ["pair.bin"], ["song.nwk", "--strike", "Zeist"],
                                ["song.nwk", "--strike", "Coll", "--strike", "Mull", "--strike", "Rum"]):
            for at in range(3):
                trees = [*self.FILES[:2]]
                trees.insert(at, third)
                done, square = (self.here(command, *trees, *options) for command in ("three", "matrix"))
                self.assertEqual((done.returncode, done.stdout, done.stderr), (1, b"", square.stderr))
                self.assert_message(done, 1)
            done = self.three("feathers.nwk", "wings.nwk", third, *options)
            compared = self.here("compare", "feathers.nwk", third, *options)
            self.assertEqual((done.returncode, done.stderr), (compared.returncode, compared.stderr))
        self.assert_message(self.three("both.nwk"), 1, "both.nwk: 2 trees in the file; three trees are needed")
        self.assert_message(self.three("both.nwk", "wings.nwk", "song.nwk"), 1, "2 trees in the file; one tree is needed here")
        self.assert_message(self.three("-", stdin="(A,B);(A,B);(A,B"), 1, "standard input, line 1: a ( without its )")

    def test_wrong_usage(self) -> None:
        for arguments, words in (([], "0 files; one or three are needed"), (["a", "b"], "2 files; one or three are needed"),
                                 (["a", "b", "c", "d"], "4 files; one or three are needed"),
                                 (["-", "-", "a"], "standard input can be read only once"),
                                 (["-", "--strike-file", "-"], "standard input can be read only once"),
                                 (["", "a", "b"], "an empty file name"), (["a", "--format", "phylip"], "invalid choice: 'phylip'"),
                                 (["a", "--tables"], "unrecognized arguments: --tables"),
                                 (["a", "--listing"], "unrecognized arguments: --listing"),
                                 (["a", "--outgroup", "b"], "unrecognized arguments: --outgroup")):
            self.assert_message(self.three(*arguments), 2, words, "leskwyn three --help tells the usage")
        self.assert_message(self.three("feathers.nwk", "wings.nwk", "absent"), 2, "cannot read absent: No such file")

    def test_the_page(self) -> None:
        """The examples of docs/COMMANDS.md tell what a look at every set of four tells, and the keys are those of json."""
        self.assertEqual((ROOT / "examples" / "song.nwk").read_text(), self.SONG)
        page = (ROOT / "docs" / "COMMANDS.md").read_text(encoding="utf-8").split("## three\n")[1].split("\n## ")[0]
        self.assertIn(f"`{self.SONG.rstrip()}`", page)
        text, tsv, told = re.findall(r"(?ms)^```\n(.*?)^```$", page)
        places = {which: f"examples/{name}" for which, name in self.PLACES.items()}
        self.assertEqual(squeezed(text), self.words(places | three(self.SIDES, NAMES)))
        rows = three_rows(places | three(self.SIDES, NAMES, None, ["Coll"]))
        self.assertEqual([line.split("\t") for line in tsv.splitlines()],
                         [list(rows[0]), *([*map(str, row.values())][:-1] + ["Coll"] for row in rows)])
        expected = places | three(self.SIDES, NAMES, fractions.Fraction(1, 2))
        self.assertEqual(json.loads(told), expected)
        keys = re.findall(r"`(\w+)`", " ".join(re.findall(r"(?m)^\| (`.*?) \|", page)))
        self.assertEqual(keys, list(expected | three(self.SIDES, NAMES, fractions.Fraction(1, 2), [])))
        row = next(line for line in page.splitlines() if line.startswith("| `pairs` "))
        self.assertLessEqual(set(expected["pairs"][0]), set(re.findall(r"`(\w+)`", row)))


class Many(TreesTest):
    TREES = [FEATHERS, WINGS, "(Azores,Bute,Coll,Foula,Lundy,Texel);\n", FEATHERS]

    def setUp(self) -> None:
        super().setUp()
        self.file("all.nwk", "".join(self.TREES))
        self.file("last.nwk", "".join(self.TREES[2:]))
        pairs = {(i, j): leskwyn.compare(t, u) for (i, t), (j, u) in itertools.product(enumerate(self.TREES), repeat=2)}
        self.assertEqual((pairs[0, 1].distance, pairs[0, 2].distance, pairs[1, 2].robinson_foulds), (7, 11, 2))
        self.pairs = pairs

    def square(self, key: str) -> list[list[str]]:
        return [[str(getattr(self.pairs[i, j], key)) for j in range(4)] for i in range(4)]

    def test_tsv(self) -> None:
        for arguments, places in ((["all.nwk"], ["all.nwk#1", "all.nwk#2", "all.nwk#3", "all.nwk#4"]),
                                  (["feathers.nwk", "wings.nwk", "last.nwk"],
                                   ["feathers.nwk", "wings.nwk", "last.nwk#1", "last.nwk#2"]),
                                  (["feathers.nwk", "wings.nwk", "-", "feathers.nwk"],
                                   ["feathers.nwk", "wings.nwk", "standard input", "feathers.nwk(2)"])):
            for jobs in ([], ["--jobs", "1"], ["--jobs", "2"], ["--jobs", "8"]):
                done = self.here("matrix", *arguments, *jobs, stdin=self.TREES[2])
                self.assertEqual((done.returncode, done.stderr), (0, b""))
                rows = [line.split("\t") for line in done.stdout.decode().removesuffix("\n").split("\n")]
                self.assertEqual(rows[0], ["tree", *places])
                self.assertEqual([row[0] for row in rows[1:]], places)
                self.assertEqual([row[1:] for row in rows[1:]], self.square("distance"))

    def test_measures_and_phylip(self) -> None:
        for arguments, key in (([], "distance"), (["--normalised"], "normalised_distance"),
                               (["--measure", "splits"], "robinson_foulds"),
                               (["--measure", "splits", "--normalised"], "normalised_robinson_foulds"),
                               (["--measure", "triplets"], "triplet_distance"),
                               (["--measure", "triplets", "--normalised"], "normalised_triplet_distance")):
            done = self.here("matrix", "all.nwk", "--format", "phylip", *arguments)
            lines = done.stdout.decode().removesuffix("\n").split("\n")
            self.assertEqual((done.returncode, lines[0]), (0, "4"))
            self.assertEqual([line.split() for line in lines[1:]],
                             [[f"all.nwk#{at + 1}", *row] for at, row in enumerate(self.square(key))])

    def test_triplets_under_an_outgroup(self) -> None:
        """Where none is named, standard error tells which name a square of triplet distances takes."""
        for arguments, distance, told in (([], "5", "the outgroup is Azores, the first of the sorted names; "
                                                    "--outgroup NAME takes another"),
                                          (["--outgroup", "Texel"], "3", ""), (["--outgroup", "Azores"], "5", "")):
            done = self.here("matrix", "feathers.nwk", "wings.nwk", "--measure", "triplets", *arguments)
            self.assertEqual(done.stdout.decode(), "tree\tfeathers.nwk\twings.nwk\n"
                                                   f"feathers.nwk\t0\t{distance}\nwings.nwk\t{distance}\t0\n")
            self.assertEqual(done.stderr.decode(), f"leskwyn: {told}\n" if told else "")
        for measure in ("quartet", "splits"):
            self.assertEqual(self.here("matrix", "all.nwk", "--measure", measure).stderr, b"")
        done = self.here("against", "feathers.nwk", "all.nwk", "--format", "json", "--outgroup", "Texel")
        rows = [json.loads(line) for line in done.stdout.decode().removesuffix("\n").split("\n")]
        # The star leaves open all that feathers part: 6 + 1 + 1 sets of three.
        self.assertEqual([(row["outgroup"], row["triplet_distance"]) for row in rows],
                         [("Texel", 0), ("Texel", 3), ("Texel", 8), ("Texel", 0)])

    def test_against(self) -> None:
        for jobs in ("1", "2", "8"):
            done = self.here("against", "feathers.nwk", "all.nwk", "wings.nwk", "--jobs", jobs)
            header, *rows = [line.split("\t") for line in done.stdout.decode().removesuffix("\n").split("\n")]
            self.assertEqual((done.returncode, header), (0, [key for key in KEYS if key != "names"]))
            told = [dict(zip(header, row, strict=True)) for row in rows]
            self.assertEqual([(row["first"], row["second"], row["distance"]) for row in told],
                             [("feathers.nwk", f"all.nwk#{i + 1}", str(self.pairs[0, i].distance)) for i in range(4)]
                             + [("feathers.nwk", "wings.nwk", "7")])
        done = self.here("against", "feathers.nwk", "all.nwk", "--format", "json")
        told = [json.loads(line) for line in done.stdout.decode().removesuffix("\n").split("\n")]
        self.assertEqual([row["robinson_foulds"] for row in told], [self.pairs[0, i].robinson_foulds for i in range(4)])

    def test_weights(self) -> None:
        # Of the four trees feathers, wings, the star and feathers: B is 3 for the first two, C + D is 4 or 11.
        for spelling, p in (("none", 0.0), ("full", 1.0), ("1/2", 0.5), ("0.125", 0.125)):
            near, far = 3 + 4 * p, 11 * p
            square = [[0.0, near, far, 0.0], [near, 0.0, far, near], [far, far, 0.0, far], [0.0, near, far, 0.0]]
            for arguments, over in (([], 1), (["--normalised"], 15)):
                done = self.here("matrix", "all.nwk", "--measure", "weighted", "--weight", spelling, *arguments)
                self.assertEqual((done.returncode, done.stderr), (0, b""))
                rows = [line.split("\t")[1:] for line in done.stdout.decode().removesuffix("\n").split("\n")[1:]]
                self.assertEqual(rows, [[str(number / over) for number in row] for row in square])
            done = self.here("against", "feathers.nwk", "all.nwk", "--format", "json", "--weight", spelling)
            rows = [json.loads(line) for line in done.stdout.decode().removesuffix("\n").split("\n")]
            self.assertEqual([[row[key] for key in WEIGHTED_KEYS] for row in rows],
                             [[p, number, number / 15] for number in square[0]])

    def test_names(self) -> None:
        self.file("more.nwk", "(Azores,Bute,Coll,Foula,Lundy,Texel,Zeist);")
        for command in ("matrix", "against"):
            done = self.here(command, "feathers.nwk", "all.nwk", "more.nwk")
            self.assert_message(done, 1, "only more.nwk has 'Zeist'", "--common")
            done = self.here(command, "feathers.nwk", "all.nwk", "more.nwk", "--common")
            self.assertEqual((done.returncode, done.stderr), (0, b"leskwyn: left out of more.nwk: 'Zeist'\n"))
        self.assert_message(self.here("matrix", "-", stdin=packed(P, Q)), 1, "is a comparison file")
        self.assert_message(self.here("against", "all.nwk", "feathers.nwk"), 1, "4 trees in the file; one tree is needed")
        self.assert_message(self.here("matrix", "-", stdin="(A,B);(A,B"), 1, "standard input, line 1: a ( without its )")

    def test_progress(self) -> None:
        """On a terminal, after a while, at most so often; and the line is cleared."""
        class Terminal(io.StringIO):
            def isatty(self) -> bool:
                return True
        for seconds, shown in ((0, True), (1000, False)):
            with (contextlib.redirect_stderr(Terminal()) as told, unittest.mock.patch.object(usage, "SHOWN_AFTER", seconds),
                  unittest.mock.patch.object(usage, "SHOWN_EVERY", 0)):
                with usage.ProgressLine(6) as progress:
                    for done in range(7):
                        progress(done)
                line = told.getvalue()
            self.assertEqual(("\rleskwyn: 5 of 6 pairs" in line, line.endswith("\r\x1b[K")), (shown, shown))
        with contextlib.redirect_stderr(io.StringIO()), usage.ProgressLine(6) as progress:
            self.assertIsNone(progress)


class Nearest(TreesTest):
    """The tree nearest to all of several, by a look at every set of four of each two."""

    FILES, SIDES = Three.FILES, Three.SIDES
    CALL, MANY, STRUCK = ("counted by leskwyn_nearest, and pair by pair",
                          "counted pair by pair: leskwyn_nearest takes 2 to 16 trees",
                          "counted pair by pair: leskwyn_nearest strikes no populations")

    def setUp(self) -> None:
        super().setUp()
        self.file("song.nwk", Three.SONG)

    def nearest(self, *arguments: str, stdin: bytes | str = b"") -> Done:
        return self.here("nearest", *arguments, stdin=stdin)

    def words(self, told: dict[str, object]) -> list[str]:
        """The text of all that is told, squeezed."""
        others = len(told["rows"]) - 1
        near = [told["rows"][at]["tree"] for at in told["as_near"]]
        more = f" and {len(near) - 10} more" if len(near) > 10 else ""
        lines = [f"struck: {', '.join(told['struck'])}", ""] if told.get("struck") else []
        lines += [f"trees {others + 1}", f"populations {told['tips']}"]
        lines += [f"kept {told['kept']} of {told['tips']}; sets of four count these alone"] if "kept" in told else []
        lines += [f"sets of four {told['sets_of_four']}", "", f"nearest to all: {told['tree']}",
                  f"summed distance {told['sum']} to {others} other tree{'s' * (others > 1)}",
                  f"mean normalised distance {told['mean_normalised_distance']:.4f} "
                  + ("summed distance / other trees / sets of four" if told["sets_of_four"] else "there are no sets of four")]
        lines += [f"with the same sum: {', '.join(near[:10])}{more}"] if near else []
        lines += ["", "tree summed distance mean normalised"]
        lines += [f"{row['tree']} {row['sum']} {row['mean_normalised_distance']:.4f}" for row in told["rows"]]
        by = self.CALL if told["counted_by"] == "leskwyn_nearest" else self.MANY if others >= 16 else self.STRUCK
        return [*lines, "", by, ""]

    def assert_nearest(self, expected: dict[str, object], *arguments: str, stdin: str = "") -> None:
        """All three formats."""
        text, tsv, told = (self.nearest(*arguments, "--format", one, stdin=stdin) for one in ("text", "tsv", "json"))
        self.assertEqual([(done.returncode, done.stderr) for done in (text, tsv, told)], [(0, b"")] * 3)
        self.assertEqual(squeezed(text.stdout.decode()), self.words(expected))
        rows = nearest_rows(expected)
        self.assertEqual([line.split("\t") for line in tsv.stdout.decode().removesuffix("\n").split("\n")],
                         [list(rows[0]), *([",".join(cell) if isinstance(cell, list) else str(cell) for cell in row.values()]
                                           for row in rows)])
        found = json.loads(told.stdout)
        self.assertEqual((found, told.stdout.count(b"\n")), (expected, 1))
        self.assertEqual((list(found), list(found["rows"][0])), (list(expected), list(expected["rows"][0])))

    def test_by_hand(self) -> None:
        """docs/COMMANDS.md, 'nearest': feathers are 7 from both others, which are 4 from each other."""
        done = self.nearest(*self.FILES)
        self.assertEqual((done.returncode, done.stderr), (0, b""))
        self.assertEqual(squeezed(done.stdout.decode()), [
            "trees 3", "populations 6", "sets of four 15", "", "nearest to all: wings.nwk", "summed distance 11 to 2 other trees",
            "mean normalised distance 0.3667 summed distance / other trees / sets of four", "with the same sum: song.nwk", "",
            "tree summed distance mean normalised", "feathers.nwk 14 0.4667", "wings.nwk 11 0.3667", "song.nwk 11 0.3667", "",
            "counted by leskwyn_nearest, and pair by pair", ""])
        self.assertEqual(done.stdout, run_leskwyn("nearest", *self.FILES, cwd=self.folder).stdout)
        told = json.loads(self.nearest(*self.FILES, "--strike", "Coll", "--format", "json").stdout)
        self.assertEqual((told["position"], told["sum"], told["as_near"], told["counted_by"], told["struck"]),
                         (0, 2, [1], "pairs", ["Coll"]))

    def test_how_many_trees(self) -> None:
        """Of 2, 3, 16 and 17 trees, some of them the same, in every format, with none, some and all populations struck."""
        for count in (2, 3, 16, 17):
            paths, sides = ((several * 6)[:count] for several in (self.FILES, self.SIDES))
            places = [path if at < 3 else f"{path}({at // 3 + 1})" for at, path in enumerate(paths)]
            for struck in (None, [], ["Coll"], ["Texel", "Azores"], NAMES):
                self.file("struck.txt", "".join(f"{name}\n" for name in struck or ()))
                options = [] if struck is None else ["--strike-file", "struck.txt"]
                with self.subTest(count=count, struck=struck):
                    self.assert_nearest(nearest(places, sides, NAMES, struck), *paths, *options)

    def test_random_trees(self) -> None:
        """In one file, on any number of threads."""
        rng, ties = random.Random(105), set()
        for case in range(40):
            names, count = sorted(f"t{at}" for at in range(3 + case % 6)), 2 + case % 18
            trees = [random_tree(rng, names, rng.choice([0, 0.3, 0.8])) for _ in range(count)]
            trees[-1] = trees[0] if case % 4 == 0 else trees[-1]
            self.file("all.nwk", "\n".join(written_tree(rng, with_pass_through(rng, tree, rng.randint(1, 9)) if case % 2 else tree)
                                           for tree in trees))
            struck = rng.sample(names, case % 3) if case % 3 else None
            expected = nearest([f"all.nwk#{at + 1}" for at in range(count)], [sides_of(tree) for tree in trees], names, struck)
            options = [*(f"--strike={name}" for name in struck or ()), *([f"--jobs={case % 4}"] if case % 4 else [])]
            with self.subTest(case=case, options=options):
                self.assert_nearest(expected, "all.nwk", *options)
            ties.add(min(len(expected["as_near"]), 2))
        self.assertEqual(ties, {0, 1, 2})

    def test_every_way_of_giving_trees(self) -> None:
        """As matrix reads them, and with its labels."""
        self.file("all.nwk", FEATHERS + WINGS + Three.SONG)
        for arguments, stdin in ((["all.nwk"], ""), (["-"], FEATHERS + WINGS), (["both.nwk", "song.nwk"], ""),
                                 (["feathers.nwk", "-", "feathers.nwk"], WINGS), (["--common", "--", *self.FILES], "")):
            square, told = (self.here(command, *arguments, stdin=stdin).stdout.decode() for command in ("matrix", "nearest"))
            header, *rows = [line.split("\t") for line in square.splitlines()]
            sums = [sum(map(int, row[1:])) for row in rows]
            self.assertEqual([line.split()[-2:] for line in told.split("\n\n")[2].splitlines()[1:]],
                             [[str(one), f"{one / (len(rows) - 1) / 15:.4f}"] for one in sums])
            tsv = self.nearest("--format=tsv", *arguments, stdin=stdin).stdout.decode().splitlines()
            self.assertEqual([line.split("\t")[1] for line in tsv[1:]], header[1:])

    def test_common(self) -> None:
        self.file("more.nwk", "((Azores,Zeist),(Bute,(Coll,Foula)),(Lundy,Texel));")
        self.assert_message(self.nearest("feathers.nwk", "wings.nwk", "more.nwk"), 1, "only more.nwk has 'Zeist'; --common")
        done = self.nearest("feathers.nwk", "wings.nwk", "more.nwk", "--common", "--format", "json")
        self.assertEqual((done.returncode, done.stderr), (0, b"leskwyn: left out of more.nwk: 'Zeist'\n"))
        self.assertEqual(json.loads(done.stdout), nearest(["feathers.nwk", "wings.nwk", "more.nwk"], self.SIDES, NAMES))

    def test_names_as_they_are_written(self) -> None:
        """A struck name, or a file, that could be read as several stands in quotes, and no field has a line break."""
        for name in ("a, b.nwk", "c\nd.nwk", "e.nwk"):
            self.file(name, "(('a, b',Parus_major),('c + d','e\nf'),g);")
        paths, struck = ["e.nwk", "a, b.nwk", "c\nd.nwk"], ["--strike=a, b", "--strike=e\nf"]
        lines = self.nearest(*paths, *struck).stdout.decode().split("\n")
        self.assertEqual((lines[0], lines[10]), ("struck: 'a, b', e\\nf", "with the same sum: 'a, b.nwk', c\\nd.nwk"))
        tsv = self.nearest(*paths, *struck, "--format=tsv").stdout.decode().splitlines()
        self.assertEqual([line.split("\t")[1::8] for line in tsv[1:]],
                         [[place, "'a, b','e\\nf'"] for place in ("e.nwk", "a, b.nwk", "c\\nd.nwk")])

    def test_refused(self) -> None:
        """Fewer than two trees have 38; else the status and the words are those of matrix."""
        for arguments in (["feathers.nwk"], ["-"], ["feathers.nwk", "--strike", "Zeist"], ["feathers.nwk", "--common"]):
            self.assert_message(self.nearest(*arguments, stdin=FEATHERS), 1, "refused 38: 1 tree; two or more are needed")
        self.file("other.nwk", "(Azores,Bute,Zeist);")
        self.file("twice.nwk", "(A,B,A);")
        self.file("open.nwk", "(A,(B,C);")
        self.file("pair.bin", packed(P, Q))
        for third, *options in (["other.nwk"], ["twice.nwk"], ["open.nwk"], ["pair.bin"], ["song.nwk", "--strike", "Zeist"],
                                ["song.nwk", "--strike", "Coll", "--strike", "Mull", "--strike", "Rum"]):
            for trees in ([third, "feathers.nwk", "wings.nwk"], ["both.nwk", third]):
                done, square = (self.here(command, *trees, *options) for command in ("nearest", "matrix"))
                self.assertEqual((done.returncode, done.stdout, done.stderr), (1, b"", square.stderr))
                self.assert_message(done, 1)

    def test_figures_that_do_not_agree(self) -> None:
        """A sentence and status 2, and no figure."""
        answer = commands.counting._library.NearestAnswer(0, 2, 11)
        with unittest.mock.patch.object(commands.counting._library, "nearest", lambda shelf, lent: answer):
            self.assert_message(self.nearest(*self.FILES), 2, "internal error: leskwyn_nearest tells position 2 and the sum 11, "
                                                              "and the pairs tell position 1 and the sum 11")

    def test_wrong_usage(self) -> None:
        for arguments, words in (([], "no files; one or more are needed"), (["-", "-"], "standard input can be read only once"),
                                 (["-", "--strike-file", "-"], "standard input can be read only once"),
                                 (["", "a"], "an empty file name"), (["a", "--format", "phylip"], "invalid choice: 'phylip'"),
                                 (["a", "--jobs", "0"], "'0' is not a number of threads from 1 to 1024"),
                                 (["a", "--weight", "1/2"], "unrecognized arguments: --weight"),
                                 (["a", "--outgroup", "b"], "unrecognized arguments: --outgroup")):
            self.assert_message(self.nearest(*arguments), 2, words, "leskwyn nearest --help tells the usage")
        self.assert_message(self.nearest("feathers.nwk", "absent"), 2, "cannot read absent: No such file")

    def test_the_page(self) -> None:
        """The examples of docs/COMMANDS.md tell what a look at every set of four tells, and the keys are those of json."""
        page = (ROOT / "docs" / "COMMANDS.md").read_text(encoding="utf-8").split("## nearest\n")[1].split("\n## ")[0]
        text, tsv, told = re.findall(r"(?ms)^```\n(.*?)^```$", page)
        places = [f"examples/{name}" for name in self.FILES]
        expected, struck = nearest(places, self.SIDES, NAMES), nearest(places, self.SIDES, NAMES, ["Coll"])
        self.assertEqual((squeezed(text), json.loads(told)), (self.words(expected), expected))
        rows = nearest_rows(struck)
        self.assertEqual([line.split("\t") for line in tsv.splitlines()],
                         [list(rows[0]), *([*map(str, row.values())][:-1] + ["Coll"] for row in rows)])
        keys = re.findall(r"`(\w+)`", " ".join(re.findall(r"(?m)^\| (`.*?) \|", page)))
        self.assertEqual(keys, list(struck))
        row = next(line for line in page.splitlines() if line.startswith("| `rows` "))
        self.assertLessEqual(set(expected["rows"][0]), set(re.findall(r"`(\w+)`", row)))
        for line in (self.CALL, self.MANY, self.STRUCK):
            self.assertIn(line, " ".join(page.split()))


class Usage(TreesTest):
    def test_wrong_usage(self) -> None:
        for command, *arguments in (["compare", "a", "b", "c"], ["compare", "-", "-"], ["compare", ""], ["compare", "--wrong"],
                                    ["compare", "--listing", "--format", "tsv"], ["compare", "--format", "xml"],
                                    ["compare", "both.nwk", "--tables", "wings.nwk"], ["compare", "both.nwk", "--list"],
                                    ["matrix"], ["matrix", "--jobs", "0", "all.nwk"], ["matrix", "all.nwk", "--jobs", "x"],
                                    ["matrix", "all.nwk", "--measure", "triplet"], ["against"], ["against", "feathers.nwk"],
                                    ["against", "-", "-"]):
            self.assert_message(self.here(command, *arguments), 2, f"leskwyn {command} --help tells the usage")
        self.assert_message(self.here("compare", "both.nwk", "--weight", "1/2", "--listing"), 2, "--listing and --weight exclude")
        self.assert_message(self.here("matrix", "both.nwk", "--weight", "1/2"), 2, "only 'weighted' takes a weight")
        self.assert_message(self.here("matrix", "both.nwk", "--measure", "weighted"), 2, "the weighted distance needs a weight")
        commands = ("compare, matrix, against, why, influence, copy, same, exchange, view, view-topology, three, nearest, table, "
                    "show")
        self.assert_message(self.here("comprae"), 2, f"no command 'comprae'; the commands are {commands} (")

    def test_wrong_weights(self) -> None:
        """Wrong usage, in every command and before a file is read, with the nearest two."""
        for weight, words in (("0.3", "'0.3' is no weight: it is not k/256 with a k from 0 to 256; the nearest two are 76/256 "
                                      "(0.296875) and 77/256 (0.30078125)"),
                              ("1/3", "85/256 (0.33203125) and 86/256 (0.3359375)"),
                              ("1.5", "255/256 (0.99609375) and 256/256 (1.0)"),
                              ("-0.5", "0/256 (0.0) and 1/256 (0.00390625)"), ("-1/2", "0/256 (0.0) and 1/256 (0.00390625)"),
                              ("half", "'half' is no weight: none, full, a decimal such as 0.5, or a fraction such as 1/2 or "
                                       "128/256"),
                              ("a\nb", "'a\\nb' is no weight")):
            for command, *arguments in (["compare", "absent"], ["against", "absent", "absent"],
                                        ["matrix", "absent", "--measure", "weighted"], ["three", "absent"]):
                done = self.here(command, *arguments, f"--weight={weight}")
                self.assert_message(done, 2, words, f"leskwyn {command} --help tells the usage")
        self.assert_message(self.here("compare", "both.nwk", "--weight", "-0.5"), 2, "0/256 (0.0) and 1/256 (0.00390625)")

    def test_unreadable(self) -> None:
        for command in ("compare", "matrix", "against", "influence", "nearest"):
            self.assert_message(self.here(command, "feathers.nwk", "absent"), 2, "cannot read absent: No such file")
            self.assert_message(self.here(command, "feathers.nwk", "."), 2, "cannot read .: Is a directory")
        self.assert_message(self.here("why", "feathers.nwk", "absent", "a", "b", "c", "d"), 2, "cannot read absent: No such file")
        for arguments in (["absent"], ["absent", "--tables"], ["absent", "feathers.nwk"]):
            self.assert_message(self.here("compare", "--listing", *arguments), 2, "cannot read absent: No such file")
        self.assert_message(self.here("compare", "--listing", "."), 2, "cannot read .: Is a directory")
        if os.path.exists("/proc/self/mem"):
            self.assert_message(self.here("compare", "--listing", "/proc/self/mem"), 2, "cannot read /proc/self/mem: ")
        self.assert_message(self.here("compare", "feathers.nwk", "-", stdin="(Möwe,B);".encode("latin-1")), 1,
                            "standard input: not UTF-8 text, at byte 2 (line 1), 0xf6; save the file as UTF-8")

    def test_names_of_files(self) -> None:
        """With blanks and signs, and with bytes that are no UTF-8."""
        for name in ("two words.bin", " ", "a*b", "$HOME", "'", "\u00e9t\u00e9", "line\nbreak", "-x", os.fsdecode(b"\xff.bin")):
            self.assert_message(self.here("compare", "--listing", "--", name), 2, "cannot read ")
            (self.folder / name).write_bytes(packed(P, Q))
            done = self.here("compare", "--listing", "--", name)
            self.assertEqual((done.returncode, done.stdout[:9], done.stderr), (0, b"leaves 5\n", b""), name)
            self.assertEqual(self.here("compare", "--", name).stdout.count(b"\n"), 28, name)

    def test_help_and_version(self) -> None:
        version = f"leskwyn (Leskwyn) {leskwyn.__version__}\n".encode()
        self.assertEqual(run_leskwyn("--version").stdout, version)
        for command in ("compare", "matrix", "against", "why", "influence", "copy", "same", "exchange", "view", "view-topology",
                        "three", "nearest", "table", "show"):
            for arguments, word in ((["--version"], version), (["--help"], b"usage: leskwyn " + command.encode())):
                done = run_leskwyn(command, *arguments)
                self.assertEqual((done.returncode, done.stderr), (0, b""))
                self.assertTrue(done.stdout.startswith(word), done.stdout)
            self.assertIn(b"exit status: 0", done.stdout)
            self.assertIn(b"leskwyn " + command.encode(), run_leskwyn("--help").stdout)


class Surroundings(TreesTest):
    """Output that cannot be written, input that is closed, no library, an old Python: a sentence and status 2."""

    SEEN = ["--levels", str(ROOT / "examples" / "levels.tsv"), "--viewer", "3"]
    WRITERS = [["compare", "both.nwk"], ["compare", "--listing", "both.nwk"], ["compare", "--listing", "--tables", "both.nwk"],
               ["matrix", "both.nwk"], ["nearest", "both.nwk"], ["three", "feathers.nwk", "wings.nwk", "wings.nwk"],
               ["against", "feathers.nwk", "wings.nwk"],
               ["why", "both.nwk", "Azores", "Bute", "Coll", "Foula"], ["influence", "both.nwk"], ["copy", "wings.nwk"],
               ["same", "both.nwk"], ["same", "wings.nwk", "wings.nwk"], ["exchange", "wings.nwk"],
               ["view", "both.nwk", *SEEN], ["view-topology", "wings.nwk", "Azores", "Bute", "Coll", "Foula", *SEEN], ["--help"],
               ["compare", "--help"], ["--version"], ["show", "--version"], ["table", "both.nwk"]]

    def assert_one_sentence(self, done: Done, status: int, *words: bytes) -> None:
        self.assertEqual((done.returncode, done.stderr.count(b"\n"), done.stderr[:9]), (status, 1, b"leskwyn: "), done.stderr)
        for word in words:
            self.assertIn(word, done.stderr)

    def run_with(self, arguments: list[str], **options: object) -> Done:
        settings = {"stderr": subprocess.PIPE, "env": ENVIRONMENT, "cwd": self.folder, "timeout": 20, **options}
        return subprocess.run([*LESKWYN, *arguments], **settings)

    @unittest.skipUnless(os.path.exists("/dev/full"), "needs /dev/full")
    def test_a_full_device(self) -> None:
        for arguments in self.WRITERS:
            with open("/dev/full", "wb") as full:
                done = self.run_with(arguments, stdout=full)
            self.assert_one_sentence(done, 2, b"cannot write standard output: No space left")

    def test_a_closed_pipe(self) -> None:
        for arguments in self.WRITERS:
            reader, writer = os.pipe()
            os.close(reader)
            done = self.run_with(arguments, stdout=writer)
            os.close(writer)
            self.assert_one_sentence(done, 2, b"cannot write standard output: Broken pipe")

    def test_closed_streams(self) -> None:
        closed = self.run_with(["compare", "both.nwk"], preexec_fn=lambda: os.close(1))
        self.assert_one_sentence(closed, 2, b"cannot write standard output")
        closed = self.run_with(["compare", "-"], stdout=subprocess.PIPE, preexec_fn=lambda: os.close(0))
        self.assert_one_sentence(closed, 2, b"cannot read standard input: it is closed")
        with open(os.devnull, "wb") as unreadable:
            failed = self.run_with(["compare", "--listing", "-"], stdout=subprocess.PIPE, stdin=unreadable)
        self.assert_one_sentence(failed, 2, b"cannot read standard input: Bad file descriptor")
        self.assertEqual(failed.stdout, b"")
        closed = self.run_with(["compare", "absent"], stdout=subprocess.PIPE, stderr=None, preexec_fn=lambda: os.close(2))
        self.assertEqual((closed.returncode, closed.stdout), (2, b""))

    def test_no_library(self) -> None:
        env = {**ENVIRONMENT, "LESKWYN_LIBRARY": str(self.folder / "absent.so")}
        done = self.run_with(["compare", "both.nwk"], stdout=subprocess.PIPE, env=env)
        self.assert_one_sentence(done, 2, b"there is no library ", b"absent.so", b"bin/leskwyn")
        self.file("absent.so", b"no library")
        done = self.run_with(["compare", "both.nwk"], stdout=subprocess.PIPE, env=env)
        self.assert_one_sentence(done, 2, b"cannot load the library ")
        self.assertEqual(self.run_with(["table", "both.nwk", "-o", "x"], stdout=subprocess.PIPE, env=env).returncode, 0)

    def assert_wants_its_library_named(self, folder: pathlib.Path) -> None:
        """The package in a folder that is no checkout."""
        env = {**ENVIRONMENT, "PYTHONPATH": str(folder)}
        named = env.pop("LESKWYN_LIBRARY", str(ROOT / "target" / "libleskwyn.so"))
        done = self.run_with(["compare", "both.nwk"], stdout=subprocess.PIPE, env=env)
        self.assert_one_sentence(done, 2, b"outside its checkout, so LESKWYN_LIBRARY must name the library: target/libleskwyn.so")
        done = self.run_with(["compare"], stdout=subprocess.PIPE, env=env)
        self.assert_one_sentence(done, 2, b"the example trees ", b": name two files")
        self.assertEqual(self.run_with(["table", "both.nwk", "-o", "x"], stdout=subprocess.PIPE, env=env).returncode, 0)
        done = self.run_with(["compare", "both.nwk", "--listing"], stdout=subprocess.PIPE, env={**env, "LESKWYN_LIBRARY": named})
        self.assertEqual((done.returncode, done.stdout, done.stderr), (0, LISTING, b""))

    def test_a_package_outside_its_checkout(self) -> None:
        shutil.copytree(ROOT / "python" / "leskwyn", self.folder / "site" / "leskwyn")
        self.assert_wants_its_library_named(self.folder / "site")

    @unittest.skipUnless(all(map(importlib.util.find_spec, ("pip", "setuptools", "wheel"))), "no pip, setuptools or wheel")
    def test_a_package_that_pip_installs(self) -> None:
        source, site = self.folder / "python", self.folder / "site"
        source.mkdir()
        shutil.copy(ROOT / "python" / "pyproject.toml", source)
        shutil.copytree(ROOT / "python" / "leskwyn", source / "leskwyn")
        done = subprocess.run([sys.executable, "-m", "pip", "install", "--no-index", "--no-build-isolation", "--no-deps",
                               "--target", site, source], capture_output=True, text=True, timeout=60)
        self.assertEqual(done.returncode, 0, done.stdout + done.stderr)
        self.assert_wants_its_library_named(site)
        told = subprocess.run([site / "bin" / "leskwyn", "--version"], capture_output=True, timeout=20,
                              env={**ENVIRONMENT, "PYTHONPATH": str(site)})
        self.assertEqual((told.returncode, told.stdout.decode()), (0, f"leskwyn (Leskwyn) {leskwyn.__version__}\n"), told.stderr)

    def test_interrupted(self) -> None:
        """While standard input is waited for; where the tests themselves run in the background, the interrupt is let through."""
        with subprocess.Popen([*LESKWYN, "compare", "-"], stdin=subprocess.PIPE, stdout=subprocess.PIPE, stderr=subprocess.PIPE,
                              env={**ENVIRONMENT, "PYTHONUNBUFFERED": "1"}, cwd=self.folder,
                              preexec_fn=lambda: signal.signal(signal.SIGINT, signal.SIG_DFL)) as process:
            process.stdin.write(b"(A,")
            process.stdin.flush()
            time.sleep(1)
            process.send_signal(signal.SIGINT)
            output, message = process.communicate(timeout=20)
        self.assertEqual((process.returncode, output, message), (130, b"", b"leskwyn: interrupted\n"))

    def test_an_old_python(self) -> None:
        told = ("import runpy, sys; sys.version_info = (3, 8, 18); sys.argv = ['-m'] + sys.argv[1:]; "
                "runpy.run_module('leskwyn', run_name='__main__')")
        done = subprocess.run([sys.executable, "-B", "-c", told, "compare"], capture_output=True, env=ENVIRONMENT, timeout=20)
        self.assertEqual((done.returncode, done.stdout, done.stderr),
                         (2, b"", b"leskwyn: Python 3.10 or newer is needed; this is Python 3.8\n"))
        told = "import sys; sys.version_info = (3, 8, 18); sys.argv = ['x.py']; import leskwyn"
        done = subprocess.run([sys.executable, "-B", "-c", told], capture_output=True, env=ENVIRONMENT, timeout=20)
        self.assertIn(b"ImportError: leskwyn needs Python 3.10 or newer; this is Python 3.8", done.stderr)

    def test_what_an_old_python_reads(self) -> None:
        """The two files that it meets have no syntax that came with Python 3."""
        for name in ("__init__.py", "__main__.py"):
            text = (ROOT / "python" / "leskwyn" / name).read_text(encoding="utf-8")
            self.assertTrue(text.isascii())
            self.assertNotRegex(text, r"\bf['\"]|->|: (?:str|int)\b|:=|\bmatch ")


class Pages(unittest.TestCase):
    """The examples of the pages are what the commands print."""

    def examples(self, page: str) -> list[tuple[str, str]]:
        """Each indented command line that runs bin/leskwyn, with the fenced block that follows it."""
        text = (ROOT / page).read_text(encoding="utf-8")
        return re.findall(r"^    bin/(leskwyn\b[^\n]*)\n(?:\n|[^`\n ][^\n]*\n)+?```\w*\n(.*?)^```$", text, re.M | re.S)

    def assert_examples(self, page: str, fewest: int) -> None:
        found = self.examples(page)
        self.assertGreaterEqual(len(found), fewest)
        with tempfile.TemporaryDirectory() as folder:
            os.symlink(ROOT / "examples", pathlib.Path(folder) / "examples")
            for command, block in found:
                with self.subTest(page=page, command=command):
                    done = run_leskwyn(*shlex.split(command)[1:], cwd=folder)
                    self.assertEqual(block, done.stdout.decode() or done.stderr.decode())

    def test_commands_page(self) -> None:
        self.assert_examples("docs/COMMANDS.md", 6)

    def test_weighted_lines(self) -> None:
        """The lines that docs/COMMANDS.md shows of a longer text."""
        page = (ROOT / "docs" / "COMMANDS.md").read_text(encoding="utf-8")
        shown = re.findall(r"^    (?:normalised )?weighted distance .*$", page, re.M)
        done = run_leskwyn("compare", "examples/feathers.nwk", "examples/wings.nwk", "--weight", "1/2")
        self.assertEqual([line[4:] for line in shown], [line for line in done.stdout.decode().split("\n") if "weighted" in line])

    def test_refusals_on_the_commands_page(self) -> None:
        """The lines of 6 and 31 for P with another label at node 6, and that of 32 for P and Q."""
        page = " ".join((ROOT / "docs/COMMANDS.md").read_text(encoding="utf-8").split())
        with tempfile.TemporaryDirectory() as folder:
            for label, struck, told in ((5, "0", "refused 6: pair.bin: first tree: "),
                                        (4, "0", "refused 31: pair.bin: first tree: "), (3, "7", "refused 32: pair.bin: ")):
                (pathlib.Path(folder) / "pair.bin").write_bytes(packed(P[:16] + [label] + P[17:], Q))
                message = run_leskwyn("compare", "pair.bin", "--strike", struck, cwd=folder).stderr.decode()
                self.assertTrue(message.startswith(f"leskwyn: {told}"), message)
                self.assertIn(f"`{message.rstrip()}`", page)

    def test_struck_names_on_the_commands_page(self) -> None:
        """What matrix says of them."""
        page = (ROOT / "docs/COMMANDS.md").read_text(encoding="utf-8")
        message = run_leskwyn("matrix", "examples/feathers.nwk", "examples/wings.nwk", "--strike", "Foula").stderr.decode()
        self.assertIn(f"`{message.rstrip()}`", page)

    def test_same_on_the_commands_page(self) -> None:
        """The exit statuses: feathers and wings differ, and without Coll they are the same."""
        told = [run_leskwyn(*shlex.split(command)[1:]).returncode for command, _ in self.examples("docs/COMMANDS.md")
                if command.startswith("leskwyn same ")]
        self.assertEqual(told, [1, 0])

    def test_copies_on_the_commands_page(self) -> None:
        """Feathers and wings without Azores, by the names that they keep together; the words are those of P."""
        text, words, again = [block for command, block in self.examples("docs/COMMANDS.md") if command.startswith("leskwyn copy ")]
        feathers, wings = ([frozenset(pair.split()) for pair in pairs] for pairs in (["Bute Coll", "Lundy Texel"],
                                                                                     ["Coll Foula", "Lundy Texel"]))
        self.assertEqual((text, again), tuple(copy_text(sides, NAMES[1:]) + "\n" for sides in (feathers, wings)))
        self.assertEqual(list(map(int, words.split())), P)
        page = (ROOT / "docs/COMMANDS.md").read_text(encoding="utf-8")
        for struck in (NAMES[:1], NAMES[1:]):
            message = run_leskwyn("copy", "examples/wings.nwk", *(f"--strike={name}" for name in struck)).stderr.decode()
            self.assertIn(f"`{message.rstrip()}`", page)

    def test_pass_through_notes_on_the_commands_page(self) -> None:
        """What table says of a tree with one pass-through node, and of one with too many."""
        page = " ".join((ROOT / "docs/COMMANDS.md").read_text(encoding="utf-8").split())
        with tempfile.TemporaryDirectory() as folder:
            (pathlib.Path(folder) / "both.nwk").write_text(f"((A),B,C);({'(' * 9}A{')' * 9},B,C);")
            notes = run_leskwyn("table", "both.nwk", "-o", "pair.bin", "--quiet", cwd=folder).stderr.decode().splitlines()
        self.assertEqual(len(notes), 2)
        for note in notes:
            self.assertIn(f"`{note}`", page)

    def test_readme(self) -> None:
        self.assert_examples("README.md", 2)

    def test_python_examples(self) -> None:
        text = (ROOT / "docs" / "COMMANDS.md").read_text(encoding="utf-8")
        blocks = "\n".join(re.findall(r"^```python\n(.*?)^```$", text, re.M | re.S))
        modules = [("docs/COMMANDS.md", blocks), ("leskwyn", leskwyn.__doc__),
                   *((name, getattr(leskwyn, name).__doc__)
                     for name in ("compare", "matrix", "why", "influence", "canonical_copy", "same", "exchange_tallies",
                                  "exchange_distance", "view", "view_topology", "three_trees", "nearest"))]
        runner = doctest.DocTestRunner(verbose=False)
        with inside(ROOT), contextlib.redirect_stdout(io.StringIO()) as said:
            for name, content in modules:
                runner.run(doctest.DocTestParser().get_doctest(content, {"leskwyn": leskwyn}, name, None, 0))
        self.assertGreaterEqual(runner.tries, 8)
        self.assertEqual(runner.failures, 0, said.getvalue())

    def test_every_key_is_told(self) -> None:
        text = (ROOT / "docs" / "COMMANDS.md").read_text(encoding="utf-8")
        self.assertEqual(re.findall(r"^\| `(\w+)` \|(?:.*\|){2}$", text.split("## Keys\n")[1].split("\n## ")[0], re.M),
                         [*KEYS, *WEIGHTED_KEYS, *STRUCK_KEYS])

    def test_every_key_of_why_is_told(self) -> None:
        text = (ROOT / "docs" / "COMMANDS.md").read_text(encoding="utf-8")
        fields = [field.name for answer in (leskwyn.Evidence, leskwyn.Witness) for field in dataclasses.fields(answer)]
        self.assertEqual(re.findall(r"^\| `(\w+)` \|.*\|$", text.split("## why\n")[1].split("\n## ")[0], re.M), fields)


if __name__ == "__main__":
    skips.main()
