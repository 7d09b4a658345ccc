#!/usr/bin/env python3
"""Tests of the program compare and of bin/compare, with expected bytes worked out from docs/SPECIFICATION.md alone.

    python3 tests/compare_tests.py                            the program is target/bin/compare
    LESKWYN_COMPARE=FILE python3 tests/compare_tests.py       the program is FILE

Nothing is built here: `tools/build check compare` does that. Nothing here knows how the program works: every file is cut and
checked rule by rule, every set of four is looked up edge by edge, claims are listed one by one, splits are sets of
labels, and of every set of three the lowest common ancestors are looked up. The refusal of one table, and above 16 tips
the count of the sets of four by pairs, are those of cases/. bin/compare is tried in cases/house, with an rt that proves
nothing; its first use is for tests/first_use_tests.py.
"""
import itertools
import os
import pathlib
import random
import signal
import subprocess
import sys
import tempfile
import time
import tty
import unittest
from collections.abc import Iterable, Iterator
from math import comb
from typing import Any

sys.dont_write_bytecode = True
from cases import skips
from cases.house import PROGRAM, ROOT, SECONDS, Done, House
from cases.quartets import cases_by_pairs
from cases.shapes import (balanced, caterpillar, chain_places, chained, randomly_chained, related_pair, star, unrelated_pair,
                          with_chains, with_labels_exchanged)
from cases.tables import LABEL_TROUBLE, NUMBERS, OUTSIDE, PASS_THROUGH, P, Q, R, THREE, TWO, W, X, damaged, table, tree_refusal

MOST_BYTES = 1016
ENUMERATED = 16  # the most tips for which every set of four and every claim is looked at

# docs/SPECIFICATION.md, 'Reference pairs': S S' S2 S3, A B C D E, distance, splits, triplets.
REFERENCE_PAIRS = {
    "K1": (P, Q, "10 6 6 0", "3 0 2 0 0", "2", "2 1 1 1", "3 0 1 0 0"),
    "K2": (P, R, "10 10 6 8", "3 2 0 0 0", "2", "2 2 1 2", "2 2 0 0 0"),
    "K3": (Q, R, "6 10 2 8", "1 2 0 2 0", "4", "1 2 0 3", "1 2 0 1 0"),
    "K4": (P, P, "10 10 10 0", "5 0 0 0 0", "0", "2 2 2 0", "4 0 0 0 0"),
    "K5": (W, W, "0 0 0 0", "0 0 0 0 5", "0", "0 0 0 0", "0 0 0 0 4"),
    "K6": (P, W, "10 0 0 0", "0 0 5 0 0", "5", "2 0 0 2", "0 0 4 0 0"),
    "K7": (W, P, "0 10 0 0", "0 0 0 5 0", "5", "0 2 0 2", "0 0 0 4 0"),
    "K8": (TWO, TWO, "0 0 0 0", "0 0 0 0 0", "0", "0 0 0 0", "0 0 0 0 0"),
    "K9": (THREE, THREE, "0 0 0 0", "0 0 0 0 0", "0", "0 0 0 0", "0 0 0 0 0"),
}

# Documents 004 and 000, and trees of mixed shape.
MIXED, EVEN = OUTSIDE[5], OUTSIDE[4]
OUTSIDE_PAIRS = {
    "document 004": (*OUTSIDE[0:2], "30 30 16 28", "8 7 0 0 0", "7", "3 3 1 4", "5 5 0 0 0"),
    "document 000": (*OUTSIDE[2:4], "140 140 70 140", "35 35 0 0 0", "35", "5 5 0 10", "20 15 0 0 0"),
    "1 and 5 exchanged": (EVEN, with_labels_exchanged(EVEN, 1, 5), "140 140 48 184", "24 46 0 0 0", "46", "5 5 1 8",
                          "12 23 0 0 0"),
    "mixed degrees": (MIXED, EVEN, "102 140 58 88", "29 22 0 19 0", "41", "2 5 0 7", "14 10 0 11 0"),
}

# docs/SPECIFICATION.md, 'The listing of P and Q'.
P_AND_Q = b"leaves 5\nclaims 10 6 6 0\nquartets 3 0 2 0 0\ndistance 2\nsplits 2 1 1 1\ntriplets 3 0 1 0 0\n"


def packed(*tables: list[int]) -> bytes:
    return b"".join(word.to_bytes(2, "little") for t in tables for word in t)


def changed(t: list[int], at: int, word: int) -> list[int]:
    return t[:at] + [word] + t[at + 1:]


# ---- the refusals of a file, in their order

def cut(content: bytes) -> tuple[list[int], list[int]]:
    """The words of the first tree, and those of the second."""
    words = [content[at] + 256 * content[at + 1] for at in range(0, len(content), 2)]
    end = 2 + 2 * words[1] if len(words) >= 2 else len(words)
    return words[:end], words[end:]


def refusal(content: bytes) -> int:
    if len(content) > MOST_BYTES:
        return 14
    if len(content) % 2 == 1:
        return 15
    first, second = cut(content)
    if tree_refusal(first):
        return tree_refusal(first)
    if tree_refusal(second):
        return 100 + tree_refusal(second)
    return 0 if first[0] == second[0] else 8


# ---- the figures of docs/SPECIFICATION.md; a set of labels is the bits of a number

def beyond(t: list[int]) -> list[int]:
    """For each node, the labels on its side of the edge to its parent; for node 0, all."""
    m = t[1]
    found = [0] * m
    for tip in range(m):
        if t[2 + m + tip] != X:
            node = tip
            while node:
                found[node] |= 1 << t[2 + m + tip]
                node = t[2 + node]
            found[0] |= 1 << t[2 + m + tip]
    return found


def claims(t: list[int]) -> Iterator[tuple[int, int, int]]:
    """T1 behind a directed edge, and each unordered pair of other subtrees at the node that it points to.

    Each term of the sums asks for two labels of T1: of large trees, claims with one label there are left out."""
    found, least = beyond(t), 1 if t[0] <= ENUMERATED else 2
    for node in range(t[1]):
        subtrees = [found[child] for child in range(1, t[1]) if t[2 + child] == node]
        if node:
            subtrees.append(found[0] & ~found[node])
        for i, behind in enumerate(subtrees):
            if behind.bit_count() >= least:
                for one, other in itertools.combinations(subtrees[:i] + subtrees[i + 1:], 2):
                    yield behind, one, other


def claim_sum(t: list[int]) -> int:
    return sum(comb(a.bit_count(), 2) * b.bit_count() * c.bit_count() for a, b, c in claims(t))


def pair_sums(t: list[int], u: list[int]) -> tuple[int, int]:
    """S2 by equation (1) and S3 by dcount of document 001: `ad` is the number of labels in T1 and T1', and so on."""
    same = different = 0
    others = list(claims(u))
    for a, b, c in claims(t):
        for d, e, f in others:
            ad, ae, af = (a & d).bit_count(), (a & e).bit_count(), (a & f).bit_count()
            bd, be, bf = (b & d).bit_count(), (b & e).bit_count(), (b & f).bit_count()
            cd, ce, cf = (c & d).bit_count(), (c & e).bit_count(), (c & f).bit_count()
            same += ad * (ad - 1) // 2 * (be * cf + bf * ce)
            different += ad * af * be * cd + ad * ae * bf * cd + ad * ae * bd * cf + ad * af * bd * ce
    return same, different


def partner(edges: list[int], four: int) -> int | None:
    """The label that an edge leaves with the smallest of four, the other two being beyond it or the other way round;
    None for a star."""
    smallest = four & -four
    for edge in edges:
        side = edge & four
        if side.bit_count() == 2:
            return (side if side & smallest else four & ~side) & ~smallest
    return None


def cases(t: list[int], u: list[int]) -> list[int]:
    """A B C D E, by every set of four."""
    counts = [0] * 5
    first, second = beyond(t), beyond(u)
    for labels in itertools.combinations(range(t[0]), 4):
        four = sum(1 << label for label in labels)
        one, other = partner(first, four), partner(second, four)
        if one and other:
            counts[0 if one == other else 1] += 1
        else:
            counts[2 if one else 3 if other else 4] += 1
    return counts


def splits(t: list[int]) -> set[frozenset[int]]:
    """The pairs of tip sets that an edge parts, with two labels or more in each."""
    found = beyond(t)
    parted = ({side, found[0] & ~side} for side in found[1:])
    return {frozenset(sides) for sides in parted if min(side.bit_count() for side in sides) >= 2}


def lowest_ancestors(t: list[int]) -> dict[tuple[int, int], int]:
    """The lowest common ancestor of every two labels of the rooted tree below tip 0."""
    m, climbs = t[1], {}
    for tip in range(1, m):
        if t[2 + m + tip] != X:
            climb = [tip]
            while climb[-1]:
                climb.append(t[2 + climb[-1]])
            climbs[t[2 + m + tip]] = climb
    pairs = itertools.combinations(range(1, t[0]), 2)
    return {(a, b): next(node for node in climbs[a] if node in climbs[b]) for a, b in pairs}


def label_apart(lowest: dict[tuple[int, int], int], below: list[int], a: int, b: int, c: int) -> int | None:
    """Of three labels the one that is not below the lowest common ancestor of the other two; None if there is none."""
    for pair, third in (((a, b), c), ((a, c), b), ((b, c), a)):
        if not below[lowest[pair]] >> third & 1:
            return third
    return None


def triplets(t: list[int], u: list[int]) -> list[int]:
    """A B C D E, by every set of three of the labels but 0."""
    counts = [0] * 5
    first, second = (lowest_ancestors(t), beyond(t)), (lowest_ancestors(u), beyond(u))
    for three in itertools.combinations(range(1, t[0]), 3):
        one, other = label_apart(*first, *three), label_apart(*second, *three)
        if one and other:
            counts[0 if one == other else 1] += 1
        else:
            counts[2 if one else 3 if other else 4] += 1
    return counts


def listing(content: bytes) -> bytes:
    """The bytes that the program prints."""
    number = refusal(content)
    if number:
        return b"refused %d\n" % number
    t, u = cut(content)
    five = cases(t, u) if t[0] <= ENUMERATED else cases_by_pairs(t, u)
    one, other = splits(t), splits(u)
    lines = {"leaves": [t[0]], "claims": [claim_sum(t), claim_sum(u), *pair_sums(t, u)], "quartets": five,
             "distance": [sum(five[1:4])], "splits": [len(one), len(other), len(one & other), len(one ^ other)],
             "triplets": triplets(t, u)}
    return "".join(" ".join([word, *map(str, numbers)]) + "\n" for word, numbers in lines.items()).encode()


# ---- the program

def setUpModule() -> None:
    if not os.access(PROGRAM, os.X_OK) or PROGRAM.is_dir():
        sys.exit(f"compare_tests: there is no program {PROGRAM}; `tools/build check compare` builds target/bin/compare")


CANNOT_READ = b"compare: cannot read standard input\n"
CANNOT_WRITE = b"compare: cannot write to standard output\n"


def breaks_after(content: bytes) -> int:
    """A descriptor that gives these bytes, and then fails: a terminal whose other end is closed."""
    own, other = os.openpty()
    tty.setraw(other)
    os.write(other, content)
    os.close(other)
    return own


def pieces_of(content: bytes, lengths: list[int]) -> Iterator[bytes]:
    at = 0
    for length in itertools.cycle(lengths):
        if at >= len(content):
            return
        yield content[at:at + length]
        at += length


def run_in_pieces(command: list[pathlib.Path | str], pieces: Iterable[bytes], pause: float,
                  **given: Any) -> tuple[bytes, bytes, int]:
    """What a run prints and says, and its status, with standard input a pipe that gets the pieces one by one."""
    run = subprocess.Popen(command, stdin=subprocess.PIPE, stdout=subprocess.PIPE, stderr=subprocess.PIPE, bufsize=0,
                           **given)
    with run:
        try:
            for piece in pieces:
                run.stdin.write(piece)
                time.sleep(pause)
        except BrokenPipeError:
            pass  # it may stop reading once there are too many bytes
        printed, said = run.communicate(timeout=SECONDS)
    return printed, said, run.returncode


def without_a_reader() -> int:
    """The writing end of a pipe that nobody reads."""
    reader, writer = os.pipe()
    os.close(reader)
    return writer


class ProgramTest(unittest.TestCase):
    def assert_prints(self, expected: bytes, content: bytes, note: str | None = None) -> None:
        done = subprocess.run([PROGRAM], input=content, capture_output=True, timeout=SECONDS)
        self.assertEqual((done.stdout, done.stderr, done.returncode), (expected, b"", 0), note or content.hex())

    def assert_listed(self, content: bytes, note: str | None = None) -> None:
        self.assert_prints(listing(content), content, note)

    def assert_refused(self, number: int, content: bytes, note: str | None = None) -> None:
        """The number is the one that is wanted, and the rules as they stand here give it too."""
        self.assertEqual(refusal(content), number, note or content.hex())
        self.assert_prints(b"refused %d\n" % number, content, note)


def printed_lines(t: list[int], figures: Iterable[str]) -> bytes:
    """The listing of a pair, t being its first table, with figures as REFERENCE_PAIRS has them."""
    words = ["claims", "quartets", "distance", "splits", "triplets"]
    lines = [f"leaves {t[0]}"] + [f"{word} {numbers}" for word, numbers in zip(words, figures, strict=True)]
    return ("\n".join(lines) + "\n").encode()


class Figures(ProgramTest):
    def assert_figures(self, pairs: dict[str, tuple]) -> None:
        for mark, (t, u, *figures) in pairs.items():
            expected = printed_lines(t, figures)
            self.assertEqual(listing(packed(t, u)), expected, mark)
            self.assert_prints(expected, packed(t, u), mark)

    def test_p_and_q_as_they_are_printed(self) -> None:
        self.assert_prints(P_AND_Q, packed(P, Q))

    def test_reference_pairs(self) -> None:
        self.assert_figures(REFERENCE_PAIRS)

    def test_outside_pairs(self) -> None:
        self.assert_figures(OUTSIDE_PAIRS)

    def test_all_pairs_of_the_tables_with_equal_tips(self) -> None:
        tables = [P, Q, R, W, TWO, THREE] + OUTSIDE
        for t, u in itertools.product(tables, repeat=2):
            if t[0] == u[0]:
                self.assert_listed(packed(t, u))

    def test_random_pairs(self) -> None:
        rng = random.Random(71)
        for k in range(300):
            n = 2 + k % 12
            self.assert_listed(packed(*(related_pair(rng, n) if k % 3 else unrelated_pair(rng, n))))


class PassThrough(ProgramTest):
    """Inner nodes with one child change nothing of what is printed."""

    def assert_unchanged(self, expected: bytes, t: list[int], u: list[int], note: str) -> None:
        self.assertEqual((refusal(packed(t, u)), listing(packed(t, u))), (0, expected), note)
        self.assert_prints(expected, packed(t, u), note)

    def test_reference_pairs_and_outside_pairs(self) -> None:
        """K1 to K9 with pass-through nodes in the first tree, in the second, and in both, up to m = 4n."""
        rng, places = random.Random(79), set()
        for mark, (t, u, *figures) in {**REFERENCE_PAIRS, **OUTSIDE_PAIRS}.items():
            expected = printed_lines(t, figures)
            self.assertEqual(listing(packed(t, u)), expected, mark)
            for _ in range(6):
                first, second = randomly_chained(rng, t), randomly_chained(rng, u)
                places |= chain_places(first) | chain_places(second)
                for pair in ((first, u), (t, second), (first, second)):
                    self.assert_unchanged(expected, *pair, mark)
        self.assertEqual(places, {"node 1", "tip", "inner node", "chain"})

    def test_tables_of_the_cases(self) -> None:
        for (t, plain), (u, other) in itertools.product(PASS_THROUGH, repeat=2):
            if t[0] == u[0]:
                self.assert_unchanged(listing(packed(plain, other)), t, u, f"{t} {u}")
        two = PASS_THROUGH[-1][0]
        self.assertEqual(two[:2], [2, 8])
        self.assert_unchanged(printed_lines(TWO, REFERENCE_PAIRS["K8"][2:]), two, two, "K8")

    def test_a_chain_above_each_node(self) -> None:
        """Each edge of P in turn becomes a chain: one split more would show, and one that is not found in both."""
        rng = random.Random(80)
        for node, length in itertools.product(range(1, P[1]), (1, 2, 12)):
            t = with_chains(rng, P, [node] * length)
            for mark, u in (("K1", Q), ("K2", R), ("K4", P), ("K4", t), ("K6", W)):
                self.assert_unchanged(printed_lines(P, REFERENCE_PAIRS[mark][2:]), t, u, f"{mark}, {length} above node {node}")

    def test_random_pairs(self) -> None:
        rng, sizes = random.Random(81), set()
        for k in range(200):
            n = 2 + k % 12
            plain = related_pair(rng, n) if k % 3 else unrelated_pair(rng, n)
            t, u = (randomly_chained(rng, one) for one in plain)
            self.assert_unchanged(listing(packed(*plain)), t, u, packed(t, u).hex())
            sizes |= {(n, t[1]), (n, u[1])}
        self.assertLessEqual({(n, 4 * n) for n in range(2, 14)}, sizes)


class Largest(ProgramTest):
    """Pairs of exactly 1016 bytes: m + m' = 252."""

    def assert_largest(self, t: list[int], u: list[int]) -> None:
        content = packed(t, u)
        self.assertEqual((t[1] + u[1], len(content), refusal(content)), (252, MOST_BYTES, 0))
        self.assert_listed(content, f"{t[0]} tips")

    def test_15625_cells(self) -> None:
        worm, even = caterpillar(64), balanced(64)
        self.assertEqual((worm[1] - 1) * (even[1] - 1), 15625)
        self.assert_largest(worm, even)
        self.assert_largest(even, with_labels_exchanged(worm, 3, 60))

    def test_most_tips(self) -> None:
        fan = star(125)
        self.assert_largest(fan, with_labels_exchanged(fan, 1, 124))
        expected = (f"leaves 125\nclaims 0 0 0 0\nquartets 0 0 0 0 {comb(125, 4)}\ndistance 0\nsplits 0 0 0 0\n"
                    f"triplets 0 0 0 0 {comb(124, 3)}\n")
        self.assert_prints(expected.encode(), packed(fan, fan))

    def test_a_large_and_a_small_table(self) -> None:
        worm, pair = caterpillar(84), table(84, 86, [0, 0, 1, 2, 2] + [1] * 81, [0, X, X, 7, 50] + [
            label for label in range(1, 84) if label not in (7, 50)])
        self.assert_largest(worm, pair)
        self.assert_largest(pair, worm)

    def test_pass_through_nodes(self) -> None:
        """4n nodes in the one table, and 126 in both, which makes 15625 cells."""
        rng = random.Random(82)
        for n, m in ((32, 128), (42, 168), (32, 126), (63, 126)):
            t, u = chained(rng, caterpillar(n), m), chained(rng, balanced(n), 252 - m)
            self.assert_largest(t, u)
            self.assert_largest(u, t)

    def test_a_byte_and_a_word_more(self) -> None:
        content = packed(caterpillar(64), balanced(64))
        self.assert_refused(14, content + b"\0")
        self.assert_refused(14, content + b"\0\0")
        self.assert_refused(15, content[:-1])
        self.assert_refused(104, content[:-2])

    def test_a_megabyte(self) -> None:
        self.assert_refused(14, bytes(1 << 20), "zeros")
        self.assert_refused(14, packed(P, Q) * (1 << 14), "P and Q again and again")
        self.assert_refused(14, bytes((1 << 20) + 1), "an odd number of zeros")


class Refusals(ProgramTest):
    """The edge cases of docs/SPECIFICATION.md, and each number of the comparing program."""

    def test_empty_input(self) -> None:
        self.assert_refused(1, b"")

    def test_number_of_tips(self) -> None:
        for n in (0, 1, 257, X):
            self.assert_refused(2, packed(changed(P, 0, n), Q))
            self.assert_refused(102, packed(Q, changed(P, 0, n)))
        self.assert_refused(2, packed([1, 1, 0, 0], TWO))
        self.assert_refused(102, packed(TWO, [1, 1, 0, 0]))

    def test_2_and_256_tips_pass_that_step(self) -> None:
        self.assert_listed(packed(TWO, TWO))
        self.assert_refused(3, packed([2, 1, 0, 0]))
        self.assert_refused(103, packed(TWO, [2, 9, 0, 0, 1, 2, 3, 4, 5, 6, 7, 0, *[X] * 7, 1]))
        # no table of 256 tips fits in 1016 bytes: its number is that of its nodes or of its length
        self.assert_refused(3, packed([256, 255, 0, 0]))
        self.assert_refused(3, packed([256, 1025, 0, 0]))
        for m in (256, 510, 511, 1024):
            self.assert_refused(4, packed([256, m, 0, 0]))
        self.assert_refused(4, packed(star(256)[:MOST_BYTES // 2]))
        self.assert_refused(104, packed(TWO, caterpillar(256)[:MOST_BYTES // 2 - 6]))
        self.assert_refused(14, packed(star(256)))

    def test_number_of_nodes(self) -> None:
        for t in (P, Q, R, W, TWO, THREE):
            n = t[0]
            for m in (0, n - 1, 4 * n + 1, X):
                self.assert_refused(3, packed(changed(t, 1, m), P))
                self.assert_refused(103, packed(P, changed(t, 1, m)))
        # n to 4n pass that step
        for m in (5, 8, 9, 19, 20):
            self.assert_refused(4, packed([5, m, 0, 0]))
            self.assert_refused(104, packed(P, [5, m, 0, 0]))

    def test_a_word_too_many(self) -> None:
        # the words after the first table are the second tree's
        self.assert_refused(101, packed(P + [0]))
        self.assert_refused(102, packed(P + [0], Q))
        self.assert_refused(104, packed(Q, P + [0]))
        self.assert_refused(104, packed(P, Q, [7, 7]))

    def test_a_word_too_few(self) -> None:
        self.assert_refused(1, packed([5]))
        self.assert_refused(4, packed(P[:-1]))
        self.assert_refused(4, packed(P[:2]))
        self.assert_refused(101, packed(P))
        self.assert_refused(101, packed(P, [5]))
        self.assert_refused(104, packed(P, Q[:2]))
        self.assert_refused(104, packed(P, Q[:-1]))

    def test_every_length_of_p_and_q(self) -> None:
        content = packed(P, Q)
        for length in range(len(content)):
            self.assert_listed(content[:length])

    def test_parents(self) -> None:
        for t in (changed(P, 2, 1), changed(P, 3, 1), changed(P, 4, 0), changed(P, 4, 2), changed(P, 9, 7),
                  changed(P, 9, X)):
            self.assert_refused(5, packed(t, Q))
            self.assert_refused(105, packed(Q, t))

    def test_labels(self) -> None:
        for t in (changed(P, 10, 1), changed(P, 10, X), changed(P, 17, 5), changed(P, 17, X - 1)):
            self.assert_refused(6, packed(t, Q))
            self.assert_refused(106, packed(Q, t))
        for t in (changed(P, 17, 3), changed(P, 17, 0), changed(P, 17, X), changed(P, 13, 1)):
            self.assert_refused(31, packed(t, Q))
            self.assert_refused(131, packed(Q, t))

    def test_label_trouble(self) -> None:
        for t, number in LABEL_TROUBLE:
            self.assert_refused(number, packed(t, Q))
            self.assert_refused(100 + number, packed(Q, t))

    def test_children(self) -> None:
        none = table(5, 7, [0, 0, 1, 1, 1, 1, 1], [0, X, 1, 2, 3, 4, X])
        none_in_a_chain = table(5, 8, [0, 0, 1, 1, 1, 1, 1, 6], [0, X, 1, 2, 3, 4, X, X])
        tip_with_one = changed(W, 7, 4)
        for t in (none, none_in_a_chain, tip_with_one, changed(P, 6, 2), changed(P, 9, 6), changed(changed(P, 11, 1), 12, X)):
            self.assert_refused(7, packed(t, Q))
            self.assert_refused(107, packed(Q, t))
        one = table(5, 8, [0, 0, 1, 1, 3, 4, 4, 4], [0, X, 1, X, X, 2, 3, 4])
        self.assert_prints(listing(packed(Q, Q)), packed(one, Q))

    def test_different_numbers_of_tips(self) -> None:
        for t, u in itertools.permutations([P, TWO, THREE, OUTSIDE[0], OUTSIDE[2]], 2):
            self.assert_refused(8, packed(t, u))

    def test_the_first_tree_decides_before_the_second(self) -> None:
        bad = {2: changed(P, 0, 1), 5: changed(P, 2, 1), 6: changed(P, 10, 1), 31: changed(P, 17, 3), 7: changed(P, 6, 2)}
        for (number, t), u in itertools.product(bad.items(), bad.values()):
            self.assert_refused(number, packed(t, u))
        self.assert_refused(103, packed(THREE, changed(P, 1, 4)))

    def test_odd_numbers_of_bytes(self) -> None:
        content = packed(P, Q)
        for odd in (b"\0", b"\5", content[:-1], content + b"\0", content[:35], bytes(1015)):
            self.assert_refused(15, odd)

    def test_too_many_bytes_come_before_an_odd_number(self) -> None:
        for length in (1017, 1018, 1019, 2048):
            self.assert_refused(14, bytes(length))
        self.assert_refused(2, bytes(1016))

    def test_bytes_are_read_low_byte_first(self) -> None:
        self.assert_refused(2, b"".join(word.to_bytes(2, "big") for word in P + Q))

    def test_damaged_tables(self) -> None:
        numbers = set()
        for t, u in itertools.product([P, Q, W, THREE, MIXED], repeat=2):
            for broken in damaged(t):
                numbers |= {refusal(packed(broken, u)), refusal(packed(u, broken))}
                self.assert_listed(packed(broken, u))
                self.assert_listed(packed(u, broken))
        # damage of the first tree that shortens or lengthens it moves the cut, and the number with it
        self.assertEqual(numbers, {2, 3, 5, 6, 31, 7, *(100 + number for number in NUMBERS)})

    def test_random_damage(self) -> None:
        rng, numbers = random.Random(73), set()
        for k in range(500):
            content = bytearray(packed(*related_pair(rng, 2 + k % 9)))
            for _ in range(rng.choice([0, 1, 1, 1, 2, 3])):
                at = 2 * rng.randrange(len(content) // 2)
                content[at:at + 2] = rng.choice([0, 1, 2, 3, 4, 5, 6, 7, 8, 9, 256, X]).to_bytes(2, "little")
            if k % 5 == 0:
                content = content[:rng.randrange(len(content) + 1)]
            if k % 7 == 0:
                content += rng.randbytes(rng.choice([1, 2, 4, 1000]))
            numbers.add(refusal(content))
            self.assert_listed(bytes(content))
        self.assertLessEqual({0, *range(2, 8), 31, *range(101, 107), 131, 14, 15}, numbers)


class Pipes(ProgramTest):
    """Standard input that comes in pieces."""

    def assert_in_pieces(self, expected: bytes, pieces: Iterable[bytes], pause: float) -> None:
        self.assertEqual(run_in_pieces([PROGRAM], pieces, pause), (expected, b"", 0))

    def test_byte_by_byte(self) -> None:
        self.assert_in_pieces(P_AND_Q, pieces_of(packed(P, Q), [1]), 0.002)
        self.assert_in_pieces(b"refused 15\n", pieces_of(packed(P, Q)[:-1], [1]), 0.002)

    def test_odd_pieces(self) -> None:
        self.assert_in_pieces(P_AND_Q, pieces_of(packed(P, Q), [1, 3, 7, 5]), 0.02)
        self.assert_in_pieces(P_AND_Q, pieces_of(packed(P, Q), [35, 33]), 0.2)

    def test_the_largest_file_in_pieces(self) -> None:
        content = packed(caterpillar(64), balanced(64))
        self.assert_in_pieces(listing(content), pieces_of(content, [1, 2, 3, 5, 8, 13, 21, 34]), 0.002)
        self.assert_in_pieces(listing(content), pieces_of(content, [511, 505]), 0.1)
        self.assert_in_pieces(b"refused 14\n", pieces_of(content + b"\0", [1016, 1]), 0.1)
        self.assert_in_pieces(b"refused 14\n", pieces_of(content + bytes(99), [100]), 0.01)

    def test_a_late_first_byte_and_a_late_end(self) -> None:
        self.assert_in_pieces(P_AND_Q, [b"", packed(P, Q), b""], 0.2)
        self.assert_in_pieces(b"refused 1\n", [b""], 0.2)

    def test_a_file_and_no_device(self) -> None:
        with tempfile.TemporaryFile() as file:
            file.write(packed(P, Q))
            file.seek(0)
            self.assertEqual(subprocess.run([PROGRAM], stdin=file, stdout=subprocess.PIPE).stdout, P_AND_Q)
        done = subprocess.run([PROGRAM], stdin=subprocess.DEVNULL, stdout=subprocess.PIPE)
        self.assertEqual(done.stdout, b"refused 1\n")


class Failures(ProgramTest):
    """A read or a write that fails: a line on standard error, and never a listing of half a file."""

    def run_on(self, stdin: int | None = None, stdout: int | None = None, **given: Any) -> Done:
        """A run on descriptors that are closed here afterwards; without a standard output it is taken in."""
        stdin = stdin if stdin is not None else self.whole_file()
        done = subprocess.run([PROGRAM], stdin=stdin, stdout=subprocess.PIPE if stdout is None else stdout,
                              stderr=subprocess.PIPE, timeout=SECONDS, **given)
        for descriptor in (stdin, stdout):
            if descriptor is not None:
                os.close(descriptor)
        return done

    def whole_file(self) -> int:
        return os.open(ROOT / "examples" / "p-q.bin", os.O_RDONLY)

    def assert_unread(self, done: Done) -> None:
        self.assertEqual((done.stdout, done.stderr, done.returncode), (b"", CANNOT_READ, 0))

    def assert_unwritten(self, done: Done) -> None:
        self.assertEqual((done.stdout or b"", done.stderr, done.returncode), (b"", CANNOT_WRITE, 0))

    def test_a_folder_as_standard_input(self) -> None:
        self.assert_unread(self.run_on(os.open(ROOT, os.O_RDONLY)))

    def test_standard_input_closed(self) -> None:
        self.assert_unread(self.run_on(preexec_fn=lambda: os.close(0)))

    def test_standard_input_open_for_writing_only(self) -> None:
        self.assert_unread(self.run_on(os.open(os.devnull, os.O_WRONLY)))

    def test_a_read_that_fails_after_some_bytes(self) -> None:
        content = packed(P, Q)
        for length in (0, 1, 34, 36, 67, 68):
            self.assert_unread(self.run_on(breaks_after(content[:length])))
        self.assert_unread(self.run_on(breaks_after(packed(caterpillar(64), balanced(64)))))

    def test_a_file_that_is_too_long_is_not_read_further(self) -> None:
        done = self.run_on(breaks_after(bytes(1017)))
        self.assertEqual((done.stdout, done.stderr, done.returncode), (b"refused 14\n", b"", 0))

    def test_standard_output_closed(self) -> None:
        self.assert_unwritten(self.run_on(preexec_fn=lambda: os.close(1)))

    def test_standard_output_open_for_reading_only(self) -> None:
        self.assert_unwritten(self.run_on(stdout=os.open(os.devnull, os.O_RDONLY)))

    @unittest.skipUnless(os.path.exists("/dev/full"), "there is no full device")
    def test_a_full_device(self) -> None:
        self.assert_unwritten(self.run_on(stdout=os.open("/dev/full", os.O_WRONLY)))

    def test_a_pipe_that_is_closed_early(self) -> None:
        """The program ignores the signal, whether or not its caller does."""
        for restored in (True, False):
            self.assert_unwritten(self.run_on(stdout=without_a_reader(), restore_signals=restored))

    def test_nothing_can_be_said(self) -> None:
        for closed in (0, 1):
            done = self.run_on(preexec_fn=lambda: os.close(closed) or os.close(2))
            self.assertEqual((done.stdout, done.stderr, done.returncode), (b"", b"", 0))

    def test_a_run_that_is_stopped_and_continued(self) -> None:
        program = subprocess.Popen([PROGRAM], stdin=subprocess.PIPE, stdout=subprocess.PIPE, stderr=subprocess.PIPE,
                                   bufsize=0)
        with program:
            program.stdin.write(packed(P))
            for step in (signal.SIGSTOP, signal.SIGCONT):
                time.sleep(0.1)
                program.send_signal(step)
            time.sleep(0.1)
            printed, said = program.communicate(packed(Q), timeout=SECONDS)
        self.assertEqual((printed, said, program.returncode), (P_AND_Q, b"", 0))


# ---- bin/compare

class Wrapper(House):
    def test_a_file(self) -> None:
        self.assert_done(self.run_door(self.file("pair.bin", packed(P, R))), 0, listing(packed(P, R)))

    def test_names_with_blanks_and_signs(self) -> None:
        for name in ("two words.bin", " ", "a*b", "$HOME", "'", "\u00e9t\u00e9", "line\nbreak"):
            self.assert_done(self.run_door(self.file(name, packed(Q, R))), 0, listing(packed(Q, R)))
        self.assert_done(self.run_door("./" + self.file("-", packed(Q, R))), 0, listing(packed(Q, R)))

    def test_standard_input(self) -> None:
        self.assert_done(self.run_door("-", input=packed(W, P)), 0, listing(packed(W, P)))
        self.assert_done(self.run_door("-"), 1, b"refused 1\n")

    def test_standard_input_is_left_alone_without_the_sign(self) -> None:
        done = self.run_door(input=packed(W, P))
        self.assert_done(done, 0, P_AND_Q)
        self.assertIn(b"this is the example", done.stderr)
        self.assert_done(self.run_door(self.file("pair.bin", packed(P, R)), input=b"x"), 0, listing(packed(P, R)))

    def test_standard_input_that_is_closed_or_a_folder(self) -> None:
        self.assert_trouble(self.run_door("-", preexec_fn=lambda: os.close(0)), "standard input: it is closed")
        self.assert_done(self.run_door(preexec_fn=lambda: os.close(0)), 0, P_AND_Q)
        folder = os.open(self.folder, os.O_RDONLY)
        self.addCleanup(os.close, folder)
        self.assert_trouble(self.run_door("-", stdin=folder), "folder")

    def assert_one_line(self, done: Done, line: str) -> None:
        """Status 2, nothing on standard output, and this line alone on standard error."""
        self.assertEqual((done.returncode, done.stdout or b"", done.stderr.decode()), (2, b"", line + "\n"))

    def test_standard_input_that_fails(self) -> None:
        self.run_door()
        content = packed(P, Q)
        for length in (0, 34, 36, 68):
            own = breaks_after(content[:length])
            self.assert_one_line(self.run_door("-", stdin=own), "compare: cannot read standard input")
            os.close(own)
        with open(os.devnull, "wb") as unreadable:
            self.assert_one_line(self.run_door("-", stdin=unreadable), "compare: cannot read standard input")

    @unittest.skipUnless(os.path.exists("/proc/self/mem"), "there is no file whose first byte cannot be read")
    def test_a_file_that_fails(self) -> None:
        self.run_door()
        self.assert_one_line(self.run_door("/proc/self/mem"), "compare: cannot read /proc/self/mem")

    def test_standard_input_in_pieces(self) -> None:
        self.run_door()
        command, content = [self.house / "bin" / "compare", "-"], packed(P, Q)
        for lengths, pause in (([1], 0.002), ([34], 0.2), ([35, 33], 0.2)):
            done = run_in_pieces(command, pieces_of(content, lengths), pause, env=self.where)
            self.assertEqual(done, (P_AND_Q, b"", 0))

    def test_standard_output_that_cannot_be_written(self) -> None:
        self.run_door()
        pair = self.file("pair.bin", packed(P, Q))
        outputs = [without_a_reader(), os.open(os.devnull, os.O_RDONLY)]
        if os.path.exists("/dev/full"):
            outputs.append(os.open("/dev/full", os.O_WRONLY))
        for words in ([pair], ["--help"], ["--version"]):
            for output in outputs:
                self.assert_one_line(self.run_door(*words, stdout=output), "compare: cannot write to standard output")
            self.assert_one_line(self.run_door(*words, preexec_fn=lambda: os.close(1)),
                                 "compare: cannot write to standard output")
        for output in outputs:
            os.close(output)

    def test_refusals_have_status_1(self) -> None:
        for content in (b"", b"\0", packed(P), packed(P, THREE), bytes(2000)):
            self.assert_done(self.run_door(self.file("pair.bin", content)), 1, listing(content))

    def test_a_missing_file(self) -> None:
        for name in ("absent.bin", "", "no/such/folder"):
            self.assert_trouble(self.run_door(name), "no such file: " + name)
        self.assertEqual(self.built(), 0)

    def test_a_folder(self) -> None:
        self.assert_trouble(self.run_door("."), "folder")
        self.assertEqual(self.built(), 0)

    @unittest.skipIf(os.geteuid() == 0, "root can read every file")
    def test_an_unreadable_file(self) -> None:
        os.chmod(self.folder / self.file("pair.bin", packed(P, Q)), 0)
        self.assert_trouble(self.run_door("pair.bin"), "cannot read pair.bin")

    def test_two_arguments(self) -> None:
        pair = self.file("pair.bin", packed(P, Q))
        self.assert_trouble(self.run_door(pair, pair), "usage: compare [FILE]")

    def test_an_unknown_option(self) -> None:
        self.assert_trouble(self.run_door("--verbose"), "no option --verbose")

    def test_help(self) -> None:
        for option in ("-h", "--help"):
            done = self.run_door(option)
            self.assertEqual((done.returncode, done.stderr, self.built()), (0, b"", 0))
            for words in ("usage: compare [FILE]", "exit status: 0 compared; 1 refused; 2 wrong usage"):
                self.assertIn(words, done.stdout.decode())

    def test_another_folder_and_a_link(self) -> None:
        elsewhere = self.folder / "elsewhere"
        elsewhere.mkdir()
        self.file("elsewhere/pair.bin", packed(R, Q))
        self.assert_done(self.run_door("pair.bin", cwd=elsewhere), 0, listing(packed(R, Q)))
        self.assert_done(self.run_door("../elsewhere/pair.bin", cwd=self.house), 0, listing(packed(R, Q)))
        self.assert_done(self.run_door(cwd="/"), 0, P_AND_Q)
        (elsewhere / "linked").symlink_to(self.house / "bin" / "compare")
        self.assert_done(self.run_door(cwd=elsewhere, command="./linked"), 0, P_AND_Q)

    def test_a_program_that_breaks(self) -> None:
        self.run_door()
        program = self.house / "target" / "bin" / "compare"
        program.unlink()
        for body in ("exit 3", "echo leaf 5", "exit 0", "printf 'leaves 5\\nclaims 10 6'", "printf 'refused 1'",
                     "printf 'leaves 5\\nsplits 2 1 1 1\\n'"):
            program.write_text("#!/bin/sh\n" + body + "\n")
            program.chmod(0o755)
            self.assert_trouble(self.run_door(), "the program")
        program.write_text("#!/bin/sh\nprintf 'leaves 5\\ncl'\necho compare: cannot write to standard output >&2\n")
        self.assert_trouble(self.run_door(), "compare: cannot write to standard output\n")


class Readme(unittest.TestCase):
    """What README.md shows is what is printed."""

    README = (ROOT / "README.md").read_text(encoding="utf-8")

    def test_the_example_is_p_and_q(self) -> None:
        self.assertEqual((ROOT / "examples" / "p-q.bin").read_bytes(), packed(P, Q))
        self.assertIn(P_AND_Q.decode(), self.README)

    def test_from_newick_to_a_listing(self) -> None:
        trees = [ROOT / "examples" / name for name in ("feathers.nwk", "wings.nwk")]
        made = subprocess.run([sys.executable, "-B", "-m", "leskwyn", "table", *trees], capture_output=True,
                              env={**os.environ, "PYTHONPATH": str(ROOT / "python")})
        self.assertEqual(made.returncode, 0, made.stderr)
        printed = subprocess.run([PROGRAM], input=made.stdout, stdout=subprocess.PIPE).stdout
        self.assertEqual(printed, listing(made.stdout))
        for shown in (*(tree.read_text() for tree in trees), made.stderr.decode(), printed.decode()):
            self.assertIn(shown, self.README)

    def test_every_refusal_number_is_explained(self) -> None:
        section = self.README.partition("## Refusals\n")[2].partition("\n## ")[0]
        rows = [line.split("|")[1].strip() for line in section.splitlines() if line.startswith("|")]
        for number in (*map(str, range(1, 16)), "31", "101 to 107, 131"):
            self.assertEqual(rows.count(number), 1, number)


if __name__ == "__main__":
    skips.main()
