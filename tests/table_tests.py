#!/usr/bin/env python3
"""Tests of the commands table and show, and so of how Newick is read, with expected values worked out from
docs/SPECIFICATION.md alone.

    python3 tests/table_tests.py

Nothing here knows how the package works: a random tree is a set of edges, its splits come from walking over them, a
table's splits come from climbing its parent words, and the check of a table is that of cases/tables.py. No library is needed.
"""
import os
import pty
import random
import select
import subprocess
import sys
import time
import unittest
import unittest.mock
from collections.abc import Iterable

sys.dont_write_bytecode = True
from command_runs import ENVIRONMENT, LESKWYN, CommandTest, Run
from cases.newick import (Splits, Tree, caterpillar, random_names, random_tree, splits_from, star_text, with_pass_through,
                          written_tree)
from cases.shapes import chain_places, random_table, randomly_chained, renumbered
from cases.tables import LABEL_TROUBLE, NUMBERS, PASS_THROUGH, P, Q, R, THREE, TWO, W, X, table, tree_refusal
from leskwyn.newick import Source, read_trees
from leskwyn.tables import RULES, broken_rule, newick_text
from leskwyn.trees import table_of

SOON = 3  # seconds within which a text that is too large is refused, on a busy machine


# ---- tables

def packed(*tables: list[int]) -> bytes:
    return b"".join(word.to_bytes(2, "little") for table in tables for word in table)


def unpacked(content: bytes) -> list[int]:
    return [int.from_bytes(content[at:at + 2], "little") for at in range(0, len(content), 2)]


def two_tables(content: bytes) -> tuple[list[int], list[int]]:
    words = unpacked(content)
    size = 2 + 2 * words[1]
    return words[:size], words[size:]


def edge_sets(t: list[int]) -> list[list[int]]:
    """The labels beyond each edge, tip edges among them: equal for two tables of one tree, however numbered."""
    m = t[1]
    beyond: dict[int, set[int]] = {edge: set() for edge in range(1, m)}
    for tip in range(m):
        node = tip if t[2 + m + tip] != X else 0
        while node:
            beyond[node].add(t[2 + m + tip])
            node = t[2 + node]
    return sorted(sorted(labels) for labels in beyond.values())


def table_splits(t: list[int]) -> Splits:
    return splits_from(edge_sets(t), range(t[0]))


# ---- what show prints

def shown_splits(text: str, n: int) -> Splits:
    """The splits of show's Newick text: every pair of brackets is the side of an edge."""
    sides: list[list[int]] = []
    open_groups: list[list[int]] = []
    number = ""
    for c in text:
        if c.isdigit():
            number += c
            continue
        if number:
            for group in open_groups:
                group.append(int(number))
            number = ""
        if c == "(":
            open_groups.append([])
        elif c == ")":
            sides.append(open_groups.pop())
    assert not open_groups and sorted(sides[-1]) == list(range(n)), text
    return splits_from(sides, range(n))


def code_points(name: str) -> list[int]:
    return [ord(c) for c in name]


# ---- running the commands

class TableTest(CommandTest):
    def converted(self, text: bytes | str, *arguments: str, run: Run | None = None) -> tuple[list[int], list[int]]:
        """The two tables of a text with two trees; both keep every rule."""
        done = (run or self.run_here)("-", *arguments, stdin=text)
        self.assertEqual((done.returncode, done.stderr if done.returncode else b""), (0, b""))
        tables = two_tables(done.stdout)
        self.assertEqual([tree_refusal(table) for table in tables], [0, 0])
        return tables

    def assert_refused(self, arguments: Iterable[str], *words: str, stdin: bytes | str = b"", run: Run | None = None,
                       status: int = 1) -> None:
        """Refused both ways, to standard output and to a file, and no file comes to be."""
        before = self.contents()
        run = run or self.run_here
        self.assert_message(run(*arguments, stdin=stdin), status, *words)
        to_files = [*arguments, "-o", "out.bin", "--list", "list.txt"]
        self.assert_message(run(*to_files, stdin=stdin), status, *words)
        self.assertEqual(self.contents(), before)


class ReferenceTables(TableTest):
    def assert_same_tree(self, table: list[int], reference: list[int]) -> None:
        self.assertEqual(tree_refusal(table), 0)
        self.assertEqual(table[:2], reference[:2])
        self.assertEqual(edge_sets(table), edge_sets(reference))
        self.assertEqual(table_splits(table), table_splits(reference))

    def test_checker_accepts_the_reference_tables(self) -> None:
        self.assertEqual([tree_refusal(table) for table in (P, Q, R, W, TWO, THREE)], [0] * 6)
        self.assertEqual([len(table_splits(table)) for table in (P, Q, R, W, TWO, THREE)], [2, 1, 2, 0, 0, 0])

    def test_p_and_q(self) -> None:
        for p, q in (("(0,1,(2,(3,4)));", "(0,1,(2,3,4));"), ("(0,(1,(2,(3,4))));", "((0,1),2,3,4);"),
                     ("((0,1),(2,(3,4)));", "((4,2,3),(1,0));"), ("(((4,3),2),1,0);", "(2,3,4,(1,0));"),
                     ("((0,1),2,(3,4));", "(3,(4,2,(0,1)));"), ("(4,(3,(2,(1,0))));", "((3,2,4),1,0);"),
                     ("(3,4,((0,1),2));", "(((2,4,3),0),1);")):
            tables = self.converted(p + q)
            self.assert_same_tree(tables[0], P)
            self.assert_same_tree(tables[1], Q)

    def test_r_and_w(self) -> None:
        tables = self.converted("((0,2),(1,(3,4)));(4,2,0,1,3);")
        self.assert_same_tree(tables[0], R)
        self.assert_same_tree(tables[1], W)

    def test_bytes_where_depth_first_order_is_the_reference_numbering(self) -> None:
        done = self.run_command("-", "--quiet", stdin="(0,(1,(2,(3,4))));(0,1,(2,3,4));")
        self.assertEqual((done.returncode, done.stdout, done.stderr), (0, packed(P, Q), b""))

    def test_two_tips(self) -> None:
        for text in ("(A,B);(B,A);", "((A,B));(((B,A)));"):
            self.assertEqual(self.converted(text), (TWO, TWO))

    def test_three_tips(self) -> None:
        for text in ("(A,B,C);(A,(B,C));", "((A,B),C);((B,A),C);", "(B,A,C);((A,(B,C)));"):
            self.assertEqual(self.converted(text), (THREE, THREE))
        swapped = [3, 4, 0, 0, 1, 1, 0, X, 2, 1]
        self.assertEqual(self.converted("(C,B,A);(A,C,B);"), (swapped, swapped))


class NewickForms(TableTest):
    def names_of(self, text: str) -> list[str]:
        done = self.run_here("-", stdin=text)
        self.assertEqual(done.returncode, 0, done)
        lines = done.stderr.decode().removesuffix("\n").split("\n")
        self.assertEqual([line.split("\t", 1)[0] for line in lines], [str(i) for i in range(len(lines))])
        return [line.split("\t", 1)[1] for line in lines]

    def test_quoted_names(self) -> None:
        first = "('Cetti''s warbler','a(b)[c],:;','''');"
        second = "('''','Cetti''s warbler','a(b)[c],:;');"
        self.assertEqual(self.names_of(first + second), ["'", "Cetti's warbler", "a(b)[c],:;"])

    def test_underscores(self) -> None:
        self.assertEqual(self.names_of("(Parus_major,'Parus_minor');('Parus major','Parus_minor');"),
                         ["Parus major", "Parus_minor"])

    def test_quoted_and_plain_are_one_name(self) -> None:
        self.assertEqual(self.names_of("(A,B,C);('C','A',B);"), ["A", "B", "C"])

    def test_blanks_at_the_ends_of_a_quoted_name_count(self) -> None:
        self.assertEqual(self.names_of("('A ',A,' A');('A',' A',A_);"), [" A", "A", "A "])

    def test_a_line_break_in_a_name_keeps_the_list_in_lines(self) -> None:
        self.assertEqual(self.names_of("('A\nB',C);(C,'A\nB');"), ["A\\nB", "C"])

    def test_comments_lengths_and_supports(self) -> None:
        text = ("[&R] ( A[one]:0.1 , [two [three] ' ;] ( B : 1e-3[&x=1], C:-2 ) 95 : 0.5 [90])'inner, (name)':0 ;[z]\n"
                "((A,B)0.9,C:NA)root[;];\r\n")
        self.assertEqual(self.converted(text), (THREE, THREE))

    def test_line_breaks_and_byte_order_mark(self) -> None:
        self.assertEqual(self.converted("\ufeff\r\n(\r\nA\n,\tB\n:\n1\n,C\n)\nx\n;\n\n(A,B,C)\n;\n \n"), (THREE, THREE))

    def test_encodings_by_their_mark(self) -> None:
        text = "(Möwe,(Łódź,\U0001F426));\r\n(Łódź,Möwe,\U0001F426);\r\n"
        for encoding, mark in (("utf-8", b""), ("utf-8", b"\xef\xbb\xbf"), ("utf-16-le", b"\xff\xfe"),
                               ("utf-16-be", b"\xfe\xff"), ("utf-32-le", b"\xff\xfe\0\0"), ("utf-32-be", b"\0\0\xfe\xff")):
            done = self.run_here("-", stdin=mark + text.encode(encoding))
            self.assertEqual((done.returncode, done.stderr.decode()), (0, "0\tMöwe\n1\tŁódź\n2\t\U0001F426\n"))

    def test_a_mark_between_two_files(self) -> None:
        self.assertEqual(self.names_of("\ufeff(A,B);\n\ufeff(B,A);\n"), ["A", "B"])

    def test_double_quotes(self) -> None:
        self.assertEqual(self.names_of('("A b",\'A_b\',"say ""x"" it\'s");("A_b",A_b,\'say "x" it\'\'s\');'),
                         ["A b", "A_b", 'say "x" it\'s'])

    def test_decimal_points_beside_numbers_as_names(self) -> None:
        for text in ("(1:0,2:0,3:1);", "(A:1,'2','3');", "(A:1, 2,(3));", "(A:1.5,2,3);", "(A:1[x],2,3);", "(A:0,5x,B);",
                     "((1,2)100,3);", "((1,2)1,3);", "((A,B)0.95,3);", "((A,B)0:1,3:2,C);"):
            self.assertEqual(self.run_here("-", stdin=text * 2).returncode, 0, text)

    def test_deep_brackets(self) -> None:
        deep = 20000
        text = "(" * deep + "A" + ")" * deep
        self.assertEqual(self.converted(f"({text},B,C);{'(' * deep}A,B,C{')' * deep};"), (THREE, THREE))

    def test_deep_caterpillar(self) -> None:
        names = [f"t{i:03}" for i in range(256)]
        first = "(" * 255 + names[0] + "," + "".join(f"{name})," for name in names[1:-1]) + names[-1] + ");"
        second = "".join(f"({name}," for name in names[:-1]) + names[-1] + ")" * 255 + ";"
        tables = self.converted(first + second)
        beyond = sorted([list(range(i, 256)) for i in range(1, 256)] + [[i] for i in range(1, 255)])
        self.assertEqual([edge_sets(table) for table in tables], [beyond, beyond])


def note_of(place: str, count: int) -> str:
    return f"leskwyn: note: pass-through nodes written as they stand in standard input, {place} tree: {count}\n"


class PassThrough(TableTest):
    """Nodes with one child."""

    def assert_tables(self, text: str, first: list[int], second: list[int], notes: str, *arguments: str) -> None:
        """The two tables of a text, and all that is said besides the list of labels."""
        self.assertEqual([tree_refusal(first), tree_refusal(second)], [0, 0])
        done = self.run_here("-", "--quiet", *arguments, stdin=text)
        self.assertEqual((done.returncode, two_tables(done.stdout), done.stderr.decode()), (0, (first, second), notes), text)

    def test_inside_a_tree(self) -> None:
        """Above tips, above inner nodes, in chains, and above the tip labelled 0, where they are node 1 and the nodes after."""
        above_a_tip = table(3, 5, [0, 0, 1, 2, 1], [0, X, X, 1, 2])
        above_the_outgroup = table(3, 6, [0, 0, 1, 2, 3, 3], [0, X, X, X, 1, 2])
        self.assert_tables("(A,(B),C);(((A)),B,C);", above_a_tip, above_the_outgroup, note_of("first", 1) + note_of("second", 2))
        p = table(5, 13, [0, 0, 1, 2, 3, 1, 5, 6, 7, 7, 9, 10, 10], [0, X, X, X, 1, X, X, X, 2, X, X, 3, 4])
        q = table(5, 9, [0, 0, 1, 1, 3, 4, 4, 4, 7], [0, X, 1, X, X, 2, 3, X, 4])
        self.assert_tables("(0,((1)),(((2,((3,4)))x)y:1));(0,1,((2,3,(4):2)0.9:1));", p, q,
                           note_of("first", 5) + note_of("second", 2))

    def test_two_tips(self) -> None:
        one, six = PASS_THROUGH[-2][0], PASS_THROUGH[-1][0]
        for text in ("(A,(B));", "((A),B);"):
            self.assert_tables(text + "(A,B);", one, TWO, note_of("first", 1))
        for text in ("(A,((((((B)))))));", "(((((A)))),((B)));", "(((((((A)))))),B);"):
            self.assert_tables("(A,B);" + text, TWO, six, note_of("second", 6))

    def test_brackets_around_the_whole_tree_are_no_nodes(self) -> None:
        self.assert_tables("(((0,(1,(2,(3,4))))));((((0,1,(2,3,4))x):1)y);", P, Q, "")

    def test_the_place_of_the_root_is_no_node(self) -> None:
        """A tree with the root at a node, and in the midst of an edge: one table, but for the order of its branches."""
        expected = table(4, 8, [0, 0, 1, 2, 1, 4, 5, 5], [0, X, X, 1, X, X, 2, 3])
        for text in ("(0,(1),((2,3)));", "(0,((1),((2,3))));", "((0,(1)),((2,3)));", "(((1),((2,3))),0);",
                     "((0,((2,3))),(1));", "(((0,((2,3)))),1);", "(((0,(1))),(2,3));", "((2,3),((0,(1))));",
                     "(2,(3,((0,(1)))));", "((2,((0,(1)))),3);", "(2,3,(((1),0)));"):
            with self.subTest(text=text):
                first, second = self.converted(text * 2, "--quiet")
                self.assertEqual((first, first[:2], edge_sets(first)), (second, expected[:2], edge_sets(expected)))
        self.assert_tables("(0,(1),((2,3)));(0,((1),((2,3))));", expected, expected, note_of("first", 2) + note_of("second", 2))

    def test_too_many_for_a_table(self) -> None:
        """4n nodes are the most. Beyond them the tree has none of its pass-through nodes, and the other tree keeps its own."""
        above_a_tip = table(3, 5, [0, 0, 1, 1, 3], [0, X, 1, X, 2])
        most = table(3, 12, [0, 0, *range(1, 9), 9, 9], [0, *[X] * 9, 1, 2])
        for brackets, first, note in ((8, most, note_of("first", 8)),
                                      (9, THREE, "leskwyn: note: pass-through nodes left out of standard input, first tree: 9; "
                                                 "with them it has 13 nodes, and 4n = 12 are the most\n")):
            text = "(" * brackets + "A" + ")" * brackets
            for written in (f"({text},B,C);", f"({text},(B,C));", f"(({text},B,C));"):
                self.assert_tables(written + "(A,B,(C));", first, above_a_tip, note + note_of("second", 1))
        self.assert_tables("(A,(((((((B))))))));" + "((A),B);", TWO, PASS_THROUGH[-2][0],
                           "leskwyn: note: pass-through nodes left out of standard input, first tree: 7; with them it has 9 "
                           "nodes, and 4n = 8 are the most\n" + note_of("second", 1))

    def test_common(self) -> None:
        """What --common leaves with one child is taken out; what had one child before stands."""
        said = "leskwyn: left out of standard input, first tree: 'x'\n"
        one = table(3, 5, [0, 0, 1, 2, 2], [0, X, X, 1, 2])
        two = table(3, 6, [0, 0, 1, 2, 3, 3], [0, X, X, X, 1, 2])
        above_c = table(3, 5, [0, 0, 1, 1, 3], [0, X, 1, X, 2])
        for text, first, count in (("((A,x),B,C);", THREE, 0), ("((((A,x))),B,C);", two, 2), ("(((x,(A))),B,C);", two, 2),
                                   ("((x,((A))),B,C);", two, 2), ("((A),B,C,x);", one, 1), ("((A),B,C,((x)));", one, 1),
                                   ("((((A),((x)))),B,C);", two, 2), ("(A,(x,(B,C)));", THREE, 0),
                                   ("(x,(A,(B,C)));", THREE, 0), ("(x,((((A,B)),C)));", above_c, 1),
                                   ("(x,(((A,B),C)));", THREE, 0), ("(((x),((((A),B),C))));", one, 1)):
            with self.subTest(text=text):
                self.assert_tables(text + "(A,B,C);", first, THREE, said + (note_of("first", count) if count else ""), "--common")

    def test_shown_as_they_stand(self) -> None:
        for (t, plain), text in zip(PASS_THROUGH, ("(0,(((((((4),3),2))),1)));", "(0,(((1),((2),(3),(4)))));",
                                                   f"(0,{'(' * 7}(1,2,3,{'(' * 7}4{')' * 7}){')' * 7});", "(0,(1));",
                                                   "(0,((((((1)))))));"), strict=True):
            self.assertEqual(newick_text(t), text)
            done = self.run_here("-", command="show", stdin=packed(t, plain))
            self.assertEqual((done.returncode, done.stderr), (0, b""))
            self.assertIn(text, done.stdout.decode().split("\n"))
            again, _ = self.converted(text * 2, "--quiet")
            self.assertEqual((again[:2], edge_sets(again)), (t[:2], edge_sets(t)))

    def test_tables_shown_and_read_again(self) -> None:
        """The same words, where the nodes are numbered depth first; the same edges, however they are numbered."""
        rng, places = random.Random(19), set()
        for case in range(400):
            n = 2 + case % 14
            table = randomly_chained(rng, random_table(rng, n))
            self.assertEqual(tree_refusal(table), 0)
            for t in (table, renumbered(table)):
                again = table_of(read_trees(Source("test", newick_text(t)), 1)[0], {str(label): label for label in range(n)})
                self.assertEqual((again[:2], edge_sets(again)), (t[:2], edge_sets(t)))
            self.assertEqual(again, t)
            places |= chain_places(table) | ({"4n nodes"} if table[1] == 4 * n else set())
        self.assertEqual(places, {"node 1", "tip", "inner node", "chain", "4n nodes"})


class Commands(TableTest):
    TEXTS = "(0,(1,(2,(3,4))));\n", "(0,1,(2,3,4));\n"

    def setUp(self) -> None:
        super().setUp()
        self.file("first.nwk", self.TEXTS[0])
        self.file("second.nwk", self.TEXTS[1])
        self.file("both.nwk", "".join(self.TEXTS))

    def test_every_way_of_giving_two_trees(self) -> None:
        for arguments, stdin in ((("first.nwk", "second.nwk"), ""), (("both.nwk",), ""), (("-",), "".join(self.TEXTS)),
                                 (("-", "second.nwk"), self.TEXTS[0]), (("first.nwk", "-"), self.TEXTS[1]),
                                 (("--", "first.nwk", "second.nwk"), "")):
            done = self.run_command(*arguments, stdin=stdin)
            self.assertEqual((done.returncode, done.stdout), (0, packed(P, Q)))

    def test_order_of_the_trees(self) -> None:
        self.assertEqual(self.run_command("second.nwk", "first.nwk").stdout, packed(Q, P))

    def test_output_file(self) -> None:
        for arguments in (("first.nwk", "second.nwk", "-o", "a.bin"), ("-o", "a.bin", "both.nwk"),
                          ("first.nwk", "-o", "a.bin", "second.nwk")):
            done = self.run_command(*arguments)
            self.assertEqual((done.returncode, done.stdout), (0, b""))
            self.assertEqual((self.folder / "a.bin").read_bytes(), packed(P, Q))
            (self.folder / "a.bin").unlink()
        self.assertEqual(len(self.contents()), 3)

    def test_output_replaces_an_older_file(self) -> None:
        self.file("a.bin", "older and longer " * 20)
        self.assertEqual(self.run_command("both.nwk", "-o", "a.bin").returncode, 0)
        self.assertEqual((self.folder / "a.bin").read_bytes(), packed(P, Q))

    def test_a_refusal_keeps_the_older_file(self) -> None:
        self.file("a.bin", "older")
        self.file("bad.nwk", "(0,1,2,3;")
        self.assert_message(self.run_command("first.nwk", "bad.nwk", "-o", "a.bin"), 1, "bad.nwk")
        self.assertEqual((self.folder / "a.bin").read_bytes(), b"older")

    def test_output_that_cannot_be_written(self) -> None:
        before = self.contents()
        self.assert_message(self.run_command("both.nwk", "-o", "none/a.bin"), 2, "cannot write none/a.bin")
        self.assert_message(self.run_command("both.nwk", "-o", "a.bin", "--list", "none/b"), 2, "cannot write none/b")
        self.assert_message(self.run_command("both.nwk", "-o", ".", "--list", "b"), 2, "cannot write .")
        self.assertEqual(self.contents(), before)

    def test_standard_output_that_nobody_reads(self) -> None:
        reader, writer = os.pipe()
        os.close(reader)
        self.addCleanup(os.close, writer)
        done = subprocess.run([*LESKWYN, "table", "both.nwk", "--list", "b"], stdout=writer, stderr=subprocess.PIPE,
                              cwd=self.folder, env=ENVIRONMENT, timeout=20)
        self.assertEqual((done.returncode, done.stderr.count(b"\n")), (2, 1))
        self.assertIn(b"cannot write standard output", done.stderr)
        self.assertFalse((self.folder / "b").exists())

    def test_wrong_usage(self) -> None:
        before = self.contents()
        for arguments in ((), ("a", "b", "c"), ("-", "-"), ("both.nwk", "--wrong"), ("both.nwk", "-o"), ("",),
                          ("-", "--names", "-"), ("both.nwk", "--show"), ("both.nwk", "--names", "names", "--outgroup", "A"),
                          ("both.nwk", "--list", "-"), ("both.nwk", "--list", "b", "--quiet"), ("both.nwk", "-o", ""),
                          ("both.nwk", "-o", "both.nwk"), ("first.nwk", "second.nwk", "--list", "./second.nwk"),
                          ("both.nwk", "-o", "a", "--list", "./a"), ("first.nwk", "-", "--quie")):
            self.assert_message(self.run_here(*arguments), 2, "leskwyn table --help")
        for arguments in ((), ("a", "b"), ("a", "--quiet"), ("a", "--names", ""), ("",), ("-", "--names", "-"), ("-", "-")):
            self.assert_message(self.run_here(*arguments, command="show"), 2, "leskwyn show --help")
        self.assert_message(self.run_command(), 2, "--help")
        self.assert_message(self.run_command("both.nwk", "-o", "both.nwk"), 2, "--help")
        self.assertEqual(self.contents(), before)

    def test_help(self) -> None:
        done = self.run_command("--help")
        self.assertEqual((done.returncode, done.stderr), (0, b""))
        for word in (b"examples:", b"table both.nwk -o pair.bin", b"--names", b"--outgroup", b"--list", b"--quiet", b"--common"):
            self.assertIn(word, done.stdout)

    def test_no_bytes_to_a_terminal(self) -> None:
        outer, inner = pty.openpty()
        self.addCleanup(os.close, outer)
        self.addCleanup(os.close, inner)
        for arguments in ([], ["-o", "-"], ["-o", os.ttyname(inner)]):
            done = subprocess.run([*LESKWYN, "table", "both.nwk", *arguments], stdout=inner, stderr=subprocess.PIPE,
                                  cwd=self.folder, env=ENVIRONMENT, timeout=20)
            self.assertEqual((done.returncode, done.stderr.count(b"\n")), (2, 1))
            self.assertIn(b"not for a terminal", done.stderr)
        self.assertEqual(select.select([outer], [], [], 0)[0], [])


class Labels(TableTest):
    TEXT = "((Zilpzalp,(10,2)),(amsel,(Émile,('\uff5e',\U0001F426))));(Zilpzalp,10,2,amsel,Émile,'\uff5e',\U0001F426);"
    SORTED = "0\t10\n1\t2\n2\tZilpzalp\n3\tamsel\n4\tÉmile\n5\t\uff5e\n6\t\U0001F426\n".encode()

    def test_sorted_by_code_point(self) -> None:
        self.assertEqual(self.run_command("-", stdin=self.TEXT).stderr, self.SORTED)

    def test_list_file_and_quiet(self) -> None:
        done = self.run_command("-", "--list", "labels.txt", stdin=self.TEXT)
        self.assertEqual((done.returncode, done.stderr), (0, b""))
        self.assertEqual((self.folder / "labels.txt").read_bytes(), self.SORTED)
        quiet = self.run_command("-", "--quiet", stdin=self.TEXT)
        self.assertEqual((quiet.returncode, quiet.stderr, quiet.stdout), (0, b"", done.stdout))

    def test_names_give_the_order(self) -> None:
        for content in ("C\nA b\nB\n", "\ufeffC\r\nA b\r\nB\r\n", "C\nA b\nB", "C\n\nA b\nB\n\n"):
            done = self.run_command("-", "--names", self.file("names", content), stdin="(A_b,B,C);('A b',(B,C));")
            self.assertEqual(done.stderr, b"0\tC\n1\tA b\n2\tB\n")
            self.assertEqual(done.stdout, packed(THREE, [3, 4, 0, 0, 1, 1, 0, X, 2, 1]))

    def test_names_choose_the_outgroup(self) -> None:
        # P's tree with the names turned round: 4 is the outgroup, so that 3 is beside it.
        tables = self.converted("(0,(1,(2,(3,4))));(0,1,(2,3,4));", "--names", self.file("names", "4\n3\n2\n1\n0\n"))
        self.assertEqual(edge_sets(tables[0]), edge_sets(P))
        self.assertEqual(table_splits(tables[1]), splits_from([[3, 4]], range(5)))

    def test_an_outgroup_before_the_sorted_names(self) -> None:
        for outgroup in ("B_b", "B b", "'B b'"):
            done = self.run_command("-", "--outgroup", outgroup, stdin="(A,B_b,(C,D));(('B b',C),A,D);")
            self.assertEqual((done.returncode, done.stderr), (0, b"0\tB b\n1\tA\n2\tC\n3\tD\n"))
        tables = self.converted("(0,(1,(2,(3,4))));(0,1,(2,3,4));", "--outgroup", "4")
        # 4 is 0, so that 0 to 3 are 1 to 4.
        self.assertEqual([table_splits(table) for table in tables],
                         [splits_from([[0, 4], [0, 3, 4]], range(5)), splits_from([[0, 3, 4]], range(5))])
        self.assert_refused(["-", "--outgroup", "E"], "the outgroup 'E' is not a tip of every tree", stdin="(A,B);(A,B);")

    def test_names_from_standard_input(self) -> None:
        self.file("both.nwk", "(A,B,C);(C,B,A);")
        done = self.run_command("both.nwk", "--names", "-", stdin="B\nC\nA\n")
        self.assertEqual((done.returncode, done.stderr), (0, b"0\tB\n1\tC\n2\tA\n"))

    def test_its_own_list_is_an_order_of_names(self) -> None:
        """A list of labels, in any order of its lines, gives the same labels again, awkward names among them."""
        names = ["b\\n", "a\nb", "\\", "\r", "1\tx", "Łódź", "\\\\r", "x\ty"]
        text = star_text("'" + name + "'" for name in names) * 2
        first = self.run_here("-", "--list", "labels.txt", "--names", self.file("plain", "1\tx\n\\\n"), stdin=text)
        self.assertEqual(first.returncode, 1)
        first = self.run_here("-", "--list", "labels.txt", stdin=text)
        lines = (self.folder / "labels.txt").read_bytes().splitlines(keepends=True)
        self.assertEqual(len(lines), len(names))
        for order in (lines, lines[::-1]):
            again = self.run_here("-", "--names", self.file("order", b"".join(order)), stdin=text)
            self.assertEqual((again.returncode, again.stdout, again.stderr), (0, first.stdout, b"".join(lines)))

    def test_tips_that_look_like_a_list_of_labels(self) -> None:
        self.file("names", "1\tA\n0\tB\n")
        done = self.run_here("-", "--names", "names", stdin="('0\tB','1\tA');" * 2)
        self.assertEqual((done.returncode, done.stderr), (0, b"0\t1\tA\n1\t0\tB\n"))

    def test_common(self) -> None:
        done = self.run_here("-", "--common", "--list", "labels.txt", stdin="((A,x),(B,(C,y)),z);((A,(B,C)),w);")
        self.assertEqual((done.returncode, done.stdout), (0, packed(THREE, THREE)))
        self.assertEqual(done.stderr, b"leskwyn: left out of standard input, first tree: 'x', 'y', 'z'\n"
                                      b"leskwyn: left out of standard input, second tree: 'w'\n")
        self.assertEqual((self.folder / "labels.txt").read_bytes(), b"0\tA\n1\tB\n2\tC\n")

    def test_refused_lists(self) -> None:
        self.file("both.nwk", "(A,B,C);(C,B,A);")
        for content, words in (("A\nB\n", ["lacks 'C'"]), ("A\nB\nC\nD\n", ["has 'D'"]),
                               ("A\nB\nC\nB\n", ["repeats 'B'"]), ("A\nB\nc\n", ["lacks 'C'", "has 'c'"]),
                               ("", ["lacks 'A', 'B', 'C'"]),
                               ("A\nB\nC \n", ["lacks 'C'", "has 'C '"]), (b"A\nB\n\xff\n", ["not UTF-8"]),
                               ("A\nB\nC\n" + "".join(f"x{i:02}\n" for i in range(23)), ["has 'x00', ", "'x19' and 3 more"]),
                               ("0\tA\n1\tB\n3\tC\n", ["lacks 'A'", "has '0\\tA'"])):
            self.assert_refused(["both.nwk", "--names", self.file("names", content)], "names", *words)
        self.assert_refused(["both.nwk", "--names", "absent"], "cannot read absent", status=2)


LETTERS = "abcdefghijklmnopqrstuvwxyz"


class Refusals(TableTest):
    GOOD = "(A,(B,C));"

    def test_decimal_commas(self) -> None:
        for text, end in (("(A:0,25,B:0,5);", "25"), ("(A,B:1,5);", "5"), ("((A,B):0,5,C);", "5"), ("(A:-0,1e-3,C);", "1e-3"),
                          ("(A:1,2,3);", "2"), ("(A:0,1[x],B);", "1"), ("(A:0,1)x;", "1"), ("((A,B)0,95:1,C);", "95"),
                          ("((A,B)1,00,C);", "00"), ("((A,B)0,5:0,5,C);", "5")):
            self.assert_refused(["-"], "standard input, line 1: ", f"'{end}' is the end of a number with a decimal comma",
                                "point", "quotes", stdin=text * 2)

    def test_double_quotes(self) -> None:
        for text, words in (('("A,B);', 'opens with " and does not end'), ('(A"b,C);', "a quote inside"),
                            ('(6",B);', "a quote inside")):
            self.assert_refused(["-"], words, stdin=self.GOOD + text)

    def test_no_text(self) -> None:
        """UTF-16 without its mark, and comparison files."""
        self.file("good", self.GOOD)
        self.assert_refused(["good", "-"], "standard input is a comparison file", stdin=packed(P, Q))
        for encoding, at in (("utf-16-le", 1), ("utf-16-be", 0)):
            self.assert_refused(["good", "-"], f"a zero byte, at byte {at}", "byte order mark", stdin="(A,B);".encode(encoding))
        self.assert_refused(["good", "-"], "a zero byte, at byte 6", stdin=b"\xef\xbb\xbf(A,\0B);")

    def test_nexus_without_dendropy(self) -> None:
        self.file("good", self.GOOD)
        nexus = "#NEXUS\nbegin trees;\ntree one = (A,(B,C));\nend;\n"
        with unittest.mock.patch.dict(sys.modules, {"dendropy": None}):
            self.assert_refused(["good", "-"], "standard input is a NEXUS file", "DendroPy", "not installed", stdin=nexus,
                                status=2)

    def test_unicode_forms(self) -> None:
        composed, taken_apart = "M\u00f6we", "Mo\u0308we"
        self.assert_refused(["-"], "different tips", f"'{composed}' differs only in Unicode form", "NFC",
                            stdin=f"({composed},B);({taken_apart},B);")
        self.file("both.nwk", f"({composed},B);(B,{composed});")
        self.assert_refused(["both.nwk", "--names", self.file("names", f"{taken_apart}\nB\n")], "names: the list lacks",
                            f"'{composed}' differs only in Unicode form")
        done = self.run_here("-", stdin="(M\u00f6we,B);(M\u00f8we,B);")
        self.assertNotIn(b"Unicode", done.stderr)

    def test_different_tips(self) -> None:
        for first, second, words, unnamed in (
                ("(A,B,C);", "(A,B,D);",
                 ["only standard input, first tree has 'C'", "only standard input, second tree has 'D'"], "more"),
                ("(A,B,C);", "(A,B);", ["first tree has 'C'"], "second tree"),
                ("(A,B);", "(A,B,C,D,E);", ["second tree has 'C', 'D', 'E'"], "more"),
                (star_text(["A", "B", *LETTERS]), "(A,B);", ["first tree has 'a', 'b', ", "'t' and 6 more"], "'u'"),
                (star_text(["A", *LETTERS]), star_text(["A", *(c * 2 for c in LETTERS)]),
                 ["first tree has 'a', ", "'t' and 6 more; only", "second tree has 'aa', ", "'tt' and 6 more"], "'uu'"),
                ("(A_b,B);", "('A_b',B);", ["first tree has 'A b'", "second tree has 'A_b'"], "more")):
            self.assert_refused(["-"], "different tips", *words, stdin=first + second)
            self.assertNotIn(unnamed, self.run_here("-", stdin=first + second).stderr.decode())

    def test_repeated_names(self) -> None:
        self.assert_refused(["-"], "first tree", "repeated", "'A'", stdin="(A,(B,'A'));(A,B);")
        self.assert_refused(["-"], "second tree", "repeated", "'A b'", stdin="(A_b,B);(A_b,(B,'A b'));")

    def test_damaged_trees(self) -> None:
        for text, words in (("((A,B);", "( without its )"), ("(A,B));", ") without its ("), ("(A,B", "( without its )"),
                            (")A,B(;", "empty name"), ("A,B;", "comma outside"), ("(A,B]);", "] without its ["),
                            ("(A,B)", "no ; at its end"), ("(A,B):1", "no ; at its end"), ("('A,B);", "quoted name"),
                            ("('A'',B);", "quoted name"), ("(A[,B);", "comment"), ("(A,[x[y]B);", "comment"),
                            ("(A,,B);", "empty name"), ("(A,B,);", "empty name"), ("(,A);", "empty name"),
                            ("();", "empty name"), ("(A,());", "empty name"), (";", "empty name"),
                            ("(A,'');", "empty name"), ("(A,:1);", "empty name"), ("(A,[c]);", "empty name"),
                            ("(A b,C);", "'b'"), ("(A'b,C);", "quote inside"), ("(A(B,C));", "a ( where"),
                            ("(A,B)(C,D);", "a ( where"), ("(A:,B);", "length"), ("(A:x,B);", "'x'"),
                            ("(A:1:2,B);", "length"), ("(A,B)x y;", "'y'"), ("(A,B):1 y;", "'y'")):
            with self.subTest(text=text):
                self.file("good", self.GOOD)
                self.file("bad", text)
                self.assert_message(self.run_here("good", "bad", "-o", "out"), 1, "bad, line 1: ", words)
                self.assert_message(self.run_here("bad", "good"), 1, "bad, line 1: ", words)
                self.assertEqual(set(self.contents()), {"good", "bad"})

    def test_refused_in_a_process(self) -> None:
        self.file("names", "A\nB\n")
        for text, words in (("(A,B);(A,C);", "different tips"), ("(A,B);(A,(B,A));", "repeated"), ("(A,B);(A,B;", "("),
                            ("(A,B);('A,B);", "quoted name"), ("(A,B);", "two trees are needed"),
                            (b"\xff", "not UTF-8")):
            self.assert_refused(["-"], words, stdin=text, run=self.run_command)
        self.assert_refused(["-", "--names", "names"], "lacks 'C'", stdin="(A,B,C);(A,B,C);", run=self.run_command)
        self.assert_refused(["absent"], "cannot read absent", run=self.run_command, status=2)

    def test_damaged_first_tree(self) -> None:
        self.file("good", self.GOOD)
        for text, words in (("((A,B);", "( without its )"), ("(A,B)", "no ; at its end"), ("(A,,B);", "empty name")):
            self.assert_refused(["-", "good"], "standard input, line 1: ", words, stdin=text)

    def test_the_line_of_the_fault(self) -> None:
        self.assert_refused(["-"], "standard input, line 3: ", "empty name", stdin="(A,B);\n(A,\n,B);\n")
        self.assert_refused(["-"], "standard input, line 2: ", "( without", stdin="(A,B);\n(A,\nB;\n")

    def test_text_after_the_last_tree(self) -> None:
        self.file("good", self.GOOD)
        for text in (self.GOOD + "x", self.GOOD + "\n\n(A,B)", self.GOOD + ";", self.GOOD + ")", self.GOOD + "(A,,B);"):
            self.assert_refused(["good", "-"], "text after the last tree", stdin=text)
            self.assert_refused(["-"], "text after the last tree", stdin=self.GOOD + text)
        self.assert_refused(["good", "-"], "comment", stdin=self.GOOD + "[x")

    def test_number_of_trees(self) -> None:
        self.file("good", self.GOOD)
        for count, words in ((0, "no tree"), (1, "one tree"), (3, "3 trees")):
            self.assert_refused(["-"], words, "two trees are needed", stdin=self.GOOD * count)
        for count, words in ((0, "no tree"), (2, "2 trees")):
            self.assert_refused(["good", "-"], words, "one tree is needed", stdin=self.GOOD * count)
        self.assert_refused(["-"], "no tree", stdin=" \n[(A,B);]\n")

    def test_files_that_cannot_be_read(self) -> None:
        self.file("good", self.GOOD)
        self.assert_refused(["good", "absent"], "cannot read absent", status=2)
        self.assert_refused(["absent"], "cannot read absent", status=2)
        self.assert_message(self.run_command(".", "good"), 2, "cannot read .")
        for content, at in ((b"(A,\xff);", 3), (b"(A,\xed\xa0\x80);", 3), ("\n(Möwe,B);".encode("latin-1"), 3),
                            (b"\xef\xbb\xbf(A,\xff);", 6)):
            self.assert_refused(["good", "-"], "standard input", f"not UTF-8 text, at byte {at} ", stdin=content)
        self.assert_refused(["good", "-"], "standard input", "not UTF-16 text, at byte 4", stdin=b"\xff\xfe(\0A")

    def test_message_stays_one_line(self) -> None:
        self.assert_refused(["-"], "'a\\nb'", stdin="('a\nb',C);(C,D);")
        long = self.run_command("-", stdin=f"({'x' * 5000},C);(C,D);")
        self.assertLess(len(long.stderr), 300)


class Limits(TableTest):
    def test_256_tips(self) -> None:
        names = [f"n{i:03}" for i in range(256)]
        first, second = self.converted(star_text(names) * 2, "--quiet")
        star = [256, 257] + [0, 0] + [1] * 255 + [0, X] + list(range(1, 256))
        self.assertEqual((first, second), (star, star))

    def test_257_tips(self) -> None:
        names = [f"n{i:03}" for i in range(257)]
        self.assert_refused(["-"], "257 tips", "2 to 256", stdin=star_text(names) * 2)

    def test_many_tips(self) -> None:
        """Counted to the end up to some number, and then at least so many, soon."""
        self.assert_refused(["-"], "70000 tips", "2 to 256", stdin=star_text(map(str, range(70000))) + "(A,B);")
        start = time.monotonic()
        self.assert_refused(["-"], "at least 131071 tips", stdin=star_text(map(str, range(1_500_000))) * 2)
        self.assertLess(time.monotonic() - start, 2 * SOON)

    def test_nested_a_million_deep(self) -> None:
        deep = 1_000_000
        start = time.monotonic()
        self.assert_refused(["-"], "more than 131072 nodes", stdin="(" * deep + "A,B" + ")" * deep + ";(A,B);")
        self.assert_refused(["-"], "( without its )", stdin="(" * 100_000 + ";")
        self.assert_refused(["-"], "at least 65536 tips", stdin="(a," * deep + "b" + ")" * deep + ";(A,B);")
        self.assertLess(time.monotonic() - start, 6 * SOON)

    def test_one_tip(self) -> None:
        for text in ("A;", "(A);", "(((A)x:1));"):
            self.assert_refused(["-"], "1 tip;", "2 to 256", stdin=text * 2)

    def test_note_beyond_1016_bytes(self) -> None:
        # A binary tree has m = 2n - 2, a star m = n + 1; a pair has 8 + 4(m + m') bytes.
        rng = random.Random(7)
        for n, size in ((64, 1016), (65, 1032)):
            names = [f"n{i}" for i in range(n)]
            text = "".join(written_tree(rng, random_tree(rng, names, 0)) for _ in range(2))
            done = self.run_command("-", "--quiet", "-o", "pair.bin", stdin=text)
            self.assertEqual((done.returncode, (self.folder / "pair.bin").stat().st_size), (0, size))
            shown = self.run_command("pair.bin", command="show")
            self.assertEqual(shown.returncode, 0)
            for message in (done.stderr, shown.stderr):
                self.assertEqual((message.count(b"\n"), b"note: 1032 bytes" in message), (size > 1016, size > 1016))
        names = [f"n{i}" for i in range(84)]
        text = written_tree(rng, random_tree(rng, names, 0)) + star_text(names)
        self.assertEqual(len(self.run_command("-", stdin=text).stdout), 8 + 4 * (166 + 85))
        self.assertNotIn(b"note", self.run_command("-", stdin=text).stderr)


def with_up_to_4n_nodes(rng: random.Random, tree: Tree) -> Tree:
    """The tree with some pass-through nodes, or with as many as a table may have."""
    most = 4 * len(tree.name) - len(tree.joined)
    return with_pass_through(rng, tree, rng.choice([0, rng.randint(0, most), most]))


class RoundTrips(TableTest):
    def assert_round_trip(self, run: Run, trees: list[Tree], text: str, names: list[str], listed: bool) -> None:
        """Two trees to a comparison file, to the texts of show, and to the same comparison file again."""
        arguments = ["--names", self.file("names", "\n".join(names))] if listed else ["--quiet"]
        order = names if listed else sorted(names, key=code_points)
        label = {name: i for i, name in enumerate(order)}
        splits = [tree.splits(label) for tree in trees]
        tables = self.converted(text, *arguments, run=run)
        self.assertEqual([table[1] for table in tables], [len(tree.joined) for tree in trees])
        self.assertEqual([edge_sets(table) for table in tables], [tree.edge_sets(label) for tree in trees])
        self.assertEqual([table_splits(table) for table in tables], splits)
        shown = run("-", command="show", stdin=packed(*tables))
        self.assertEqual(shown.returncode, 0)
        texts = [line for line in shown.stdout.decode().split("\n") if line.startswith("(")]
        self.assertEqual([shown_splits(line, len(names)) for line in texts], splits)
        numbers = self.file("numbers", "\n".join(map(str, range(len(names)))))
        self.assertEqual(self.converted("".join(texts), "--names", numbers, run=run), tables)

    def test_random_trees(self) -> None:
        rng = random.Random(3)
        for case in range(60):
            n = rng.randint(3, 40)
            names = random_names(rng, n)
            trees = [with_up_to_4n_nodes(rng, random_tree(rng, names, rng.choice([0, 0.2, 0.5, 0.9]))) for _ in range(2)]
            with self.subTest(case=case):
                text = "".join(written_tree(rng, tree) for tree in trees)
                run = self.run_command if case < 4 else self.run_here
                self.assert_round_trip(run, trees, text, names, listed=case % 2 == 0)

    def test_256_tips(self) -> None:
        rng = random.Random(5)
        for polytomies in (0, 0.4):
            names = random_names(rng, 256)
            trees = [random_tree(rng, names, polytomies), caterpillar(names)]
            trees[0] = with_pass_through(rng, trees[0], 1024 - len(trees[0].joined))
            text = "".join(written_tree(rng, tree) for tree in trees)
            self.assert_round_trip(self.run_command, trees, text, names, listed=False)

    def test_many_writings_of_one_tree(self) -> None:
        """Without a process for each: the tree's splits whatever its writing, in the package's own functions."""
        rng = random.Random(11)
        for _ in range(300):
            names = random_names(rng, rng.randint(3, 24))
            tree = with_up_to_4n_nodes(rng, random_tree(rng, names, rng.random()))
            label = {name: i for i, name in enumerate(names)}
            source = Source("test", written_tree(rng, tree))
            table = table_of(read_trees(source, 1)[0], label)
            self.assertEqual((tree_refusal(table), table[1]), (0, len(tree.joined)), source.text)
            self.assertEqual(edge_sets(table), tree.edge_sets(label), source.text)
            self.assertEqual(table_splits(table), tree.splits(label), source.text)
            self.assertEqual(shown_splits(newick_text(table), len(names)), tree.splits(label))


class Show(TableTest):
    def shown(self, content: bytes, run: Run | None = None) -> tuple[int, str, str]:
        done = (run or self.run_here)(self.file("pair.bin", content), command="show")
        self.assertNotIn(b"Traceback", done.stderr)
        return done.returncode, done.stdout.decode(), done.stderr.decode()

    def assert_faults(self, content: bytes, *faults: list[str], run: Run | None = None) -> None:
        """Exit status 1, and one line on standard error for each fault."""
        status, _, messages = self.shown(content, run)
        lines = messages.split("\n")[:-1]
        self.assertEqual((status, len(lines)), (1, len(faults)), messages)
        for line, words in zip(lines, faults):
            self.assertTrue(line.startswith("leskwyn: pair.bin: "), line)
            for word in words:
                self.assertIn(word, line)

    def test_p_and_q(self) -> None:
        status, text, messages = self.shown(packed(P, Q))
        self.assertEqual((status, messages), (0, ""))
        lines = text.split("\n")
        self.assertEqual([line.split()[:6] for line in (lines[0], lines[10])],
                         [["first", "tree:", "n", "5,", "m", "8;"], ["second", "tree:", "n", "5,", "m", "7;"]])
        rows = [[str(i), str(P[2 + i]), "inner" if P[10 + i] == X else str(P[10 + i])] for i in range(8)]
        self.assertEqual([line.split() for line in lines[1:9]], rows)
        self.assertEqual((lines[9], lines[18], lines[19:]), ("(0,1,(2,(3,4)));", "(0,1,(2,3,4));", [""]))

    def test_two_tips(self) -> None:
        status, text, _ = self.shown(packed(TWO, TWO))
        self.assertEqual((status, text.count("(0,1);\n"), text.count("\n")), (0, 2, 8))

    def test_names(self) -> None:
        labels = "0\tAzores\n1\tCetti's warbler\n2\t2\n3\ta_b\n4\tx\\ny\n"
        for content in (labels, "Azores\nCetti's warbler\n2\na_b\nx\\ny\n"):
            self.file("names", content)
            self.file("pair.bin", packed(P, Q))
            done = self.run_here("pair.bin", "--names", "names", command="show")
            name = "x\ny" if content == labels else "x\\ny"
            self.assertEqual((done.returncode, done.stderr), (0, b""))
            lines = done.stdout.decode()
            self.assertIn(f"(Azores,'Cetti''s warbler',(2,('a_b','{name}')));\n", lines)
            self.assertIn(f"(Azores,'Cetti''s warbler',(2,'a_b','{name}'));\n", lines)
            self.assertIn("    2      1       1 Cetti's warbler\n    3      1   inner\n", lines)
        done = self.run_here("pair.bin", "--names", self.file("names", "A\nB\n"), command="show")
        self.assert_message(done, 1, "names: 2 names", "n = 5")

    def test_standard_input(self) -> None:
        done = self.run_command("-", command="show", stdin=packed(P, Q))
        self.assertEqual((done.returncode, done.stdout.decode()), (0, self.shown(packed(P, Q))[1]))

    def test_each_rule(self) -> None:
        def changed(at: int, word: int) -> list[int]:
            return P[:at] + [word] + P[at + 1:]
        nine_of_two = [2, 9, 0, 0, 1, 2, 3, 4, 5, 6, 7, 0, *[X] * 7, 1]
        childless = [5, 9, *P[2:10], 1, *P[10:], X]
        for table, number, words in ((changed(0, 1), 2, "n is 1"), (changed(0, 257), 2, "n is 257"),
                                     (changed(0, 9), 3, "m is 8, not 9 to 36"), (nine_of_two, 3, "m is 9, not 2 to 8"),
                                     (changed(2, 1), 5, "node 0"), (changed(3, 1), 5, "node 1"),
                                     (changed(4, 0), 5, "node 2"), (changed(5, 3), 5, "node 3"),
                                     (changed(10, 1), 6, "the label of node 0 is 1, not 0"),
                                     (changed(10, X), 6, "the label of node 0 is 65535, not 0"),
                                     (changed(16, 5), 6, "the label of node 6 is 5, neither below n nor 65535"),
                                     (changed(16, 4), 31, "label 3 stands 0 times, label 4 stands 2 times, not once"),
                                     (changed(16, X), 31, "refused 31: label 3 stands 0 times, not once"),
                                     (changed(13, 1), 31, "refused 31: label 1 stands 2 times, not once"),
                                     (changed(9, 6), 7, "node 6 is a tip and has a child"),
                                     (changed(6, 2), 7, "node 2 is a tip and has a child"),
                                     (childless, 7, "inner node 8 has no child")):
            self.assertEqual(tree_refusal(table), number)
            self.assert_faults(packed(table, Q), ["first tree", f"refused {number}: ", words])
            self.assert_faults(packed(Q, table), ["second tree", f"refused {number}: ", words])

    def test_label_trouble(self) -> None:
        for table, number in LABEL_TROUBLE:
            self.assertEqual(tree_refusal(table), number)
            self.assert_faults(packed(table, Q), [f"first tree refused {number}: "])
            self.assert_faults(packed(Q, table), [f"second tree refused {number}: "])

    def test_names_of_labels_that_do_not_stand_once(self) -> None:
        self.file("names", "Azores\nBute\nColl\nFoula\nLundy\n")
        for table, words in ((P[:16] + [4, 4], "label 4 stands 2 times, not once: 'Foula', 'Lundy'\n"),
                             (P[:16] + [X, 4], "refused 31: label 3 stands 0 times, not once: 'Foula'\n"),
                             (P[:16] + [5, 4], "refused 6: the label of node 6 is 5, neither below n nor 65535\n")):
            self.file("pair.bin", packed(Q, table))
            done = self.run_here("pair.bin", "--names", "names", command="show")
            self.assertEqual((done.returncode, done.stderr.decode().count("\n")), (1, 1))
            self.assertIn(words, done.stderr.decode())
        # the second tree may have labels that the list has no names for
        self.file("pair.bin", packed(P, [6, 7, 0, 0, 1, 1, 1, 1, 1, 0, X, 1, 2, 2, 3, 4]))
        done = self.run_here("pair.bin", "--names", "names", command="show")
        self.assertTrue(done.stderr.decode().endswith("label 2 stands 2 times, label 5 stands 0 times, not once: 'Coll'\n"))

    def test_many_labels_that_do_not_stand_once(self) -> None:
        labels = [0, X] + [1] * 40
        table = [41, 42, 0, 0] + [1] * 40 + labels
        self.assertEqual(tree_refusal(table), 31)
        self.assert_faults(packed(table, Q), ["label 1 stands 40 times, label 2 stands 0 times, ",
                                              "label 20 stands 0 times and 20 more labels, not once"])

    def test_too_short(self) -> None:
        self.assert_faults(b"", ["first tree refused 1: too short"])
        self.assert_faults(packed([5]), ["first tree refused 1: too short"])
        self.assert_faults(packed(P[:-3]), ["first tree refused 4: too short", "missing: 3"])
        self.assert_faults(packed(P), ["second tree refused 1: too short"])
        self.assert_faults(packed(P, [5]), ["second tree refused 1: too short"])
        self.assert_faults(packed(P, Q[:-1]), ["second tree refused 4: too short", "missing: 1"])

    def test_words_left_over(self) -> None:
        self.assert_faults(packed(P, Q, [7, 7]), ["second tree refused 4: words left over: 2"])

    def test_the_cut_is_by_the_first_word_1(self) -> None:
        # With m = 7 the first tree takes 16 of P's 18 words; its labels start one word early, at 5. The second tree
        # then starts with P's last two labels, 3 4: n = 3 and m = 4 pass, and Q's 16 words follow where 8 are due.
        self.assert_faults(packed(P[:1] + [7] + P[2:], Q), ["first tree refused 6", "node 0 is 5"],
                           ["second tree refused 4: words left over: 8"])

    def test_odd_number_of_bytes(self) -> None:
        self.assert_faults(packed(P, Q) + b"\0", ["odd number of bytes"])
        self.assert_faults(b"\5", ["odd number of bytes"], ["first tree refused 1"])

    def test_different_numbers_of_tips(self) -> None:
        self.assert_faults(packed(P, THREE), ["refused 8", "5 tips", "3"])

    def test_a_table_that_is_no_tree_is_printed_without_a_tree(self) -> None:
        _, text, _ = self.shown(packed(P[:9] + [6] + P[10:], Q))
        self.assertEqual([line for line in text.split("\n") if line.startswith("(")], ["(0,1,(2,3,4));"])
        self.assertEqual(text.count("\n"), 1 + 8 + 1 + 1 + 7 + 1)

    def test_absent_file(self) -> None:
        self.assert_message(self.run_command("absent", command="show"), 2, "cannot read absent")

    def test_random_bytes(self) -> None:
        rng = random.Random(13)
        for case in range(300):
            content = bytearray(packed(P, Q) if case % 2 else rng.randbytes(rng.randrange(60)))
            for _ in range(case % 4):
                if content:
                    content[rng.randrange(len(content))] = rng.choice([0, 1, 3, 5, 255])
            del content[len(content) - rng.choice([0, 0, 1, 2, 5]):]
            words = unpacked(content[:len(content) // 2 * 2])
            size = 2 + 2 * words[1] if len(words) > 1 else len(words)
            numbers = [tree_refusal(words[:size]), tree_refusal(words[size:])]
            fine = numbers == [0, 0] and len(content) % 2 == 0 and words[0] == words[size]
            status, _, messages = self.shown(bytes(content), self.run_command if case < 4 else self.run_here)
            self.assertEqual(status, 0 if fine else 1)
            if numbers[0]:
                self.assertIn(f"first tree refused {numbers[0]}: ", messages)
            elif numbers[1]:
                self.assertIn(f"second tree refused {numbers[1]}: ", messages)

    def test_random_tables(self) -> None:
        """The package's own check beside that of cases/tables.py."""
        rng, numbers = random.Random(17), set()
        for _ in range(4000):
            table = list(rng.choice([P, Q, R, W, TWO, THREE, *(chained for chained, _ in PASS_THROUGH)]))
            for _ in range(rng.randrange(4)):
                table[rng.randrange(len(table))] = rng.choice([0, 1, 2, 3, 4, 5, 6, 7, 8, X])
            table = table[:rng.choice([X] * 6 + [0, 1, 2, 5])] + [0] * (rng.random() < 0.05)
            number = tree_refusal(table)
            numbers.add(number)
            broken = broken_rule(table)
            self.assertEqual(broken.number if broken else 0, number, table)
        self.assertEqual(numbers, {0, *NUMBERS})

    def test_order_of_the_rules(self) -> None:
        self.assertEqual(list(RULES), NUMBERS)

    def test_number_of_nodes(self) -> None:
        """Below n and above 4n there is 3; what is between is told by the rules that follow, here of the length."""
        for n in (2, 3, 5, 64, 256):
            for m, number in ((0, 3), (n - 1, 3), (n, 4), (2 * n - 2, 4), (2 * n - 1, 4), (4 * n, 4), (4 * n + 1, 3), (X, 3)):
                broken = broken_rule([n, m, 0, 0, 0])
                self.assertEqual((tree_refusal([n, m, 0, 0, 0]), broken and broken.number), (number, number), (n, m))


if __name__ == "__main__":
    unittest.main()
