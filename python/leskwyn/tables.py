"""Comparison files and their tables: cutting, the rules with their refusal numbers, and the reasons in words.

A comparison file is the words of the first tree's table, then of the second's, each word 16 bits, low byte first. The rules
and numbers are those of docs/SPECIFICATION.md, 'Rules' and 'Refusals'. The library decides; what is here tells why.
"""
import struct
import typing
from collections.abc import Sequence

from leskwyn.errors import NAMED_AT_MOST, Refusal, counted
from leskwyn.trees import FEWEST_TIPS, INNER, MOST_TIPS, NODES_FOR_A_TIP, Table

COMPARE_BYTES = 1016
ORDINALS = ("first", "second", "third")


def file_bytes(words: Table) -> bytes:
    return struct.pack(f"<{len(words)}H", *words)


def file_words(content: bytes) -> list[int]:
    """The words; an odd last byte is left out."""
    return list(struct.unpack(f"<{len(content) // 2}H", content[:len(content) // 2 * 2]))


def cut(words: list[int]) -> tuple[Table, Table]:
    """The two tables, as the comparing program cuts them."""
    size = 2 + 2 * words[1] if len(words) >= 2 else len(words)
    return words[:size], words[size:]


def parents_of(table: Table) -> list[int]:
    return table[2:2 + table[1]]


def labels_of(table: Table) -> list[int]:
    return table[2 + table[1]:]


# ---- the rules of one table; each answers what is wrong, or an empty text

def too_few_words(table: Table) -> str:
    return f"too short: {len(table)} of the 2 words that tell n and m" if len(table) < 2 else ""


def tips_out_of_range(table: Table) -> str:
    in_range = FEWEST_TIPS <= table[0] <= MOST_TIPS
    return "" if in_range else f"n is {table[0]}, not {FEWEST_TIPS} to {MOST_TIPS}"


def nodes_out_of_range(table: Table) -> str:
    n, m = table[:2]
    return "" if n <= m <= NODES_FOR_A_TIP * n else f"m is {m}, not {n} to {NODES_FOR_A_TIP * n}"


def wrong_length(table: Table) -> str:
    more = len(table) - (2 + 2 * table[1])
    if more == 0:
        return ""
    fault = f"words left over: {more}" if more > 0 else f"too short: words missing: {-more}"
    return f"{fault}; the table has {len(table)} words, 2 + 2m is {2 + 2 * table[1]}"


def wrong_parent(table: Table) -> str:
    for node, parent in enumerate(parents_of(table)):
        if node < 2 and parent != 0:
            return f"the parent of node {node} is {parent}, not 0"
        if node >= 2 and not 1 <= parent < node:
            return f"the parent of node {node} is {parent}, not 1 to {node - 1}"
    return ""


def label_out_of_range(table: Table) -> str:
    n, labels = table[0], labels_of(table)
    if labels[0] != 0:
        return f"the label of node 0 is {labels[0]}, not 0"
    for node, label in enumerate(labels):
        if label != INNER and label >= n:
            return f"the label of node {node} is {label}, neither below n nor {INNER}"
    return ""


def labels_not_once(table: Table) -> list[int]:
    """The labels from 0 to n - 1 that are missing or repeated."""
    labels = labels_of(table)
    return [label for label in range(table[0]) if labels.count(label) != 1]


def label_not_once(table: Table) -> str:
    labels, wrong = labels_of(table), labels_not_once(table)
    told = [f"label {label} stands {labels.count(label)} times" for label in wrong[:NAMED_AT_MOST]]
    more = f" and {len(wrong) - len(told)} more labels" if len(wrong) > len(told) else ""
    return f"{', '.join(told)}{more}, not once" if wrong else ""


def wrong_children(table: Table) -> str:
    parents, labels = parents_of(table), labels_of(table)
    for node in range(1, table[1]):
        children = parents.count(node)
        if labels[node] != INNER and children:
            return f"node {node} is a tip and has a child"
        if labels[node] == INNER and not children:
            return f"inner node {node} has no child"
    return ""


class Rule(typing.NamedTuple):
    """What tells that a table breaks the rule, and what to do then."""
    fault: typing.Callable[[Table], str]
    advice: str


# By their numbers, in the order in which they decide.
RULES = {
    1: Rule(too_few_words, "the file is empty or ends too early: make it again"),
    2: Rule(tips_out_of_range, "the tree is too small or too large, or the file is no comparison file"),
    3: Rule(nodes_out_of_range, "nodes are missing, or there are too many with one child: count them again"),
    4: Rule(wrong_length, "words are missing or left over: make the file again"),
    5: Rule(wrong_parent, "number each node after its parent; the nodes 0 and 1 have the parent word 0"),
    6: Rule(label_out_of_range, "mend the export: tips have the labels 0 to n - 1, node 0 the label 0"),
    31: Rule(label_not_once, "look in the field sheet for a population that stands twice or is missing"),
    7: Rule(wrong_children, "take out inner nodes without a child; give tips no child"),
}
CUT_ADVICE = "; the second tree starts where the first tree's word 1 says"
DIFFERENT_TIPS = "take the populations out that only one tree has"
ODD_BYTES = "the file has an odd number of bytes; it was cut or changed on its way: make it again"


class Broken(typing.NamedTuple):
    """The first rule that a table breaks: its number, what is wrong, and what to do."""
    number: int
    fault: str
    advice: str


def broken_rule(table: Table) -> Broken | None:
    for number, rule in RULES.items():
        fault = rule.fault(table)
        if fault:
            return Broken(number, fault, rule.advice)
    return None


def wrong_marks(marks: Sequence[int], tips: int) -> str:
    """What is wrong with marks: a label that is not there is struck, they are not as many as the labels, or one is above 1."""
    beyond = [str(label) for label, mark in enumerate(marks) if label >= tips and mark == 0]
    if beyond:
        more = f" and {len(beyond) - NAMED_AT_MOST} more" if len(beyond) > NAMED_AT_MOST else ""
        return f"there is no label {', '.join(beyond[:NAMED_AT_MOST])}{more} to strike: the labels are 0 to {tips - 1}"
    if len(marks) != tips:
        return f"{counted(len(marks), 'mark')} for {tips} labels; each label has one"
    label = next(label for label, mark in enumerate(marks) if mark > 1)
    return f"the mark of label {label} is {marks[label]}, neither 1, kept, nor 0, struck"


def marks_refusal(number: int, table: Table, marks: Sequence[int]) -> Refusal | None:
    """The refusal of the marks of a table's labels, or of how many they keep, by the library's number; None for another number."""
    if number == 32:
        return Refusal(wrong_marks(marks, table[0]), number)
    if number == 35:
        return Refusal(f"{counted(sum(marks), 'tip')} kept; a tree needs {FEWEST_TIPS} or more", number)
    return None


def tree_refusal(number: int, table: Table) -> Refusal:
    """A refusal of one table by the library's number, with the reason that the rules give."""
    found = broken_rule(table) if number in RULES else None
    if found is None or found.number != number:
        return Refusal("the library refuses the tree, and README.md, 'Refusals', has the number", number)
    return Refusal(f"{found.fault}; {found.advice}", number)


def copy_refusal(number: int, table: Table, marks: Sequence[int]) -> Refusal:
    """A refusal of a tree's copy by the library's number, with its reason."""
    if number == 36:
        return Refusal("the words lent for the copy are too few; it takes 2 + 2m for its own m", number)
    return marks_refusal(number, table, marks) or tree_refusal(number, table)


def pair_refusal(number: int, first: Table, second: Table, marks: Sequence[int] = ()) -> Refusal:
    """A refusal of two tables by the library's number, with the reason that the rules give."""
    if number == 8:
        return Refusal(f"the first tree has {first[0]} tips, the second {second[0]}; {DIFFERENT_TIPS}", number)
    of_marks = marks_refusal(number, first, marks)
    if of_marks is not None:
        return of_marks
    if number == 30:
        return Refusal("the weight is not k/256 with a k from 0 to 256", number)
    which = number // 100
    found = broken_rule((first, second)[which]) if number % 100 in RULES and which < 2 else None
    if found is None or found.number != number % 100:
        return Refusal("the library refuses the pair, and README.md, 'Refusals', has the number", number)
    return Refusal(f"{ORDINALS[which]} tree: {found.fault}; {found.advice}{CUT_ADVICE if which else ''}", number)


def tables_of_file(place: str, content: bytes) -> tuple[Table, Table]:
    """The two tables of a comparison file, which the library checks later."""
    if len(content) % 2:
        raise Refusal(f"{place}: {ODD_BYTES}", 15)
    return cut(file_words(content))


# ---- a table's tree as text

def written_name(name: str) -> str:
    """The name as Newick has it: in quotes, unless it can only be read as itself."""
    if name and name.isascii() and name.replace("-", "").replace(".", "").isalnum():
        return name
    return "'" + name.replace("'", "''") + "'"


def newick_text(table: Table, names: Sequence[str] = ()) -> str:
    """A checked table's tree, with labels where there are no names. Children have greater numbers, so the last node comes
    first. Tip 0 stands in node 1's brackets; where node 1 is a tip or has one child, both stand in brackets of their own."""
    written = [written_name(name) for name in names] or [str(label) for label in range(table[0])]
    parents, labels = parents_of(table), labels_of(table)
    below: list[list[str]] = [[] for _ in parents]
    for node in range(len(parents) - 1, 0, -1):
        inside = ",".join(reversed(below[node]))
        below[parents[node]].append(f"({inside})" if labels[node] == INNER else written[labels[node]])
    rest = below[0][0]
    return f"({written[0]},{rest[1:]};" if len(below[1]) > 1 else f"({written[0]},{rest});"
