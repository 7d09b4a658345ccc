"""Newick text read as trees. No step calls itself, so that a tree may be nested to any depth.

Each tree ends with ';'. A name in '...' or "..." holds any text, a quote inside being written twice. In a name without
quotes '_' stands for a blank. Comments in [...], branch lengths, support values and inner names are left out. What could be
read in two ways, such as a decimal comma, is refused.
"""
import re
import typing

from leskwyn.errors import Refusal, counted, quoted
from leskwyn.trees import MOST_TIPS, Tree

# Nodes that are read of one tree before it is turned away; a table of 256 tips has up to 1024.
MOST_NODES = 1 << 17
QUOTES = ("'", '"')
# Blanks, of which a byte order mark is one; a mark; a word without quotes; what opens a comment or a quoted name. Every
# character is one of these.
PIECE = re.compile(r"""[\s\ufeff]+|([(),:;])|([^\s\ufeff()\[\]'",:;]+)|(['"\[\]])""")
MARK, WORD, OPENING = 1, 2, 3
QUOTED = re.compile(r"""(['"])((?:(?!\1).|\1\1)*)\1""", re.DOTALL)
BRACKET = re.compile(r"[\[\]]")
WHOLE_NUMBER = re.compile(r"[+-]?[0-9]+")
FRACTION = re.compile(r"[0-9]+(?:[eE][+-]?[0-9]+)?")


# ---- tokens

class Source(typing.NamedTuple):
    """A Newick text and the words that tell where it comes from."""
    place: str
    text: str

    def fault(self, at: int, message: str) -> Refusal:
        return Refusal(f"{self.place}, line {self.text.count(chr(10), 0, at) + 1}: {message}")


class Token(typing.NamedTuple):
    """A mark ( ) , : ; or a word: a name, a support value or a length."""
    kind: str
    text: str
    at: int


def comment_end(source: Source, start: int) -> int:
    """The place after the comment that opens at start; comments may hold comments."""
    depth = 0
    for bracket in BRACKET.finditer(source.text, start):
        depth += 1 if bracket.group() == "[" else -1
        if depth == 0:
            return bracket.end()
    raise source.fault(start, "a comment opens with [ and does not end")


def quote_end(source: Source, start: int) -> int:
    """The place after the quoted name that opens at start; two quotes in a row stand for one."""
    quote = source.text[start]
    at = source.text.find(quote, start + 1)
    while at >= 0 and source.text.startswith(quote * 2, at):
        at = source.text.find(quote, at + 2)
    if at < 0:
        raise source.fault(start, f"a quoted name opens with {quote} and does not end")
    return at + 1


def name_of_word(word: str) -> str:
    """The name that a word stands for: what its quotes hold, or else itself, with a blank for each '_'."""
    found = QUOTED.fullmatch(word)
    return found[2].replace(found[1] * 2, found[1]) if found else word.replace("_", " ")


def quote_inside(source: Source, start: int, word: str) -> Refusal:
    return source.fault(start, f"a quote inside the name {quoted(word)}; put the whole name in quotes '...' and write a ' "
                               "inside it twice")


def tokens(source: Source) -> typing.Iterator[Token]:
    text, at, end = source.text, 0, len(source.text)
    while at < end:
        start, found = at, PIECE.match(text, at)
        assert found is not None
        at, kind = found.end(), found.lastindex
        if kind == MARK:
            yield Token(found[MARK], "", start)
        elif kind == WORD:
            if text[at:at + 1] in QUOTES:
                raise quote_inside(source, start, found[WORD])
            yield Token("word", found[WORD], start)
        elif kind == OPENING and text[start] == "[":
            at = comment_end(source, start)
        elif kind == OPENING and text[start] == "]":
            raise source.fault(start, "a ] without its [")
        elif kind == OPENING:
            at = quote_end(source, start)
            yield Token("quoted word", text[start + 1:at - 1].replace(text[start] * 2, text[start]), start)


# ---- one tree

def is_number(text: str) -> bool:
    """True for a number, and for NA, which stands for an unknown length."""
    try:
        float(text)
    except ValueError:
        return text == "NA"
    return True


def told_comma(fraction: str) -> str:
    return (f"{quoted(fraction)} is the end of a number with a decimal comma, or a tip's name: write numbers with a point, or "
            "that name in quotes")


class DecimalCommas:
    """Finds lengths like 0,25, which read as the length 0 and a tip 25 that has no length of its own, and support values like
    0,95 or 1,00, which read as an inner name and a tip. Each call gives the end of such a number, or None."""

    def __init__(self) -> None:
        # The whole number that was read last, the place after a comma that follows it directly, and the tip there.
        self.whole: Token | None = None
        self.is_length = False
        self.place = -1
        self.fraction: Token | None = None

    def take_length(self, token: Token) -> None:
        self.whole, self.is_length = token if WHOLE_NUMBER.fullmatch(token.text) else None, True

    def take_inner_name(self, token: Token) -> None:
        self.whole, self.is_length = token if token.kind == "word" and token.text in ("0", "1") else None, False

    def take_tip(self, token: Token) -> Token | None:
        if token.at != self.place or token.kind != "word" or not FRACTION.fullmatch(token.text):
            return None
        if self.is_length:
            self.fraction = token
            return None
        is_support = self.whole is not None and (self.whole.text == "0" or not token.text.strip("0"))
        return token if is_support else None

    def take_mark(self, token: Token) -> Token | None:
        found = self.fraction if token.kind != ":" else None
        directly = self.whole is not None and token.at == self.whole.at + len(self.whole.text)
        self.fraction, self.place = None, token.at + 1 if directly and token.kind == "," else -1
        return found


class TreeReader:
    """Takes one tree's tokens in order. `after` is what stands before the next token: a bracket or a comma where a
    node must follow, or else the part of a node that has just ended."""

    def __init__(self, source: Source, start: int, is_extra: bool) -> None:
        self.source, self.start, self.is_extra = source, start, is_extra
        self.tree = Tree()
        self.tips = 0
        self.open: list[tuple[int, int]] = []
        self.after = "("
        self.commas = DecimalCommas()

    def fault(self, at: int, message: str) -> Refusal:
        if self.is_extra:
            return self.source.fault(self.start, "text after the last tree")
        return self.source.fault(at, message)

    def add(self, name: str | None, at: int) -> int:
        if len(self.tree.parents) == MOST_NODES:
            raise self.fault(at, f"at least {self.tips} tips in one tree, and {MOST_TIPS} are the most"
                             if self.tips > MOST_TIPS else f"more than {MOST_NODES} nodes in one tree, and {MOST_TIPS} "
                             "tips are the most")
        return self.tree.add(self.open[-1][0] if self.open else -1, name)

    def take(self, token: Token) -> None:
        if token.kind in ("word", "quoted word"):
            self.take_word(token)
        elif self.after == ":":
            raise self.fault(token.at, "a ':' without a branch length")
        elif token.kind == "(":
            self.take_opening(token)
        else:
            self.take_ending(token)

    def take_word(self, token: Token) -> None:
        if self.after == "(":
            self.take_tip(token)
            self.after = "name"
        elif self.after == ")":
            self.commas.take_inner_name(token)
            self.after = "name"
        elif self.after == ":":
            if not is_number(token.text):
                raise self.fault(token.at, f"the branch length {quoted(token.text)} is not a number")
            self.commas.take_length(token)
            self.after = "length"
        else:
            raise self.fault(token.at, f"{quoted(token.text)} follows a {self.after} without a comma; "
                                       "a name with a blank needs quotes or '_'")

    def take_tip(self, token: Token) -> None:
        name = token.text.replace("_", " ") if token.kind == "word" else token.text
        if not name:
            raise self.fault(token.at, "a tip with an empty name")
        self.add(name, token.at)
        self.tips += 1
        self.check_comma(self.commas.take_tip(token))

    def take_opening(self, token: Token) -> None:
        if self.after != "(":
            raise self.fault(token.at, "a ( where a comma, a ) or a ; must stand")
        self.open.append((self.add(None, token.at), token.at))

    def take_ending(self, token: Token) -> None:
        """One of ) , : ; which all end a node or a part of it."""
        if token.kind == ";" and self.open:
            raise self.unclosed()
        if self.after == "(":
            raise self.fault(token.at, "a tip with an empty name")
        if token.kind in ")," and not self.open:
            raise self.fault(token.at, "a ) without its (" if token.kind == ")" else "a comma outside the brackets")
        if token.kind == ":" and self.after == "length":
            raise self.fault(token.at, "a second branch length")
        self.check_comma(self.commas.take_mark(token))
        if token.kind == ")":
            self.open.pop()
        self.after = "(" if token.kind == "," else token.kind

    def check_comma(self, fraction: Token | None) -> None:
        if fraction is not None:
            raise self.fault(fraction.at, told_comma(fraction.text))

    def unclosed(self) -> Refusal:
        return self.fault(self.open[-1][1], "a ( without its )")

    def unended(self) -> Refusal:
        """The fault of a text that ends inside the tree."""
        if self.open:
            return self.unclosed()
        return self.fault(self.start, "the tree that starts here has no ; at its end")


# ---- the trees of a text

def read_trees(source: Source, wanted: int | None) -> list[Tree]:
    """The trees of a text that must hold so many, or, for None, one or more."""
    trees: list[Tree] = []
    reader: TreeReader | None = None
    for token in tokens(source):
        if reader is None:
            reader = TreeReader(source, token.at, wanted is not None and len(trees) >= wanted)
        reader.take(token)
        if token.kind == ";":
            trees.append(reader.tree)
            reader = None
    if reader is not None:
        raise reader.unended()
    check_number(source.place, len(trees), wanted)
    return trees


def check_number(place: str, found: int, wanted: int | None) -> None:
    if found == wanted or wanted is None and found > 0:
        return
    held = {0: "no tree", 1: "one tree"}.get(found, counted(found, "tree"))
    needed = {None: "one or more are needed", 1: "one tree is needed here", 2: "two trees are needed",
              3: "three trees are needed"}[wanted]
    raise Refusal(f"{place}: {held} in the file; {needed}")
