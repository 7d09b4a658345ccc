"""Where trees come from: Newick text, files, NEXUS through DendroPy, and tree objects of DendroPy and ETE."""
import os
import re
import typing
from collections.abc import Callable, Iterable

from leskwyn import files
from leskwyn.errors import Refusal, Trouble
from leskwyn.newick import Source, check_number, name_of_word, read_trees, told_comma
from leskwyn.tables import ORDINALS
from leskwyn.trees import Placed, Tree

# A tree, or a file of trees, as a caller gives it.
Given = typing.Any
LONGEST_PATH = 4096


def is_comparison_file(content: bytes) -> bool:
    """True for bytes that are no text: each tree table has a zero byte, and text has none but in UTF-16 and UTF-32."""
    return b"\0" in content and files.encoding_of(content)[1] == 0 and not is_unmarked(content)


def is_unmarked(content: bytes) -> bool:
    """True for UTF-16 without its byte order mark. A table's third word is 0, so that none starts with three letters."""
    for start in (0, 1):
        letters, others = content[start:6:2], content[1 - start:6:2]
        if others == b"\0\0\0" and all(32 <= letter < 127 or letter in b"\t\r\n" for letter in letters):
            return True
    return False


class ComparisonFile(typing.NamedTuple):
    """The bytes of a comparison file, and the words that tell in a message where they come from."""
    place: str
    content: bytes


# ---- NEXUS

# A length or a support value with a decimal comma, such as :0,25 and )0,95; a tip after a length has a length of its own.
NEXUS_COMMA = re.compile(r"(?::\s*[+-]?[0-9]+,([0-9]+(?:[eE][+-]?[0-9]+)?)(?!\s*:)|\)(?:0,([0-9]+)|1,(0+)))(?=[\s,()\[:;])")
TREES_BLOCK = re.compile(r"\bbegin\s+trees\s*;", re.IGNORECASE)
UTREE = re.compile(r";\s*(?:\[[^\]]*\]\s*)*utree\b", re.IGNORECASE)


def check_nexus(source: Source) -> None:
    """Turns away what DendroPy takes for something else: the end of a number for a tip, and a UTREE for nothing at all."""
    block = TREES_BLOCK.search(source.text)
    if block is None:
        return
    comma = NEXUS_COMMA.search(source.text, block.end())
    if comma is not None and comma.lastindex is not None:
        raise source.fault(comma.start(comma.lastindex), told_comma(comma[comma.lastindex]))
    utree = UTREE.search(source.text, block.start())
    if utree is not None:
        raise source.fault(utree.end(), "a UTREE, which DendroPy passes over: write TREE")


def nexus_trees(source: Source) -> list[Tree]:
    """The trees of a NEXUS text, as DendroPy reads them."""
    try:
        import dendropy
    except ImportError:
        raise Trouble(f"{source.place} is a NEXUS file, and reading one needs the Python package DendroPy, which is not "
                      "installed; or save the trees as Newick") from None
    try:
        trees = list(dendropy.TreeList.get(data=source.text, schema="nexus"))
    except Exception as error:  # whatever DendroPy raises, the text is turned away
        raise Refusal(f"{source.place}: DendroPy cannot read it: {error}") from None
    check_nexus(source)
    return [tree_of_object(source.place, tree) for tree in trees]


# ---- texts and files

def trees_of_text(place: str, text: str, wanted: int | None) -> list[Placed]:
    """The trees of a text; where there are several, each has its place."""
    source = Source(place, text)
    if text[:1000].lstrip()[:6].upper() == "#NEXUS":
        trees = nexus_trees(source)
        check_number(place, len(trees), wanted)
    else:
        trees = read_trees(source, wanted)
    if len(trees) == 1:
        return [Placed(place, trees[0])]
    told = [f"#{at + 1}" for at in range(len(trees))] if wanted is None else [f", {ordinal} tree" for ordinal in ORDINALS]
    return [Placed(place + one, tree) for one, tree in zip(told, trees)]


def trees_of_bytes(place: str, content: bytes, wanted: int | None) -> list[Placed]:
    if is_comparison_file(content):
        raise Refusal(f"{place} is a comparison file, without names: `leskwyn compare` takes it alone, and `leskwyn show` "
                      "shows its trees")
    return trees_of_text(place, files.decoded(place, content), wanted)


def trees_of_path(path: str, wanted: int | None) -> list[Placed]:
    return trees_of_bytes(files.shown_path(path), files.read_bytes(path), wanted)


def several_trees(paths: list[str], wanted: int) -> list[Placed]:
    """So many trees: those of as many files with one tree each, or of one with all."""
    if len(paths) == 1:
        return trees_of_path(paths[0], wanted)
    return [placed for path in paths for placed in trees_of_path(path, 1)]


def told_apart(places: list[str]) -> list[str]:
    """The places, with a number where one stands again."""
    seen: dict[str, int] = {}
    for at, place in enumerate(places):
        seen[place] = seen.get(place, 0) + 1
        places[at] = place if seen[place] == 1 else f"{place}({seen[place]})"
    return places


def named_file(given: Given) -> str | None:
    """The path, for an os.PathLike and for a str that names a file that is there; else None."""
    if isinstance(given, os.PathLike):
        return os.fsdecode(given)
    if isinstance(given, str) and given and len(given) <= LONGEST_PATH and "\0" not in given and os.path.exists(given):
        return given
    return None


def trees_given(given: Given, place: str, wanted: int | None) -> list[Placed]:
    """The trees of what a Python caller gives; `place` tells of a text or an object in messages."""
    path = named_file(given)
    if path is not None:
        return trees_of_bytes(path, files.read_bytes(path), wanted)
    if isinstance(given, str):
        if not any(mark in given for mark in "(;"):
            raise Trouble(f"{place}: '{given[:60]}' is neither Newick text nor the name of a file")
        return trees_of_text(place, given, wanted)
    if not is_dendropy(given) and not is_ete(given):
        raise TypeError(f"{place}: a tree is Newick text, a path, or a DendroPy or ETE tree, not {type(given).__name__}")
    check_number(place, 1, wanted)
    return [Placed(place, tree_of_object(place, given))]


# ---- tree objects

def is_dendropy(given: Given) -> bool:
    return hasattr(given, "seed_node")


def is_ete(given: Given) -> bool:
    return hasattr(given, "children") and hasattr(given, "name")


def tree_of_object(place: str, given: Given) -> Tree:
    """The tree of an object, told by what its nodes have. A name in ETE is a word as it stands in Newick text."""
    if is_dendropy(given):
        return tree_of_nodes(place, given.seed_node, lambda node: node.child_nodes(),
                             lambda node: node.label if node.taxon is None else node.taxon.label)
    return tree_of_nodes(place, given, lambda node: node.children, lambda node: name_of_word(str(node.name or "")))


def tree_of_nodes(place: str, root: Given, below: Callable[[Given], Iterable[Given]], name: Callable[[Given], str | None]) -> Tree:
    """The tree of nodes, each with those below it; what has none is a tip."""
    tree, ahead = Tree(), [(root, -1)]
    while ahead:
        node, parent = ahead.pop()
        children = list(below(node))
        tip = None if children else name(node)
        if not children and not tip:
            raise Refusal(f"{place}: a tip with an empty name")
        number = tree.add(parent, tip)
        ahead += [(child, number) for child in reversed(children)]
    return tree
