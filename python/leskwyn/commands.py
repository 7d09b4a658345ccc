"""The commands compare, why, influence, copy, same, exchange, view, view-topology, three, matrix, nearest and against, and the way
from the command line to each command.

    leskwyn COMMAND [OPTION...] [FILE...]

Exit status: 0 done; 1 the trees are refused; 2 wrong usage, a file that cannot be read or written, or no library. Of same: 0 the
trees are the same; 1 they differ; 2 all else. Of view and view-topology: 1 names that are asked about are refused; 2 all else.
"""
import argparse
import contextlib
import os
import sys
import typing
from collections.abc import Callable, Iterator

from leskwyn import __version__, counting, files, text
from leskwyn._library import TOP
from leskwyn.api import (compare_file, compare_three, compare_trees, copy_tree, exchange_tree, influence_file, influence_trees,
                         nearest_tree, optional_struck, same_file, same_trees, view_tree, view_trees, why_file, why_trees)
from leskwyn.copies import Sameness
from leskwyn.errors import LeskwynError, Refusal, Trouble, counted, quoted
from leskwyn.figures import Comparison
from leskwyn.labels import levels_listed, outgroup_first
from leskwyn.median import check_enough
from leskwyn.sources import ComparisonFile, is_comparison_file, several_trees, told_apart, trees_of_bytes, trees_of_path
from leskwyn.trees import MOST_TIPS, Placed, checked, labels_of_names, table_of
from leskwyn.usage import (Parser, ProgressLine, Usage, add_common, add_jobs, add_levels, add_outgroup, add_strike, add_weight,
                           number_of, struck_names, with_common)
from leskwyn.views import NOT_DIFFERENT, NOT_SEEN

HELP = """\
usage: leskwyn COMMAND [OPTION...] [FILE...]

Counts population trees against each other, four populations at a time, by a library that is proved to count right.

  leskwyn                          compares the two example trees
  leskwyn compare A B              two trees: what they part alike and differently, the distances
  leskwyn why A B NAME NAME NAME NAME
                                   four populations: how each tree parts them, and by which edge
  leskwyn influence A B            each population: how far it drives the distance
  leskwyn same A B                 two trees: whether they are the same
  leskwyn copy FILE                one tree, in the form that all trees with its splits have
  leskwyn exchange FILE            one tree: how far it moves if two populations are mixed up
  leskwyn view A B --levels FILE --viewer K
                                   two trees: what a viewer may see of them
  leskwyn view-topology FILE NAME NAME NAME NAME --levels FILE --viewer K
                                   four populations: how a tree parts them, if a viewer may see them
  leskwyn three A B C              three trees side by side: each two of them, and which are closest
  leskwyn against REF FILE...      one tree against many, a row for each
  leskwyn matrix FILE...           all pairs of trees, a square of distances
  leskwyn nearest FILE...          many trees: the one nearest to all of them
  leskwyn table A B -o PAIR        two trees as one comparison file
  leskwyn show PAIR                a comparison file as tables and trees
  leskwyn --help, --version        this text; the version

Each command has its own --help. Trees are Newick text, with 2 to 256 tips; - stands for standard input.

exit status: 0 done; 1 the trees are refused; 2 wrong usage, a file that cannot be read or written, or no library;
             of same: 0 the same; 1 different; 2 all else
             of view and view-topology: 0 done; 1 names that are asked about are refused; 2 all else
"""
EXAMPLES = ("examples/feathers.nwk", "examples/wings.nwk")
INTERRUPTED = 130
# What bin/leskwyn is told where a command line is understood and there is no library yet.
LIBRARY_WANTED = 3
STATUS = """
exit status: 0 done; 1 refused; 2 wrong usage, a file that cannot be read or written, or no library"""


# ---- two trees

def add_tables(parser: Parser) -> None:
    parser.add_argument("--tables", action="store_true", help="take the one file for a comparison file, whatever its bytes")


def pair_read(parser: Parser, options: argparse.Namespace) -> list[Placed] | ComparisonFile:
    """The trees of two files, those of one, or the comparison file that holds them."""
    if len(options.trees) == 2:
        return with_common([placed for path in options.trees for placed in trees_of_path(path, 1)], options.common)
    place, content = files.shown_path(options.trees[0]), files.read_bytes(options.trees[0])
    if not options.tables and not is_comparison_file(content):
        return with_common(trees_of_bytes(place, content, 2), options.common)
    if options.common:
        parser.error("--common goes by names, and a comparison file has none")
    if getattr(options, "outgroup", None) is not None:
        parser.error("--outgroup goes by names, and a comparison file has none: its outgroup is label 0")
    return ComparisonFile(place, content)


def check_pair(parser: Parser, options: argparse.Namespace, fewest: int, hint: str = "") -> None:
    """Turns other than one or two files away, and other than one with --tables."""
    if not fewest <= len(options.trees) <= 2 or options.tables and len(options.trees) != 1:
        parser.error(f"{len(options.trees)} files; " + ("one comparison file is needed" if options.tables else
                                                        f"one or two are needed{hint}"))


def pair_options(parser: Parser, arguments: list[str]) -> argparse.Namespace:
    """The options of a command that takes the trees of two files, or of one, and strikes."""
    options = parser.parsed(arguments, "trees", "strike_file")
    check_pair(parser, options, 1)
    return options


# ---- compare

def compare_parser() -> Parser:
    parser = Parser("compare", usage="leskwyn compare [A [B]] [--format text|tsv|json | --listing] [--weight W] "
                                     "[--strike NAME]... [--strike-file FILE]... [--outgroup NAME] [--common] [--tables]",
                    description="Compares two trees: each in a Newick file, both in one, or as one comparison file.",
                    epilog="Without a file the two example trees are compared. docs/COMMANDS.md has the keys of tsv and json.\n"
                           + STATUS)
    parser.add_argument("trees", nargs="*", metavar="FILE", help="Newick or comparison files; - is standard input")
    forms = parser.add_mutually_exclusive_group()
    forms.add_argument("--format", choices=["text", "tsv", "json"], default="text", help="for people, or for programs")
    forms.add_argument("--listing", dest="format", action="store_const", const="listing",
                       help="the six lines of the proved program compare, or 'refused N'")
    add_weight(parser)
    add_strike(parser)
    add_outgroup(parser)
    add_common(parser)
    add_tables(parser)
    return parser


def example_trees() -> list[Placed]:
    paths = [os.path.join(TOP, name) for name in EXAMPLES]
    if not all(map(os.path.isfile, paths)):
        raise Trouble(f"the example trees {' and '.join(EXAMPLES)} are not in {TOP}: name two files")
    files.say_line(f"these are the example trees {' and '.join(EXAMPLES)}; `leskwyn compare A B` compares your own")
    return [Placed(name, placed.tree) for name, path in zip(EXAMPLES, paths) for placed in trees_of_path(path, 1)]


def compared(options: argparse.Namespace) -> Comparison:
    pair = pair_read(compare_parser(), options) if options.trees else example_trees()
    struck = struck_names(options)
    if isinstance(pair, ComparisonFile):
        return compare_file(*pair, options.weight, struck)
    return compare_trees(*pair, outgroup=options.outgroup, weight=options.weight, struck=struck)


def compare_options(arguments: list[str]) -> argparse.Namespace:
    parser = compare_parser()
    options = parser.parsed(arguments, "trees", "strike_file")
    check_pair(parser, options, 0, " (leskwyn matrix takes more)")
    if options.weight is not None and options.format == "listing":
        parser.error("--listing and --weight exclude each other: the six lines have no weighted distance")
    if options.format == "listing" and (options.strike or options.strike_file):
        parser.error(f"--listing and {'--strike' if options.strike else '--strike-file'} exclude each other: the proved program "
                     "keeps all populations")
    return options


def compare_command(options: argparse.Namespace) -> int:
    try:
        found = compared(options)
    except Refusal as refusal:
        if options.format == "listing" and refusal.number is not None:
            files.print_text(f"refused {refusal.number}\n")
        raise
    files.print_text(text.FORMATS[options.format]([found]))
    if options.format != "text":
        say_triplets(found)
    return 0


def say_triplets(found: Comparison) -> None:
    """Tells of figures for programs that the triplets count all populations, if some are struck."""
    if found.struck:
        files.say_line(f"note: {text.told_triplets(found.tips)}")


# ---- why

def why_parser() -> Parser:
    parser = Parser("why", usage="leskwyn why A [B] NAME NAME NAME NAME [--format text|json] [--outgroup NAME] [--common] "
                                 "[--tables]",
                    description="Shows why two trees part four populations alike or differently: the edge that parts them in each "
                                "tree,\nor the node where they meet.",
                    epilog="The trees are given as to compare; of a comparison file the names are labels. Where several edges part "
                           "the\nfour, that with the lowest number in the tree's table is told. docs/COMMANDS.md has the keys of "
                           "json.\n" + STATUS)
    parser.add_argument("words", nargs="*", metavar="FILE, NAME", help="one or two Newick files, or a comparison file; then four "
                                                                       "names. - is standard input")
    parser.add_argument("--format", choices=list(text.EVIDENCE_FORMATS), default="text", help="for people, or for programs")
    parser.add_argument("--outgroup", metavar="NAME", help="the tip from which edges and nodes are numbered; else the first of the "
                                                           "sorted names")
    add_common(parser)
    add_tables(parser)
    return parser


def why_options(arguments: list[str]) -> argparse.Namespace:
    parser = why_parser()
    options = parser.parsed_words(arguments, "words")
    options.trees, options.names = options.words[:-4], options.words[-4:]
    if len(options.trees) not in (1, 2):
        parser.error(f"{counted(len(options.words), 'word')}; one or two files and four names are needed")
    if options.tables and len(options.trees) != 1:
        parser.error("2 files; one comparison file is needed")
    parser.check_files(options.trees)
    return options


def why_pair(options: argparse.Namespace) -> list[Placed] | ComparisonFile:
    """Where one file does not do and the first name is a file too, a name is missing."""
    try:
        return pair_read(why_parser(), options)
    except Refusal:
        if len(options.trees) == 1 and os.path.isfile(options.names[0]):
            why_parser().error(f"{quoted(options.names[0])} is a file, and after it stand three names; four are needed")
        raise


def why_command(options: argparse.Namespace) -> int:
    pair = why_pair(options)
    found = (why_file(*pair, options.names) if isinstance(pair, ComparisonFile) else
             why_trees(*pair, options.names, outgroup=options.outgroup))
    files.print_text(text.EVIDENCE_FORMATS[options.format](found))
    return 0


# ---- influence

def influence_parser() -> Parser:
    parser = Parser("influence", usage="leskwyn influence A [B] [--drop K] [--format text|tsv|json] [--strike NAME]... "
                                       "[--strike-file FILE]... [--common] [--tables]",
                    description="Shows which populations drive the distance of two trees: of each the sets of four that hold it, "
                                "and the share\nof these that the trees see differently, the greatest share first.",
                    epilog="The trees are given as to compare. docs/COMMANDS.md has the keys of tsv and json.\n" + STATUS)
    parser.add_argument("trees", nargs="*", metavar="FILE", help="Newick or comparison files; - is standard input")
    parser.add_argument("--drop", type=number_of("populations", MOST_TIPS), metavar="K",
                        help="strike K populations in turn, each time the first of those that are left, and tell the distance "
                             "after each; it ends at 0")
    parser.add_argument("--format", choices=list(text.INFLUENCE_FORMATS), default="text", help="for people, or for programs")
    add_strike(parser)
    add_common(parser)
    add_tables(parser)
    return parser


def influence_options(arguments: list[str]) -> argparse.Namespace:
    return pair_options(influence_parser(), arguments)


def influence_command(options: argparse.Namespace) -> int:
    pair, struck = pair_read(influence_parser(), options), struck_names(options)
    found = (influence_file(*pair, struck, options.drop) if isinstance(pair, ComparisonFile) else
             influence_trees(*pair, struck=struck, drop=options.drop))
    if options.format == "tsv" and found.struck is not None:
        files.say_line(text.told_struck(found.struck, found.tips))
    files.print_text(text.INFLUENCE_FORMATS[options.format](found))
    if options.format != "text" and text.told_end(found):
        files.say_line(f"note: {text.told_end(found)}")
    return 0


# ---- copy and same

def copy_parser() -> Parser:
    parser = Parser("copy", usage="leskwyn copy FILE [--table] [--strike NAME]... [--strike-file FILE]...",
                    description="Prints the canonical copy of a tree: the one Newick text of all trees with the same splits of the "
                                "kept\npopulations.",
                    epilog="The copy hangs at the first of the sorted names that are kept, and branches stand in the order of their "
                           "first\nnames. Two populations or more must be kept.\n" + STATUS)
    parser.add_argument("trees", nargs="*", metavar="FILE", help="a Newick file of one tree; - is standard input")
    parser.add_argument("--table", action="store_true", help="print the words of the copy's table in place of the text")
    add_strike(parser)
    return parser


def copy_options(arguments: list[str]) -> argparse.Namespace:
    parser = copy_parser()
    options = parser.parsed(arguments, "trees", "strike_file")
    parser.check_one(options.trees)
    return options


def copy_command(options: argparse.Namespace) -> int:
    found = copy_tree(*trees_of_path(options.trees[0], 1), struck_names(options))
    if found.struck is not None:
        files.say_line(text.told_struck(found.struck, found.tips))
    files.print_text(f"{' '.join(map(str, found.table)) if options.table else found.newick}\n")
    return 0


def same_parser() -> Parser:
    parser = Parser("same", usage="leskwyn same A [B] [--quiet] [--strike NAME]... [--strike-file FILE]... [--common] [--tables]",
                    description="Tells whether two trees are the same on the kept populations: whether their canonical copies are.",
                    epilog="The trees are given as to compare; a struck population may be in one of them alone.\n\n"
                           "exit status: 0 the same; 1 different; 2 refused, wrong usage, a file that cannot be read or written, "
                           "or no library")
    parser.add_argument("trees", nargs="*", metavar="FILE", help="Newick or comparison files; - is standard input")
    parser.add_argument("--quiet", action="store_true", help="print nothing: the exit status tells")
    add_strike(parser)
    add_common(parser)
    add_tables(parser)
    return parser


def same_options(arguments: list[str]) -> argparse.Namespace:
    return pair_options(same_parser(), arguments)


def sameness(options: argparse.Namespace) -> Sameness:
    """Trees that are refused are trouble here: the status of a refusal says that they differ."""
    try:
        pair, struck = pair_read(same_parser(), options), struck_names(options)
        return same_file(*pair, struck) if isinstance(pair, ComparisonFile) else same_trees(*pair, struck=struck)
    except Refusal as refusal:
        raise Trouble(refusal.reason, refusal.number) from None


def same_command(options: argparse.Namespace) -> int:
    found = sameness(options)
    if not options.quiet:
        files.print_text(f"{text.told_sameness(found)}\n")
    return 0 if found.is_same else 1


# ---- exchange

def exchange_parser() -> Parser:
    parser = Parser("exchange", usage="leskwyn exchange FILE [--pairs K] [--format text|tsv|json]",
                    description="Exchanges the names of each two populations of a tree in turn, as if two envelopes were mixed up, "
                                "and\ntallies how far that moves the tree: how many sets of four it parts differently then.",
                    epilog="docs/COMMANDS.md has the columns of tsv and the keys of json.\n" + STATUS)
    parser.add_argument("trees", nargs="*", metavar="FILE", help="a Newick file of one tree; - is standard input")
    parser.add_argument("--pairs", type=number_of("pairs"), metavar="K",
                        help="show the K pairs of populations that move the tree most and least, or all where there are fewer")
    parser.add_argument("--format", choices=list(text.EXCHANGE_FORMATS), default="text", help="for people, or for programs")
    return parser


def exchange_options(arguments: list[str]) -> argparse.Namespace:
    parser = exchange_parser()
    options = parser.parsed(arguments, "trees")
    parser.check_one(options.trees)
    return options


def exchange_command(options: argparse.Namespace) -> int:
    found = exchange_tree(*trees_of_path(options.trees[0], 1), options.pairs)
    files.print_text(text.EXCHANGE_FORMATS[options.format](found))
    return 0


# ---- view and view-topology

VIEW_STATUS = """
What is printed tells of visible populations alone, and so does status 1. Status 2 is the desk's: its line may name any
population or file, and nothing is printed.

exit status: 0 done; 1 names that are asked about are refused; 2 refused files, wrong usage, a file that cannot be read or
             written, or no library"""


@contextlib.contextmanager
def for_the_desk() -> Iterator[None]:
    """What is wrong with the desk's files is trouble: the status of a refusal is for the names that a viewer asks about."""
    try:
        yield
    except Refusal as refusal:
        if refusal.number in (NOT_SEEN, NOT_DIFFERENT):
            raise
        raise Trouble(refusal.reason, refusal.number) from None


def check_levels(parser: Parser, options: argparse.Namespace) -> None:
    if len(options.levels) != 1:
        parser.error(f"{counted(len(options.levels), 'file')} of levels; one is needed")
    parser.check_files([*options.trees, *options.levels])


def levels_read(options: argparse.Namespace) -> tuple[list[tuple[str, int]], int, str]:
    """The levels with their names, the viewer's, and the words that tell in a message where they stand."""
    path, = options.levels
    return levels_listed(path), options.viewer, f"{files.shown_path(path)}: the list"


def view_parser() -> Parser:
    parser = Parser("view", usage="leskwyn view A [B] --levels FILE --viewer K [--format text|tsv|json]",
                    description="Compares two trees for a viewer: populations above the viewer's level are hidden, and the figures "
                                "are those of\nthe others.",
                    epilog="docs/COMMANDS.md has the keys of tsv and json.\n" + VIEW_STATUS)
    parser.add_argument("trees", nargs="*", metavar="FILE", help="Newick files; - is standard input")
    add_levels(parser)
    parser.add_argument("--format", choices=list(text.VIEW_FORMATS), default="text", help="for people, or for programs")
    return parser


def view_options(arguments: list[str]) -> argparse.Namespace:
    parser = view_parser()
    options = parser.parsed_words(arguments, "trees")
    if len(options.trees) not in (1, 2):
        parser.error(f"{counted(len(options.trees), 'file')}; one or two are needed")
    check_levels(parser, options)
    return options


def view_command(options: argparse.Namespace) -> int:
    with for_the_desk():
        found = view_trees(*several_trees(options.trees, 2), *levels_read(options))
    files.print_text(text.VIEW_FORMATS[options.format](found))
    return 0


def view_topology_parser() -> Parser:
    parser = Parser("view-topology", usage="leskwyn view-topology FILE NAME NAME NAME NAME --levels FILE --viewer K "
                                           "[--format text|tsv|json]",
                    description="Tells a viewer how a tree parts four populations: two and two, or not at all. Populations above "
                                "the viewer's level\nare hidden, and get the answer of names that are no population.",
                    epilog="docs/COMMANDS.md has the columns of tsv and the keys of json.\n" + VIEW_STATUS)
    parser.add_argument("words", nargs="*", metavar="FILE, NAME", help="a Newick file of one tree, then four names; - is standard "
                                                                       "input")
    add_levels(parser)
    parser.add_argument("--format", choices=list(text.TOPOLOGY_FORMATS), default="text", help="for people, or for programs")
    return parser


def view_topology_options(arguments: list[str]) -> argparse.Namespace:
    parser = view_topology_parser()
    options = parser.parsed_words(arguments, "words")
    options.trees, options.names = options.words[:1], options.words[1:]
    if len(options.words) != 5:
        parser.error(f"{counted(len(options.words), 'word')}; a file and four names are needed")
    check_levels(parser, options)
    return options


def view_topology_command(options: argparse.Namespace) -> int:
    with for_the_desk():
        levels, viewer, place = levels_read(options)
        found = view_tree(*trees_of_path(options.trees[0], 1), levels, viewer, options.names, place)
    files.print_text(text.TOPOLOGY_FORMATS[options.format](found))
    return 0


# ---- three

def three_parser() -> Parser:
    parser = Parser("three", usage="leskwyn three A [B C] [--format text|tsv|json] [--weight W] [--strike NAME]... "
                                   "[--strike-file FILE]... [--common]",
                    description="Sets three trees side by side, each in a Newick file or all in one: the sets of four of each two, "
                                "their distances,\nand which two are closest.",
                    epilog="With --weight the closest are those with the least weighted distance. docs/COMMANDS.md has the columns "
                           "of tsv\nand the keys of json.\n" + STATUS)
    parser.add_argument("trees", nargs="*", metavar="FILE", help="Newick files; - is standard input")
    parser.add_argument("--format", choices=list(text.THREE_FORMATS), default="text", help="for people, or for programs")
    add_weight(parser)
    add_strike(parser)
    add_common(parser)
    return parser


def three_options(arguments: list[str]) -> argparse.Namespace:
    parser = three_parser()
    options = parser.parsed(arguments, "trees", "strike_file")
    if len(options.trees) not in (1, 3):
        parser.error(f"{counted(len(options.trees), 'file')}; one or three are needed")
    return options


def three_command(options: argparse.Namespace) -> int:
    trees = with_common(several_trees(options.trees, 3), options.common)
    found = compare_three(trees, weight=options.weight, struck=struck_names(options))
    files.print_text(text.THREE_FORMATS[options.format](found))
    if options.format != "text" and text.told_triangle(found):
        files.say_line(f"note: {text.told_triangle(found)}")
    return 0


# ---- many trees

def read_all(paths: list[str]) -> list[Placed]:
    return [placed for path in paths for placed in trees_of_path(path, None)]


def matrix_parser() -> Parser:
    parser = Parser("matrix", usage="leskwyn matrix FILE... [--measure quartet|splits|triplets|weighted] [--weight W] "
                                    "[--normalised] [--format tsv|phylip] [--jobs N] [--strike NAME]... [--strike-file FILE]... "
                                    "[--outgroup NAME] [--common]",
                    description="Compares all pairs of trees; a file may hold several.",
                    epilog="A tree is told by its file, and as FILE#K where a file holds several.\n" + STATUS)
    parser.add_argument("trees", nargs="*", metavar="FILE", help="Newick files; - is standard input")
    parser.add_argument("--measure", choices=sorted(counting.MEASURES), default="quartet",
                        help="the quartet distance, the Robinson-Foulds distance of splits, the triplet distance, or the "
                             "weighted distance")
    add_weight(parser)
    parser.add_argument("--normalised", action="store_true", help="over all sets of four, over the splits of both trees, or "
                                                                  "over all sets of three without the outgroup")
    parser.add_argument("--format", choices=sorted(text.SQUARES), default="tsv", help="a table, or PHYLIP's square")
    add_jobs(parser)
    add_strike(parser)
    add_outgroup(parser)
    add_common(parser)
    return parser


def matrix_options(arguments: list[str]) -> argparse.Namespace:
    parser = matrix_parser()
    options = parser.parsed(arguments, "trees", "strike_file")
    if not options.trees:
        parser.error("no files; one or more are needed")
    fault = counting.wrong_weight(options.measure, options.weight)
    if fault:
        parser.error(fault)
    return options


def matrix_command(options: argparse.Namespace) -> int:
    trees = with_common(read_all(options.trees), options.common)
    names = outgroup_first(checked(trees), options.outgroup)
    labels = labels_of_names(names)
    tables = [table_of(placed.tree, labels) for placed in trees]
    struck = optional_struck(struck_names(options), names)
    if struck is not None:
        files.say_line(text.told_struck([names[label] for label in struck], len(names)))
    if options.measure == "triplets" and struck:
        files.say_line(f"note: {text.told_triplets(len(names))}")
    if options.measure == "triplets" and options.outgroup is None:
        files.say_line(f"the outgroup is {text.told_outgroup(names)}")
    with ProgressLine(len(trees) * (len(trees) - 1) // 2) as progress:
        square = counting.distances(tables, options.measure, options.normalised, options.jobs or counting.default_jobs(),
                                    progress, options.weight, struck)
    files.print_text(text.SQUARES[options.format](told_apart([placed.place for placed in trees]), square))
    return 0


def nearest_parser() -> Parser:
    parser = Parser("nearest", usage="leskwyn nearest FILE... [--format text|tsv|json] [--jobs N] [--strike NAME]... "
                                     "[--strike-file FILE]... [--common]",
                    description="Names the tree nearest to all, with the least summed distance to them, and tells that sum of each "
                                "tree; a file may hold several.",
                    epilog="Of equal sums the earliest tree is named. A tree is told by its file, and as FILE#K where a file holds "
                           "several.\ndocs/COMMANDS.md has the columns of tsv and the keys of json.\n" + STATUS)
    parser.add_argument("trees", nargs="*", metavar="FILE", help="Newick files, of two trees or more in all; - is standard input")
    parser.add_argument("--format", choices=list(text.NEAREST_FORMATS), default="text", help="for people, or for programs")
    add_jobs(parser)
    add_strike(parser)
    add_common(parser)
    return parser


def nearest_options(arguments: list[str]) -> argparse.Namespace:
    parser = nearest_parser()
    options = parser.parsed(arguments, "trees", "strike_file")
    if not options.trees:
        parser.error("no files; one or more are needed")
    return options


def nearest_command(options: argparse.Namespace) -> int:
    read = read_all(options.trees)
    check_enough(len(read))
    trees, struck = with_common(read, options.common), struck_names(options)
    with ProgressLine(len(trees) * (len(trees) - 1) // 2) as progress:
        found = nearest_tree(trees, jobs=options.jobs or counting.default_jobs(), progress=progress, struck=struck)
    files.print_text(text.NEAREST_FORMATS[options.format](found))
    return 0


def against_parser() -> Parser:
    parser = Parser("against", usage="leskwyn against REF FILE... [--format tsv|json] [--weight W] [--jobs N] [--strike NAME]... "
                                     "[--strike-file FILE]... [--outgroup NAME] [--common]",
                    description="Compares one tree with each of many; a file may hold several, but REF holds one.",
                    epilog="REF is the first tree of each row. docs/COMMANDS.md has the keys of tsv and json.\n" + STATUS)
    parser.add_argument("trees", nargs="*", metavar="FILE", help="REF, then Newick files; - is standard input")
    parser.add_argument("--format", choices=["tsv", "json"], default="tsv", help="rows, or an object on each line")
    add_weight(parser)
    add_jobs(parser)
    add_strike(parser)
    add_outgroup(parser)
    add_common(parser)
    return parser


def against_options(arguments: list[str]) -> argparse.Namespace:
    parser = against_parser()
    options = parser.parsed(arguments, "trees", "strike_file")
    if len(options.trees) < 2:
        parser.error("REF and one file or more are needed")
    return options


def against_command(options: argparse.Namespace) -> int:
    trees = with_common(trees_of_path(options.trees[0], 1) + read_all(options.trees[1:]), options.common)
    names = outgroup_first(checked(trees), options.outgroup)
    labels = labels_of_names(names)
    tables = [(placed.place, table_of(placed.tree, labels)) for placed in trees]
    struck = optional_struck(struck_names(options), names)
    with ProgressLine(len(trees) - 1) as progress:
        rows = counting.compared_to_one(tables[0], tables[1:], names, options.jobs or counting.default_jobs(), progress,
                                        options.weight, struck)
    files.print_text(text.FORMATS[options.format](rows))
    say_triplets(rows[0])
    return 0


# ---- the command line

def table_command(arguments: list[str]) -> int:
    from leskwyn.tabling import table_command
    return table_command(arguments)


def show_command(arguments: list[str]) -> int:
    from leskwyn.tabling import show_command
    return show_command(arguments)


class Counting(typing.NamedTuple):
    """A command that asks the library: its options, of the words after its name, and what it does; the exit status."""
    options: Callable[[list[str]], argparse.Namespace]
    run: Callable[[argparse.Namespace], int]


COUNTING = {"compare": Counting(compare_options, compare_command), "matrix": Counting(matrix_options, matrix_command),
            "against": Counting(against_options, against_command), "why": Counting(why_options, why_command),
            "influence": Counting(influence_options, influence_command), "copy": Counting(copy_options, copy_command),
            "same": Counting(same_options, same_command), "exchange": Counting(exchange_options, exchange_command),
            "view": Counting(view_options, view_command), "view-topology": Counting(view_topology_options, view_topology_command),
            "three": Counting(three_options, three_command), "nearest": Counting(nearest_options, nearest_command)}
OTHERS = {"table": table_command, "show": show_command}


def counted_later(options: argparse.Namespace) -> int:
    """In the place of a command that has no library yet: a file that is not there is told."""
    for path in [*options.trees, *getattr(options, "strike_file", []), *getattr(options, "levels", [])]:
        files.check_there(path)
    return LIBRARY_WANTED


def dispatched(arguments: list[str], has_library: bool) -> int:
    """Runs the command; the exit status."""
    command, rest = (arguments[0], arguments[1:]) if arguments else ("compare", [])
    if command in ("-h", "--help"):
        files.print_text(HELP)
    elif command == "--version":
        files.print_text(f"leskwyn (Leskwyn) {__version__}\n")
    elif command in COUNTING:
        options = COUNTING[command].options(rest)
        return COUNTING[command].run(options) if has_library else counted_later(options)
    elif command in OTHERS:
        return OTHERS[command](rest)
    else:
        raise Usage(f"no command '{command}'; the commands are {', '.join([*COUNTING, *OTHERS])} (leskwyn --help tells the usage)")
    return 0


def main(arguments: list[str], has_library: bool = True) -> int:
    try:
        return dispatched(arguments, has_library)
    except Usage as usage:
        files.say_line(str(usage))
        return 2
    except LeskwynError as error:
        files.say_line(str(error))
        return error.status
    except KeyboardInterrupt:
        files.say_line("interrupted")
        return INTERRUPTED


def run(has_library: bool = True) -> None:
    """The command as a program. Without a library it does what needs none, tells wrong usage and files that are not there,
    and else ends with LIBRARY_WANTED."""
    if sys.stderr is not None:
        sys.stderr.reconfigure(encoding="utf-8", errors="backslashreplace", newline="\n")
    sys.exit(main(sys.argv[1:], has_library))
