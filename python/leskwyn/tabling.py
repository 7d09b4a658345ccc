"""The commands table and show: two trees as a comparison file, and a comparison file as tables and trees."""
import argparse
import itertools
import os
import stat

from leskwyn import files
from leskwyn.errors import Refusal, counted, one_line, some_of
from leskwyn.labels import label_list, names_in_order, order_of_tips, outgroup_first
from leskwyn.sources import several_trees
from leskwyn.tables import (COMPARE_BYTES, ORDINALS, Broken, broken_rule, cut, file_bytes, file_words, labels_not_once,
                            newick_text)
from leskwyn.trees import INNER, Placed, Table, checked, labels_of_names, table_of, written
from leskwyn.usage import Parser, add_common, add_outgroup, with_common

TABLE_EPILOG = """\
examples:
  leskwyn table spring.nwk autumn.nwk -o pair.bin     one tree in each file
  leskwyn table both.nwk -o pair.bin                  two trees in one file
  leskwyn table spring.nwk - < autumn.nwk | bin/compare -
                                                      the second tree from standard input, compared at once
  leskwyn table both.nwk --names names.txt --list labels.txt -o pair.bin

labels:
  Both trees need the same tips. A tip's label is its place among the sorted names, or in the list of --names, from 0.
  Label 0 is the outgroup: --outgroup puts a name before the sorted others. The list of labels has one line for each tip:
  label, TAB, name; in a name a line break is written \\n or \\r there, and a backslash twice. --names takes such a list
  back.

Newick:
  Each tree ends with ';'. Names in '...' or "..." hold any text, a quote inside being written twice. In a name without
  quotes '_' stands for a blank. Comments in [...], branch lengths, support values and inner names are left out.
  A node inside a tree with one child, as in ((A),B,C), is a pass-through node and is written as it stands; if a tree of n
  tips would have more than 4n nodes so, its pass-through nodes are left out. Standard error tells how many there are.
  Brackets around a whole tree are no nodes.

exit status: 0 done; 1 the trees are refused; 2 wrong usage, or a file that cannot be read or written"""


def say_if_long(size: int) -> None:
    if size > COMPARE_BYTES:
        files.say_line(f"note: {size} bytes; the program compare takes at most {COMPARE_BYTES}, "
                       "so this pair goes to leskwyn compare")


def say_pass_through(placed: Placed) -> None:
    """Tells how many pass-through nodes a tree has, if any, and whether its table has them."""
    found = written(placed.tree)
    if not found.pass_through:
        return
    count = len(found.pass_through)
    files.say_line(f"note: pass-through nodes written as they stand in {placed.place}: {count}" if found.is_whole() else
                   f"note: pass-through nodes left out of {placed.place}: {count}; with them it has {found.nodes()} nodes, and "
                   f"4n = {found.most_nodes()} are the most")


# ---- table

def table_parser() -> Parser:
    parser = Parser("table", usage="leskwyn table FIRST SECOND [-o OUT] [--names FILE | --outgroup NAME] [--list FILE | --quiet] "
                                   "[--common]\n"
                                   "       leskwyn table BOTH [-o OUT] [--names FILE | --outgroup NAME] [--list FILE | --quiet] "
                                   "[--common]",
                    description="Turns two Newick trees into a comparison file.", epilog=TABLE_EPILOG)
    parser.add_argument("trees", nargs="*", metavar="FILE",
                        help="two files of one tree each, or one file of two trees; - is standard input")
    parser.add_argument("-o", dest="output", metavar="OUT", help="where the comparison file goes; else standard output")
    parser.add_argument("--names", metavar="FILE", help="the tips in the order of their labels, one name a line, the "
                                                        "outgroup first, or a list of labels; else sorted by code point")
    add_outgroup(parser)
    parser.add_argument("--list", metavar="FILE", help="where the list of labels goes; else standard error")
    parser.add_argument("--quiet", action="store_true", help="no list of labels")
    add_common(parser)
    return parser


def is_terminal(path: str) -> bool:
    """True where bytes would go to somebody's screen."""
    if path == "-":
        return os.isatty(1)
    try:
        if not stat.S_ISCHR(os.stat(path).st_mode):
            return False
        with open(path, "wb") as file:
            return file.isatty()
    except OSError:
        return False


def wrong_usage(options: argparse.Namespace) -> str:
    """What is wrong with the command line of table, or an empty text."""
    reads = options.trees + [path for path in (options.names,) if path is not None]
    writes = [path for path in (options.output, options.list) if path is not None]
    if "" in reads + writes:
        return "an empty file name"
    if len(options.trees) not in (1, 2):
        return f"{counted(len(options.trees), 'tree file')}; one or two are needed"
    if reads.count("-") > 1:
        return "standard input can be read only once"
    if options.names is not None and options.outgroup is not None:
        return "--names and --outgroup exclude each other: the first name of a list is the outgroup"
    if options.list is not None and (options.quiet or options.list == "-"):
        return "--list and --quiet exclude each other" if options.quiet else "--list needs a file"
    if len(writes) == 2 and files.same_file(*writes) and not files.is_device(writes[0]):
        return "-o and --list name the same file"
    for path, other in itertools.product(reads, writes):
        if "-" not in (path, other) and files.same_file(path, other) and not files.is_device(path):
            return f"{other} is read and would be overwritten"
    if is_terminal("-" if options.output is None else options.output):
        return "a comparison file is bytes, which are not for a terminal: name a file with -o, or use a pipe"
    return ""


def table_command(arguments: list[str]) -> int:
    parser = table_parser()
    options = parser.parsed(arguments, "trees")
    fault = wrong_usage(options)
    if fault:
        parser.error(fault)
    trees = with_common(several_trees(options.trees, 2), options.common)
    names = outgroup_first(checked(trees), options.outgroup)
    if options.names is not None:
        names = order_of_tips(options.names, names)
    labels = labels_of_names(names)
    content = file_bytes([word for placed in trees for word in table_of(placed.tree, labels)])
    outputs = [(options.list, label_list(names).encode())] if options.list is not None else []
    files.write_outputs(outputs + [("-" if options.output is None else options.output, content)])
    if options.list is None and not options.quiet:
        files.say(label_list(names))
    for placed in trees:
        say_pass_through(placed)
    say_if_long(len(content))
    return 0


# ---- show

def show_parser() -> Parser:
    parser = Parser("show", usage="leskwyn show FILE [--names FILE]",
                    description="Prints the tables of a comparison file and their trees, and what is wrong with them.",
                    epilog="The refusal numbers are those that compare prints; compare adds 100 to the second tree's.\n\n"
                           "exit status: 0 both are trees of the same tips; 1 refused; 2 wrong usage, or a file that cannot be "
                           "read or written")
    parser.add_argument("pair", nargs="*", metavar="FILE", help="a comparison file; - is standard input")
    parser.add_argument("--names", metavar="FILE", help="the list of labels that leskwyn table wrote, or one name a line: "
                                                        "names stand in the place of labels")
    return parser


def shown_rows(table: Table, names: list[str]) -> list[str]:
    """One line for each node of which any word is there."""
    rows = []
    for node in range(min(table[1], len(table) - 2)):
        at = 2 + table[1] + node
        label = "missing" if at >= len(table) else "inner" if table[at] == INNER else str(table[at])
        name = f" {one_line(names[table[at]])}" if label.isdigit() and table[at] < len(names) else ""
        rows.append(f"{node:5} {table[2 + node]:6} {label:>7}{name}")
    return rows


def shown_table(ordinal: str, table: Table, is_tree: bool, names: list[str]) -> list[str]:
    if len(table) < 2:
        return [f"{ordinal} tree: words {' '.join(map(str, table)) or 'none'}"]
    header = f"{ordinal} tree: n {table[0]}, m {table[1]}; node, parent, label{', name' if names else ''}:"
    tree = newick_text(table, names if len(names) == table[0] else ()) if is_tree else "no tree"
    return [header] + shown_rows(table, names) + [tree]


def names_not_once(table: Table, names: list[str], broken: Broken) -> str:
    """The names of the labels that are missing or repeated, where the list has them."""
    named = [names[label] for label in labels_not_once(table) if label < len(names)] if broken.number == 31 else []
    return f": {some_of(named)}" if named else ""


def shown(content: bytes, names: list[str]) -> tuple[list[str], list[str]]:
    """The lines of both tables, and what is wrong with them."""
    faults = ["an odd number of bytes, the last left out here (refused 15)"] if len(content) % 2 else []
    lines: list[str] = []
    tips: list[int] = []
    for ordinal, table in zip(ORDINALS, cut(file_words(content))):
        if ordinal == "second" and not table and not tips:
            break
        broken = broken_rule(table)
        lines += shown_table(ordinal, table, broken is None, names)
        if broken:
            faults.append(f"{ordinal} tree refused {broken.number}: {broken.fault}{names_not_once(table, names, broken)}")
        tips += [] if broken else table[:1]
    if len(tips) == 2 and tips[0] != tips[1]:
        faults.append(f"refused 8: the first tree has {tips[0]} tips, the second {tips[1]}")
    return lines, faults


def show_command(arguments: list[str]) -> int:
    parser = show_parser()
    options = parser.parsed(arguments, "pair")
    parser.check_one(options.pair)
    if options.names == "" or options.names == options.pair[0] == "-":
        parser.error("an empty file name" if options.names == "" else "standard input can be read only once")
    content = files.read_bytes(options.pair[0])
    names = [] if options.names is None else names_in_order(options.names)
    if names and len(content) >= 2 and len(names) != file_words(content)[0]:
        raise Refusal(f"{files.shown_path(options.names)}: {counted(len(names), 'name')}, and the first tree has n = "
                      f"{file_words(content)[0]}")
    lines, faults = shown(content, names)
    files.print_text("".join(line + "\n" for line in lines))
    for fault in faults:
        files.say_line(f"{files.shown_path(options.pair[0])}: {fault}")
    if not faults:
        say_if_long(len(content))
    return 1 if faults else 0
