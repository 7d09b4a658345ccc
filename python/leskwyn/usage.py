"""What the commands share: the parser, options that several have, and trees read with what --common leaves out."""
import argparse
import sys
import time
import typing
from collections.abc import Callable, Sequence

from leskwyn import __version__, files
from leskwyn.counting import Progress
from leskwyn.errors import counted, quoted
from leskwyn.labels import names_struck
from leskwyn.trees import Placed, pruned
from leskwyn.views import MOST_LEVEL
from leskwyn.weights import SPELLINGS, Weight, weight_of

# How long work runs before a terminal sees how far it is, and how often it does, in seconds.
SHOWN_AFTER, SHOWN_EVERY = 1.0, 0.2
LEVELS = [str(level) for level in range(MOST_LEVEL + 1)]


class Usage(Exception):
    """A command line that is not understood, in words."""


class Parser(argparse.ArgumentParser):
    """A parser that prints as the commands do, and takes what follows -- for a file even if it starts with -."""

    def __init__(self, command: str, **described: typing.Any) -> None:
        super().__init__(prog=f"leskwyn {command}".rstrip(), allow_abbrev=False,
                         formatter_class=argparse.RawDescriptionHelpFormatter, **described)
        self.add_argument("--version", action="version", version=f"leskwyn (Leskwyn) {__version__}",
                          help="print the version of Leskwyn")

    def error(self, message: str) -> typing.NoReturn:
        raise Usage(f"{message} ({self.prog} --help tells the usage)")

    def _print_message(self, message: str, file: typing.Any = None) -> None:
        files.print_text(message)

    def parsed_words(self, arguments: list[str], words: str) -> argparse.Namespace:
        """The options; `words` is the argument that takes all words that are no options."""
        end = arguments.index("--") if "--" in arguments else len(arguments)
        options = self.parse_intermixed_args(arguments[:end])
        setattr(options, words, getattr(options, words) + arguments[end + 1:])
        return options

    def check_files(self, paths: list[str]) -> None:
        if "" in paths:
            self.error("an empty file name")
        if paths.count("-") > 1:
            self.error("standard input can be read only once")

    def check_one(self, paths: list[str]) -> None:
        if len(paths) != 1:
            self.error(f"{counted(len(paths), 'file')}; one is needed")

    def parsed(self, arguments: list[str], names: str, *others: str) -> argparse.Namespace:
        """The options; `names` is the argument that takes files, and `others` are options that take files too."""
        options = self.parsed_words(arguments, names)
        self.check_files([path for one in (names, *others) for path in getattr(options, one)])
        return options


def add_common(parser: Parser) -> None:
    parser.add_argument("--common", action="store_true", help="leave out the tips that not all trees have, and list them on "
                                                              "standard error")


def add_outgroup(parser: Parser) -> None:
    parser.add_argument("--outgroup", metavar="NAME", help="the outgroup of the triplets; else the first of the sorted names")


def weight(text: str) -> Weight:
    try:
        return weight_of(text)
    except ValueError as error:
        raise argparse.ArgumentTypeError(str(error)) from None


def add_weight(parser: Parser) -> None:
    parser.add_argument("--weight", type=weight, metavar="W",
                        help=f"what a set of four of C or D weighs in the weighted distance: {SPELLINGS}")


def add_strike(parser: Parser) -> None:
    parser.add_argument("--strike", action="append", default=[], metavar="NAME",
                        help="strike a population, of a comparison file a label; may stand several times")
    parser.add_argument("--strike-file", action="append", default=[], metavar="FILE",
                        help="strike the populations of a file, one name a line; blank lines and those that begin with # are "
                             "passed over, and - is standard input")


def struck_names(options: argparse.Namespace) -> list[str] | None:
    """The words of --strike, and the lines of the files of --strike-file; None if neither option is given."""
    if not options.strike and not options.strike_file:
        return None
    return options.strike + [name for path in options.strike_file for name in names_struck(path)]


def number_of(what: str, most: int | None = None) -> Callable[[str], int]:
    """Reads a number from 1 to `most`, or any from 1 on."""
    def number(text: str) -> int:
        if not text.isascii() or not text.isdigit() or int(text) < 1 or most is not None and int(text) > most:
            raise argparse.ArgumentTypeError(f"{quoted(text)} is not a number of {what} from 1 "
                                             + ("on" if most is None else f"to {most}"))
        return int(text)

    return number


def level(text: str) -> int:
    if text not in LEVELS:
        raise argparse.ArgumentTypeError(f"{quoted(text)} is not a level from {LEVELS[0]} to {LEVELS[-1]}")
    return int(text)


def add_levels(parser: Parser) -> None:
    parser.add_argument("--levels", action="append", required=True, metavar="FILE",
                        help="the level of each population, 0 to 3: a line of its name, a TAB and its level; - is standard input")
    parser.add_argument("--viewer", type=level, required=True, metavar="K",
                        help="the level of the viewer, 0 to 3: populations above it are hidden")


def add_jobs(parser: Parser) -> None:
    parser.add_argument("--jobs", type=number_of("threads", 1024), metavar="N", help="threads; by default one for each processor")


def with_common(trees: Sequence[Placed], common: bool) -> list[Placed]:
    """The trees, cut down if that is wanted; standard error tells what was left out."""
    if not common:
        return list(trees)
    cut = pruned(trees)
    for placed, names in zip(trees, cut.left_out):
        if names:
            files.say_line(f"left out of {placed.place}: {', '.join(map(quoted, names))}")
    if cut.hint:
        files.say_line(f"note: {cut.hint}")
    return cut.trees


class ProgressLine:
    """A line on standard error that tells how many pairs are done, where that is a terminal and the work long."""

    def __init__(self, pairs: int) -> None:
        self.pairs = pairs
        self.next = time.monotonic() + SHOWN_AFTER
        self.shown = False

    def __enter__(self) -> Progress | None:
        return self.tell if sys.stderr is not None and sys.stderr.isatty() else None

    def tell(self, done: int) -> None:
        if time.monotonic() >= self.next:
            files.say(f"\rleskwyn: {done} of {self.pairs} pairs")
            self.next, self.shown = time.monotonic() + SHOWN_EVERY, True

    def __exit__(self, *_: object) -> None:
        if self.shown:
            files.say("\r\x1b[K")
