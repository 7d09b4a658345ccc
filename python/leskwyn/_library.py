"""The proved library, called through ctypes. include/leskwyn.h says what each call promises.

The library is the file that LESKWYN_LIBRARY names, else target/libleskwyn.so at the top of the checkout. ctypes lets go of
the interpreter during a call, and calls that lend different work need no lock.
"""
import ctypes
import functools
import os
import typing
from collections.abc import Collection, Sequence

from leskwyn.errors import Trouble

TOP = os.path.dirname(os.path.dirname(os.path.dirname(os.path.abspath(__file__))))
# LESKWYN_WORK_CELLS of the header: enough for every pair, (1024 - 1)(1024 - 1).
WORK_CELLS = 1046529
# Enough for every canonical copy: 2 + 2m words, where m is 2n - 2 at most and n 256.
COPY_WORDS = 1022
MOST_WORD, MOST_BYTE = 65535, 255
# How many tallies the exchanges of a tree have.
TALLIES = 11
# The work, a byte for each cell.
Cells = ctypes.Array[ctypes.c_uint8]


class ClaimSums(ctypes.Structure):
    _fields_ = [("refusal", ctypes.c_uint16), *((name, ctypes.c_uint64) for name in ("first", "second", "same", "different"))]


class QuartetTable(ctypes.Structure):
    _fields_ = [("refusal", ctypes.c_uint16), *((name, ctypes.c_uint64) for name in ("a", "b", "c", "d", "e", "distance"))]


class SplitCounts(ctypes.Structure):
    _fields_ = [("refusal", ctypes.c_uint16), *((name, ctypes.c_uint64) for name in ("first", "second", "common", "distance"))]


class TripletTable(ctypes.Structure):
    _fields_ = [("refusal", ctypes.c_uint16), *((name, ctypes.c_uint64) for name in ("a", "b", "c", "d", "e", "distance"))]


class WeightedDistance(ctypes.Structure):
    _fields_ = [("refusal", ctypes.c_uint16), ("distance", ctypes.c_double)]


class Evidence(ctypes.Structure):
    _fields_ = [(name, ctypes.c_uint16)
                for name in ("refusal", "which", "first_edge", "first_number", "second_edge", "second_number")]


class FiveCounts(ctypes.Structure):
    _fields_ = [("refusal", ctypes.c_uint16), *((name, ctypes.c_uint64) for name in "abcde")]


class CopyAnswer(ctypes.Structure):
    _fields_ = [(name, ctypes.c_uint16) for name in ("refusal", "words")]


class ExchangeTallies(ctypes.Structure):
    _fields_ = [("refusal", ctypes.c_uint16), ("tallies", ctypes.c_uint64 * TALLIES)]


class ExchangeDistance(ctypes.Structure):
    _fields_ = [("refusal", ctypes.c_uint16), ("distance", ctypes.c_uint64)]


class ViewAnswer(ctypes.Structure):
    _fields_ = [("refusal", ctypes.c_uint16),
                *((name, ctypes.c_uint64) for name in ("visible", "a", "b", "c", "d", "e", "distance", "first_splits",
                                                       "second_splits", "common_splits", "robinson_foulds"))]


class NearestAnswer(ctypes.Structure):
    _fields_ = [("refusal", ctypes.c_uint16), ("position", ctypes.c_uint16), ("sum", ctypes.c_uint64)]


class TopologyAnswer(ctypes.Structure):
    _fields_ = [(name, ctypes.c_uint16) for name in ("refusal", "butterfly", "partner")]


# A slice is a pointer and a length.
SLICE_OF_WORDS: list[typing.Any] = [ctypes.POINTER(ctypes.c_uint16), ctypes.c_size_t]
SLICE_OF_BYTES: list[typing.Any] = [ctypes.POINTER(ctypes.c_uint8), ctypes.c_size_t]


class PairCall(typing.NamedTuple):
    """A call of two tables: its answer, whether it takes marks after them, and work after these, and what it takes besides."""
    answer: type[ctypes.Structure]
    is_marked: bool = True
    has_work: bool = True
    besides: list[typing.Any] = []


Answer = typing.TypeVar("Answer", ClaimSums, QuartetTable, SplitCounts, TripletTable, WeightedDistance, Evidence, FiveCounts)
PAIR_CALLS = {"leskwyn_claim_sums": PairCall(ClaimSums), "leskwyn_quartet_table": PairCall(QuartetTable),
              "leskwyn_split_counts": PairCall(SplitCounts), "leskwyn_triplet_table": PairCall(TripletTable, is_marked=False),
              "leskwyn_weighted_distance": PairCall(WeightedDistance, besides=[ctypes.c_uint16, ctypes.c_double]),
              "leskwyn_evidence": PairCall(Evidence, is_marked=False, has_work=False, besides=[ctypes.c_uint16] * 4),
              "leskwyn_holding": PairCall(FiveCounts, has_work=False, besides=[ctypes.c_uint16]),
              "leskwyn_change_mark": PairCall(FiveCounts, has_work=False, besides=[ctypes.c_uint64] * 5 + [ctypes.c_uint16] * 2)}
# The other calls: what each answers, and what it takes after its first table, or after a shelf of tables.
OTHER_CALLS = {"leskwyn_canonical_copy": (CopyAnswer, SLICE_OF_BYTES + SLICE_OF_WORDS),
               "leskwyn_exchange_tallies": (ExchangeTallies, SLICE_OF_BYTES),
               "leskwyn_exchange_distance": (ExchangeDistance, [ctypes.c_uint16] * 2),
               "leskwyn_view": (ViewAnswer, SLICE_OF_WORDS + SLICE_OF_BYTES + [ctypes.c_uint16] + SLICE_OF_BYTES),
               "leskwyn_view_topology": (TopologyAnswer, SLICE_OF_BYTES + [ctypes.c_uint16] * 5),
               "leskwyn_nearest": (NearestAnswer, SLICE_OF_BYTES)}


class Words(typing.NamedTuple):
    """A table's words where the library can read them; there is a cell even where there is no word."""
    cells: ctypes.Array[ctypes.c_uint16]
    count: int


def words(table: Sequence[int]) -> Words:
    return Words((ctypes.c_uint16 * max(1, len(table)))(*table), len(table))


class Marks(typing.NamedTuple):
    """A mark for each label, 1 kept and 0 struck, where the library can read them; there is a cell even where there is no mark."""
    cells: ctypes.Array[ctypes.c_uint8]
    count: int

    def kept(self) -> int:
        return sum(self.cells[:self.count])


def marks(tips: int, struck: Collection[int] = ()) -> Marks:
    """The marks of so many labels, of which some are struck. A struck label that is not there gets a mark too, so that the library
    refuses it."""
    count, held = max([tips, *(label + 1 for label in struck)]), set(struck)
    return Marks((ctypes.c_uint8 * max(1, count))(*(label not in held for label in range(count))), count)


class Levels(typing.NamedTuple):
    """A level for each label, where the library can read them; there is a cell even where there is no level."""
    cells: ctypes.Array[ctypes.c_uint8]
    count: int


def fitting(number: int, most: int) -> int:
    """The number if it is from 0 to the largest that fits, else the largest: none is taken for what is left of it."""
    return number if 0 <= number <= most else most


def levels(given: Sequence[int]) -> Levels:
    return Levels((ctypes.c_uint8 * max(1, len(given)))(*(fitting(level, MOST_BYTE) for level in given)), len(given))


def work_cells(first: Words, second: Words) -> int:
    """(m - 1)(m' - 1). Two tables that would take more than any pair does are refused before the work is measured."""
    edges = [max(1, table.cells[1]) - 1 if table.count > 1 else 0 for table in (first, second)]
    return min(edges[0] * edges[1], WORK_CELLS)


def work(cells: int) -> Cells:
    """Cells to lend. The pointer must not be null, so there is always one."""
    return (ctypes.c_uint8 * max(1, cells))()


def library_path() -> str:
    named = os.environ.get("LESKWYN_LIBRARY")
    if not named and not os.path.isfile(os.path.join(TOP, "crates.txt")):
        raise Trouble("this package stands outside its checkout, so LESKWYN_LIBRARY must name the library: "
                      "target/libleskwyn.so of the checkout, which bin/leskwyn proves and builds on first use")
    return named or os.path.join(TOP, "target", "libleskwyn.so")


@functools.cache
def library() -> ctypes.CDLL:
    """The library, with the types of its calls."""
    from leskwyn import __version__
    path = library_path()
    if not os.path.isfile(path):
        raise Trouble(f"there is no library {path}; bin/leskwyn proves and builds it on first use, and LESKWYN_LIBRARY may "
                      "name another")
    try:
        found = ctypes.CDLL(os.path.abspath(path))
        for name, (answer, is_marked, has_work, besides) in PAIR_CALLS.items():
            call = getattr(found, name)
            call.argtypes = SLICE_OF_WORDS * 2 + SLICE_OF_BYTES * (is_marked + has_work) + besides
            call.restype = answer
        for name, (other_answer, after) in OTHER_CALLS.items():
            call = getattr(found, name)
            call.argtypes, call.restype = SLICE_OF_WORDS + after, other_answer
        found.leskwyn_version.argtypes, found.leskwyn_version.restype = [], ctypes.c_uint32
    except (OSError, AttributeError) as error:
        raise Trouble(f"cannot load the library {path}: {error}") from None
    held = found.leskwyn_version()
    told = f"{held // 1000000}.{held // 1000 % 1000}.{held % 1000}"
    if told != __version__:
        raise Trouble(f"the library {path} is of version {told}, and this package of {__version__}: build the library again")
    return found


def ask(name: str, answer: type[Answer], first: Words, second: Words, marked: Marks | None, lent: Cells | None,
        *besides: object) -> Answer:
    call: typing.Callable[..., Answer] = getattr(library(), name)
    return call(*first, *second, *(marked or ()), *([] if lent is None else [lent, len(lent)]), *besides)


def claim_sums(first: Words, second: Words, marked: Marks, lent: Cells) -> ClaimSums:
    """The claim sums S, S', S2 and S3 of kept labels, or a refusal."""
    return ask("leskwyn_claim_sums", ClaimSums, first, second, marked, lent)


def quartet_table(first: Words, second: Words, marked: Marks, lent: Cells) -> QuartetTable:
    """The five counts A to E of sets of four kept labels and the distance, or a refusal."""
    return ask("leskwyn_quartet_table", QuartetTable, first, second, marked, lent)


def split_counts(first: Words, second: Words, marked: Marks, lent: Cells) -> SplitCounts:
    """The splits of kept labels of each tree, those of both, and the Robinson-Foulds distance, or a refusal."""
    return ask("leskwyn_split_counts", SplitCounts, first, second, marked, lent)


def triplet_table(first: Words, second: Words, lent: Cells) -> TripletTable:
    """The five counts A to E of sets of three without the outgroup, label 0, and the triplet distance, or a refusal. All labels
    count."""
    return ask("leskwyn_triplet_table", TripletTable, first, second, None, lent)


def weighted_distance(first: Words, second: Words, marked: Marks, lent: Cells, kind: int, fraction: float) -> WeightedDistance:
    """The weighted distance B + p (C + D) of sets of four kept labels under the weight of that kind and fraction, or a refusal."""
    return ask("leskwyn_weighted_distance", WeightedDistance, first, second, marked, lent, kind, fraction)


def evidence(first: Words, second: Words, labels: Sequence[int]) -> Evidence:
    """The case of four labels, and for each tree the edge that parts them or the node where they meet, or a refusal. It takes no
    work. A label that does not fit in a word is n or more as the largest word is."""
    return ask("leskwyn_evidence", Evidence, first, second, None, None, *(min(label, MOST_WORD) for label in labels))


def holding(first: Words, second: Words, marked: Marks, label: int) -> FiveCounts:
    """The five counts A to E of the sets of four that hold the label and three other kept labels, or a refusal."""
    return ask("leskwyn_holding", FiveCounts, first, second, marked, None, label)


def change_mark(first: Words, second: Words, marked: Marks, counts: Sequence[int], label: int, mark: int) -> FiveCounts:
    """The five counts after the label gets the mark 1, kept, or 0, struck, or a refusal. `counts` are those before, and the mark
    changes in `marked`."""
    return ask("leskwyn_change_mark", FiveCounts, first, second, marked, None, *counts, label, mark)


def canonical_copy(table: Words, marked: Marks, lent: Words) -> CopyAnswer:
    """The canonical copy of the kept part of one tree, written into the lent words, and how many words it has; or a refusal."""
    answer: CopyAnswer = library().leskwyn_canonical_copy(*table, *marked, *lent)
    return answer


def exchange_tallies(table: Words, lent: Cells) -> ExchangeTallies:
    """The eleven tallies of the distances by which exchanges of two labels move a tree, or a refusal."""
    answer: ExchangeTallies = library().leskwyn_exchange_tallies(*table, lent, len(lent))
    return answer


def exchange_distance(table: Words, x: int, y: int) -> ExchangeDistance:
    """The distance by which the exchange of two labels moves a tree, or a refusal. It takes no work. A label that does not fit in
    a word is n or more as the largest word is."""
    answer: ExchangeDistance = library().leskwyn_exchange_distance(*table, min(x, MOST_WORD), min(y, MOST_WORD))
    return answer


def view(first: Words, second: Words, given: Levels, viewer: int, lent: Cells) -> ViewAnswer:
    """How many labels are visible to a viewer of that level, and the five counts, the distance and the split counts of these, or a
    refusal."""
    answer: ViewAnswer = library().leskwyn_view(*first, *second, *given, fitting(viewer, MOST_WORD), lent, len(lent))
    return answer


def view_topology(table: Words, given: Levels, viewer: int, labels: Sequence[int]) -> TopologyAnswer:
    """The topology of four labels that are visible to a viewer of that level, or a refusal. A label that does not fit in a word is
    n or more as the largest word is."""
    asked = [fitting(label, MOST_WORD) for label in labels]
    answer: TopologyAnswer = library().leskwyn_view_topology(*table, *given, fitting(viewer, MOST_WORD), *asked)
    return answer


def nearest(shelf: Words, lent: Cells) -> NearestAnswer:
    """The position, from 0, of the tree with the least summed quartet distance to all trees on a shelf, and that sum, or a refusal.
    The shelf is the number of trees, 2 to 16, then their tables. All labels count."""
    answer: NearestAnswer = library().leskwyn_nearest(*shelf, lent, len(lent))
    return answer
