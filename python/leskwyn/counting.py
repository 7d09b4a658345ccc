"""Tables counted against each other by the library: one pair, or many pairs on several threads."""
import os
import typing
from collections.abc import Callable, Sequence
from math import comb

from leskwyn import _library
from leskwyn._library import Cells, Marks, Words
from leskwyn.figures import Comparison, normalised
from leskwyn.tables import pair_refusal
from leskwyn.trees import Table
from leskwyn.weights import Weight

Number = typing.Union[int, float]
# Is told how many pairs are done, from the thread that waits for them.
Progress = Callable[[int], None]
Done = typing.TypeVar("Done")


def refused(number: int, first: Words, second: Words, marks: Marks | None = None) -> None:
    """Raises the refusal that the library tells, with its reason."""
    if number:
        given = [] if marks is None else marks.cells[:marks.count]
        raise pair_refusal(number, list(first.cells[:first.count]), list(second.cells[:second.count]), given)


def compared(places: tuple[str, str], first: Words, second: Words, names: Sequence[str], weight: Weight | None = None,
             struck: Sequence[int] | None = None) -> Comparison:
    """All figures of a pair, the weighted distance if there is a weight. `places` tells where the trees come from; `struck` are the
    labels that are struck, each once and in their order."""
    marks = _library.marks(first.cells[0], struck or ())
    lent = _library.work(_library.work_cells(first, second))
    quartets = _library.quartet_table(first, second, marks, lent)
    refused(quartets.refusal, first, second, marks)
    claims = _library.claim_sums(first, second, marks, lent)
    splits = _library.split_counts(first, second, marks, lent)
    triplets = _library.triplet_table(first, second, lent)
    weighted = None if weight is None else weighted_by(weight)(first, second, marks, lent, False)
    return Comparison(
        first=places[0], second=places[1], tips=first.cells[0], names=tuple(names),
        same=quartets.a, different=quartets.b, first_only=quartets.c, second_only=quartets.d, neither=quartets.e,
        distance=quartets.distance, first_splits=splits.first, second_splits=splits.second, common_splits=splits.common,
        robinson_foulds=splits.distance, first_claims=claims.first, second_claims=claims.second, same_claims=claims.same,
        different_claims=claims.different, same_triplets=triplets.a, different_triplets=triplets.b,
        first_only_triplets=triplets.c, second_only_triplets=triplets.d, neither_triplets=triplets.e,
        triplet_distance=triplets.distance, weight=None if weight is None else weight.fraction,
        weighted_distance=weighted,
        struck=None if struck is None else tuple(names[label] if names else str(label) for label in struck))


# ---- one distance

Measure = Callable[[Words, Words, Marks, Cells, bool], Number]


def quartet_distance(first: Words, second: Words, marks: Marks, lent: Cells, over_all: bool) -> Number:
    table = _library.quartet_table(first, second, marks, lent)
    refused(table.refusal, first, second, marks)
    return normalised(table.distance, comb(marks.kept(), 4)) if over_all else table.distance


def splits_distance(first: Words, second: Words, marks: Marks, lent: Cells, over_all: bool) -> Number:
    counts = _library.split_counts(first, second, marks, lent)
    refused(counts.refusal, first, second, marks)
    return normalised(counts.distance, counts.first + counts.second) if over_all else counts.distance


def triplet_distance(first: Words, second: Words, _: Marks, lent: Cells, over_all: bool) -> Number:
    """Of all labels, struck ones too."""
    table = _library.triplet_table(first, second, lent)
    refused(table.refusal, first, second)
    return normalised(table.distance, comb(first.cells[0] - 1, 3)) if over_all else table.distance


def weighted_by(weight: Weight) -> Measure:
    """The weighted distance under a weight."""
    def weighted_distance(first: Words, second: Words, marks: Marks, lent: Cells, over_all: bool) -> Number:
        answer = _library.weighted_distance(first, second, marks, lent, weight.kind, weight.fraction)
        refused(answer.refusal, first, second, marks)
        return normalised(answer.distance, comb(marks.kept(), 4)) if over_all else answer.distance

    return weighted_distance


WEIGHTED = "weighted"
UNWEIGHTED = {"quartet": quartet_distance, "splits": splits_distance, "triplets": triplet_distance}
MEASURES = (*UNWEIGHTED, WEIGHTED)


def wrong_weight(measure: str, weight: object) -> str:
    """Why a measure does not go with a weight, or without one; else an empty text."""
    if measure == WEIGHTED and weight is None:
        return "the weighted distance needs a weight"
    if measure != WEIGHTED and weight is not None:
        return f"the measure is {measure!r}, and only {WEIGHTED!r} takes a weight"
    return ""


# ---- many pairs

def default_jobs() -> int:
    """As many threads as there are processors for this process."""
    return len(os.sched_getaffinity(0)) if hasattr(os, "sched_getaffinity") else os.cpu_count() or 1


def done_in_turn(tasks: Sequence[tuple[int, Callable[[], Done]]], jobs: int, progress: Progress | None) -> list[Done]:
    """The answers of tasks, in their order. Each task comes with the number of its pairs; `jobs` run at once."""
    tell = progress or (lambda pairs: None)
    if jobs == 1 or len(tasks) < 2:
        found, pairs = [], 0
        for size, task in tasks:
            found.append(task())
            pairs += size
            tell(pairs)
        return found
    return done_by_threads(tasks, jobs, tell)


def done_by_threads(tasks: Sequence[tuple[int, Callable[[], Done]]], jobs: int, tell: Progress) -> list[Done]:
    from concurrent.futures import ThreadPoolExecutor, as_completed
    pool = ThreadPoolExecutor(min(jobs, len(tasks)))
    try:
        waiting = {pool.submit(task): size for size, task in tasks}
        pairs = 0
        for future in as_completed(waiting):
            future.result()
            pairs += waiting[future]
            tell(pairs)
        return [future.result() for future in waiting]
    finally:
        pool.shutdown(cancel_futures=True)


def distances(tables: Sequence[Table], measure: str, over_all: bool, jobs: int, progress: Progress | None = None,
              weight: Weight | None = None, struck: Sequence[int] | None = None) -> list[list[Number]]:
    """The square of distances: symmetric, with 0 on the diagonal. A row's pairs after the diagonal are one task. The
    measure is the weighted distance if there is a weight; `struck` are the labels that are struck."""
    held = [_library.words(table) for table in tables]
    marks = _library.marks(tables[0][0] if tables else 0, struck or ())
    distance = UNWEIGHTED[measure] if weight is None else weighted_by(weight)
    zero = 0.0 if over_all or weight is not None else 0
    most = max((table[1] for table in tables), default=1)

    def row(at: int) -> list[Number]:
        lent = _library.work((tables[at][1] - 1) * (most - 1))
        return [distance(held[at], other, marks, lent, over_all) for other in held[at + 1:]]

    def task(at: int) -> tuple[int, Callable[[], list[Number]]]:
        return len(held) - 1 - at, lambda: row(at)

    rows = done_in_turn([task(at) for at in range(len(held))], jobs, progress)
    square: list[list[Number]] = [[zero] * len(held) for _ in held]
    for i, later in enumerate(rows):
        for j, number in enumerate(later, i + 1):
            square[i][j] = square[j][i] = number
    return square


def compared_to_one(reference: tuple[str, Table], others: Sequence[tuple[str, Table]], names: Sequence[str], jobs: int,
                    progress: Progress | None = None, weight: Weight | None = None,
                    struck: Sequence[int] | None = None) -> list[Comparison]:
    """The figures of one tree against each of the others, each with its place; `struck` are the labels that are struck."""
    first = _library.words(reference[1])

    def task(place: str, table: Table) -> tuple[int, Callable[[], Comparison]]:
        return 1, lambda: compared((reference[0], place), first, _library.words(table), names, weight, struck)

    return done_in_turn([task(place, table) for place, table in others], jobs, progress)
