"""A case of the program examples: the numbers of its line, and the words of its answer."""
from enum import IntEnum
from typing import NamedTuple

Answer = list[int | str]


class Kind(IntEnum):
    """The kinds of cases, as crates/examples/src/cases.rt lists them."""
    CHECK = 0
    WALK = 1
    BEYOND = 2
    WALKED = 3
    CENTRE = 4
    TOPOLOGY = 5
    CENTRES = 6
    TOPOLOGIES = 7
    CHANGES = 8
    ZEROS = 9
    CROSSINGS = 10
    SPLITS = 11
    CROSSINGS_OF_ONE = 12
    QUARTETS = 13
    QUARTETS_OF_ONE = 14
    NONE = 15


MOST_CELLS = 1046529  # what two tables of 256 tips and 1024 nodes need
MOST_PRINTED = 1024  # the most words or cells where every one is printed
ENUMERATED = 16  # the most tips whose sets of four the program enumerates


class Case(NamedTuple):
    numbers: list[int]
    answer: Answer


def line(kind: Kind, first: list[int], second: list[int], cells: int = 0) -> list[int]:
    return [int(kind), cells // 1000, cells % 1000, len(first), *first, *second]


def bad(*numbers: int) -> Case:
    return Case(list(map(int, numbers)), ["bad", "case"])


def lent_words(count: int) -> list[int]:
    """What the words hold before a call whose every word is printed."""
    return [9000 + i for i in range(count)]


def lent_cells(count: int) -> list[int]:
    """What the cells hold before a call whose every cell is printed."""
    return [200 + i % 56 for i in range(count)]
