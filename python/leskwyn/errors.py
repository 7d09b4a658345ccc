"""What is turned away, as exceptions with a number and a reason, and how names stand in a sentence."""
from collections.abc import Iterable

NAMED_AT_MOST = 20
SHOWN_LETTERS = 60


class LeskwynError(Exception):
    """No figures. `reason` is a sentence that says why; `number` the refusal number, or None where none stands for it."""

    status = 2

    def __init__(self, reason: str, number: int | None = None) -> None:
        super().__init__(reason, number)
        self.reason = reason
        self.number = number

    def __str__(self) -> str:
        return self.reason if self.number is None else f"refused {self.number}: {self.reason}"


class Refusal(LeskwynError):
    """The trees are turned away: a text that is no tree, names that differ, or a table that breaks a rule, with its number."""

    status = 1


class Trouble(LeskwynError):
    """Something around the trees fails: a file that cannot be read or written, or a library that is not there."""


def one_line(text: str) -> str:
    """The text with every character that does not print written as an escape."""
    return "".join(c if c.isprintable() else c.encode("unicode_escape", "surrogatepass").decode() for c in text)


def quoted(name: str) -> str:
    """The name in quotes; a long one is cut."""
    return "'" + (name if len(name) <= SHOWN_LETTERS else name[:SHOWN_LETTERS - 3] + "...") + "'"


def some_of(names: Iterable[str]) -> str:
    """Up to twenty names, and how many more there are."""
    names = list(names)
    more = len(names) - NAMED_AT_MOST
    return ", ".join(map(quoted, names[:NAMED_AT_MOST])) + (f" and {more} more" if more > 0 else "")


def counted(count: int, one: str) -> str:
    """The count with its noun: 1 tip, 2 tips."""
    return f"{count} {one}" + ("" if count == 1 else "s")
