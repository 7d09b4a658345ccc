"""The weight p of a star against a butterfly in a weighted distance B + p (C + D): nothing, full, or a fraction k/256."""
import re
import typing

from leskwyn.errors import one_line, quoted

# A weight as a caller gives it: a text, or a number that tells its ratio, as int, float, Fraction and Decimal do.
GivenWeight = typing.Any
# LESKWYN_WEIGHT_NONE, _FULL and _PART of the header.
NONE, FULL, PART = 0, 1, 2
PARTS = 256
SPELLINGS = "none, full, a decimal such as 0.5, or a fraction such as 1/2 or 128/256"
DECIMAL = re.compile(r"([+-]?)([0-9]{0,80})\.?([0-9]{0,80})")
FRACTION = re.compile(r"([+-]?[0-9]{1,80})/([0-9]{1,80})")
Ratio = tuple[int, int]


class Weight(typing.NamedTuple):
    """A weight as the library takes it: its kind, and p."""
    kind: int
    fraction: float


def told_fraction(weight: float) -> str:
    """The weight p in lowest terms, as 1/2."""
    above, below = weight.as_integer_ratio()
    return f"{above}/{below}" if below > 1 else str(above)


def ratio_of_text(text: str) -> Ratio | None:
    """The number of a decimal or of a fraction, exactly, as a numerator and a denominator above 0; else None."""
    found = FRACTION.fullmatch(text)
    if found:
        return (int(found[1]), int(found[2])) if int(found[2]) else None
    found = DECIMAL.fullmatch(text)
    if found and found[2] + found[3]:
        return int(found[1] + found[2] + found[3]), 10 ** len(found[3])
    return None


def ratio_of_number(number: GivenWeight) -> Ratio | None:
    """The number exactly; None for NaN and the infinities."""
    try:
        above, below = number.as_integer_ratio()
    except (ValueError, OverflowError):
        return None
    return above, below


def weight_of(given: GivenWeight) -> Weight:
    """The weight that a caller gives. Raises ValueError for one that is no k/256, with a sentence that names the nearest two."""
    if given == "none":
        return Weight(NONE, 0.0)
    if given == "full":
        return Weight(FULL, 1.0)
    if not isinstance(given, str) and not hasattr(given, "as_integer_ratio"):
        raise TypeError(f"a weight is a text or a number, not {type(given).__name__}")
    ratio = ratio_of_text(given) if isinstance(given, str) else ratio_of_number(given)
    told = quoted(one_line(given)) if isinstance(given, str) else str(given)
    if ratio is None:
        raise ValueError(f"{told} is no weight: {SPELLINGS}")
    k, rest = divmod(PARTS * ratio[0], ratio[1])
    if rest or not 0 <= k <= PARTS:
        low = min(max(k, 0), PARTS - 1)
        near = " and ".join(f"{one}/{PARTS} ({one / PARTS})" for one in (low, low + 1))
        raise ValueError(f"{told} is no weight: it is not k/{PARTS} with a k from 0 to {PARTS}; the nearest two are {near}")
    return Weight(PART, k / PARTS)
