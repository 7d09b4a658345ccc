"""Labels of names: which name is the outgroup, which are asked about, which are struck, which level each has, and lists of labels,
'label TAB name' lines, that are read back."""
import re
from collections.abc import Iterable, Sequence

from leskwyn import files
from leskwyn.errors import Refusal, quoted, some_of
from leskwyn.newick import name_of_word
from leskwyn.trees import form_hint, repeated

LABEL = re.compile("[0-9]{1,5}")
LABEL_LINE = re.compile(r"([0-9]+)\t(.*)", re.DOTALL)
LEVEL_LINE = re.compile(r"(.*)\t *([0-9]+) *", re.DOTALL)
ESCAPES = {"\\": "\\\\", "\r": "\\r", "\n": "\\n"}
ESCAPED = re.compile(r"\\([\\rn])")
PLAIN = {"\\": "\\", "r": "\r", "n": "\n"}


def tip_named(word: str, names: list[str]) -> str | None:
    """The tip that a word tells: by its name, or as the word that stands for it in Newick text."""
    return next((name for name in (word, name_of_word(word)) if name in names), None)


def outgroup_first(names: list[str], outgroup: str | None) -> list[str]:
    """The names in the order of their labels: the outgroup, if one is wanted, and then the others as they stand."""
    if outgroup is None:
        return names
    found = tip_named(outgroup, names)
    if found is None:
        raise Refusal(f"the outgroup {quoted(outgroup)} is not a tip of every tree{form_hint([outgroup], names)}")
    return [found] + [name for name in names if name != found]


def told_again(again: list[str], wanted: str) -> str:
    """That names stand more than once, in words; `wanted` tells how many different ones are needed."""
    return f"{some_of(again)} {'stands' if len(again) == 1 else 'stand'} more than once; {wanted} different names are needed"


def labels_of_tips(words: Sequence[str], names: list[str], whose: str, wanted: str) -> list[int]:
    """The labels of different tips, of the names in the order of their labels. In a message `whose` tells of which trees they are
    tips, and `wanted` how many there are."""
    found = {word: tip_named(word, names) for word in words}
    strange = [word for word, name in found.items() if name is None]
    if strange:
        raise Refusal(f"{some_of(strange)} {'is not a tip' if len(strange) == 1 else 'are not tips'} of {whose}"
                      + form_hint(strange, names))
    tips = [name for name in map(found.get, words) if name is not None]
    again = repeated(tips)
    if again:
        raise Refusal(told_again(again, wanted))
    return [names.index(name) for name in tips]


def tips_struck(words: Sequence[str], names: list[str], whose: str) -> set[str]:
    """The tips that are struck, of these names; `whose` tells in a message of which trees they are tips. A tip may stand more than
    once."""
    found = {word: tip_named(word, names) for word in words}
    strange = [word for word, name in found.items() if name is None]
    if strange:
        raise Refusal(f"cannot strike {some_of(strange)}: not {'a tip' if len(strange) == 1 else 'tips'} of {whose}"
                      + form_hint(strange, names))
    return {name for name in found.values() if name is not None}


def labels_struck(words: Sequence[str], names: list[str], whose: str = "every tree") -> list[int]:
    """The labels of the tips that are struck, in their order, of the names in the order of their labels."""
    tips = tips_struck(words, names, whose)
    return [label for label, name in enumerate(names) if name in tips]


def labels_given(words: Sequence[str]) -> list[int]:
    """Labels as they are given for a comparison file. The library judges whether it has them."""
    strange = [word for word in words if not LABEL.fullmatch(word)]
    if strange:
        raise Refusal(f"{some_of(strange)} {'is no label' if len(strange) == 1 else 'are no labels'}: a comparison file has no "
                      "names, and its labels are numbers from 0")
    return [int(word) for word in words]


def label_list(names: list[str]) -> str:
    """The list as text. A line break or a backslash inside a name is escaped, so that the list can be read back."""
    escaped = ("".join(ESCAPES.get(c, c) for c in name) for name in names)
    return "".join(f"{label}\t{name}\n" for label, name in enumerate(escaped))


def unescaped(text: str) -> str:
    return ESCAPED.sub(lambda escape: PLAIN[escape[1]], text)


def lines_of(path: str) -> list[str]:
    """The lines of a list; empty ones aside."""
    lines = [line.removesuffix("\r") for line in files.read_text(path).split("\n")]
    return [line for line in lines if line]


def labelled(lines: list[str]) -> list[str] | None:
    """The names of a list of labels in the order of the labels, or None if the lines are no such list."""
    found = [LABEL_LINE.fullmatch(line) for line in lines]
    names = {int(one[1]): one[2] for one in found if one is not None}
    if not lines or sorted(names) != list(range(len(lines))):
        return None
    return [unescaped(names[label]) for label in range(len(lines))]


def names_struck(path: str) -> list[str]:
    """The names of a file, one a line; blank lines and those that begin with # are passed over."""
    return [line for line in lines_of(path) if line.strip() and not line.startswith("#")]


def levels_listed(path: str) -> list[tuple[str, int]]:
    """The names of a file with their levels, 'name TAB level' lines; names are escaped as in a list of labels, and the same lines
    are passed over as in a file of struck names."""
    listed = []
    for line in names_struck(path):
        found = LEVEL_LINE.fullmatch(line)
        if found is None:
            raise Refusal(f"{files.shown_path(path)}: {quoted(line)} is not a name, a TAB and a level from 0 to 3")
        listed.append((unescaped(found[1]), int(found[2])))
    return listed


def names_in_order(path: str) -> list[str]:
    """The names of a file: a list of labels, or one name a line."""
    lines = lines_of(path)
    return labelled(lines) or lines


def order_of_tips(path: str, tips: list[str]) -> list[str]:
    """The tips in the order that a file gives. It has each of them once, and nothing else."""
    lines = lines_of(path)
    listed = lines if set(lines) == set(tips) else labelled(lines) or lines
    check_each_once(f"{files.shown_path(path)}: the list", listed, tips)
    return listed


def check_each_once(told: str, listed: list[str], tips: list[str]) -> None:
    """Turns names away that are not each of the tips once; `told` tells in a message where they stand."""
    again = repeated(listed)
    if again:
        raise Refusal(f"{told} repeats {some_of(again)}")
    missing, strange = sorted(set(tips) - set(listed)), [name for name in listed if name not in set(tips)]
    parts = [f"lacks {some_of(missing)}"] if missing else []
    parts += [f"has {some_of(strange)}, not a tip of the trees"] if strange else []
    if parts:
        raise Refusal(f"{told} " + " and ".join(parts) + form_hint(missing, strange))


def levels_of_tips(listed: Iterable[tuple[str, int]], tips: list[str], told: str) -> list[int]:
    """The levels in the order of the tips, each of which has one; `told` tells in a message where they stand."""
    found = [(tip_named(word, tips) or word, level) for word, level in listed]
    check_each_once(told, [name for name, _ in found], tips)
    level_of = dict(found)
    return [level_of[name] for name in tips]
