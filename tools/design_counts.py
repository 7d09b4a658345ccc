#!/usr/bin/env python3
"""The places that docs/DESIGN-PASS.md counts, in the sources of all crates.

    tools/design_counts.py            prints the number of places of each row
    tools/design_counts.py ROW        prints the places of a row, such as 3 or 1b
    tools/design_counts.py -C DIR ..  of the repository at DIR

They are found by their text, so that a place can be counted that is none, and one in another form be missed.
"""
import collections
import difflib
import itertools
import pathlib
import re
import sys

ROOT = pathlib.Path(__file__).resolve().parent.parent
HEAD = re.compile(r"^(?:pub(?:\(crate\))? )?(?:extern \"C\" )?fn (\w+)", re.M)
KEPT = set("let mut if else while for in return match as usize u16 u32 u64 u8 true false loop break".split())


class Function:
    """A function of a source file: its name, what stands before its body, and the body."""

    def __init__(self, path: pathlib.Path, name: str, line: int, text: str) -> None:
        self.crate, self.name, self.place = path.parts[-3], name, f"{path.parts[-3]}/src/{path.name}:{line}"
        at = text.find("\n{\n") if "\n{\n" in text else text.find("{\n")
        self.head, self.body = text[:at], text[at:]
        self.words = re.findall(r"\w+|[^\s\w]", self.body)
        self.shape = ["N" if w[0].isdigit() else w if w in KEPT or not w[0].isalpha() else "x" for w in self.words]

    @property
    def label(self) -> str:
        return f"{self.place} {self.name}"


def functions(root: pathlib.Path) -> list[Function]:
    found = []
    for path in sorted(root.glob("crates/*/src/*.rt")):
        text = path.read_text(encoding="utf-8")
        for match in HEAD.finditer(text):
            end = text.find("\n}\n", match.start())
            line = text.count("\n", 0, match.start()) + 1
            found.append(Function(path, match.group(1), line, text[match.start():end + 2]))
    return found


def lines(root: pathlib.Path, pattern: str) -> list[str]:
    return [f"{path.parts[-3]}/src/{path.name}:{number} {line.strip()}"
            for path in sorted(root.glob("crates/*/src/*.rt"))
            for number, line in enumerate(path.read_text(encoding="utf-8").split("\n"), 1)
            if re.search(pattern, line)]


def counted_loops(all_functions: list[Function]) -> list[str]:
    """`while` loops over a variable of their test that the body steps by a number."""
    found = []
    for one in all_functions:
        for match in re.finditer(r"^( *)while (.*) \{\n", one.body, re.M):
            end = one.body.find(f"\n{match.group(1)}}}\n", match.end())
            body = one.body[match.end():end]
            if any(re.search(rf"\b{name} [-+]= \d", body) for name in re.findall(r"[a-z]\w*", match.group(2))):
                found.append(one.label)
    return found


def twins(all_functions: list[Function]) -> list[str]:
    """Two functions whose bodies differ in names and numbers at most, and in few of these."""
    found = []
    long = [one for one in all_functions if len(one.shape) >= 25]
    for one, other in itertools.combinations(long, 2):
        if abs(len(one.shape) - len(other.shape)) > 0.15 * max(len(one.shape), len(other.shape)):
            continue
        match = difflib.SequenceMatcher(None, one.shape, other.shape, autojunk=False)
        if match.real_quick_ratio() > 0.93 and match.quick_ratio() > 0.93 and match.ratio() > 0.93:
            if difflib.SequenceMatcher(None, one.words, other.words, autojunk=False).ratio() > 0.8:
                found.append(f"{one.label} ~ {other.label}")
    return found


def facts(all_functions: list[Function]) -> list[str]:
    """Conditions asked by three functions of a crate or more."""
    asked = collections.defaultdict(list)
    for one in all_functions:
        clause = one.head.split("requires", 1)[1].split("ensures")[0] if "requires" in one.head else ""
        for name in set(re.findall(r"\b[A-Z]\w+", clause)):
            asked[one.crate, name].append(one.name)
    return [f"{crate} {name}: {', '.join(users)}" for (crate, name), users in sorted(asked.items()) if len(users) >= 3]


def together(all_functions: list[Function]) -> list[str]:
    """Three parameters that stand together in three functions of a crate or more."""
    groups = collections.defaultdict(list)
    for one in all_functions:
        inside = re.search(r"\((.*?)\)(?: ->|\n|$)", one.head, re.S)
        names = re.findall(r"(\w+):", inside.group(1)) if inside else []
        for three in zip(names, names[1:], names[2:]):
            groups[one.crate, three].append(one.name)
    return [f"{crate} {', '.join(three)}: {', '.join(users)}"
            for (crate, three), users in sorted(groups.items()) if len(users) >= 3]


def rows(root: pathlib.Path) -> dict[str, tuple[str, list[str]]]:
    all_functions = functions(root)
    number = r"refusal: [1-9]\d*,|(?:refused|turned_away)\([1-9]\d*\)"
    told = [one.label for one in all_functions if "-> u16" in one.head and re.search(r"\brefusal\b", one.head)
            and "extern" not in one.head and one.crate != "examples"]
    returned = [f"{one.label}: {text}" for one in all_functions if one.label in told
                for text in re.findall(r"return [1-9]\d*;", one.body)]
    casts = [one.label for one in all_functions if re.fullmatch(r"\{\s*\(?[\w %]+\)? as \w+\s*\}", one.body.strip())]
    return {
        "1a": ("enums", lines(root, r"^(?:pub(?:\(crate\))? )?enum ")),
        "1b": ("structs with a refusal's number beside values", lines(root, r"^    pub refusal: u16,")),
        "1c": ("functions that answer a refusal's number", told),
        "1d": ("refusals told by a number", lines(root, number) + returned),
        "2": ("pairs of twins", twins(all_functions)),
        "3": ("loops that count an index by hand", counted_loops(all_functions)),
        "4a": ("conversions that are one cast", casts),
        "4b": ("equality, order or printing by hand", lines(root, r"fn (?:same|eq|cmp|print\w*|put_\w*)\(|^impl .*(?:Clone|PartialEq|Ord|Display) ")),
        "5a": ("conditions asked by three functions of a crate", facts(all_functions)),
        "5b": ("three parameters together in three functions of a crate", together(all_functions)),
        "6": ("arrays of a fixed size that are filled", lines(root, r"let mut \w+(?:: [^=]*)? = \[[^\]]*; [A-Z]+\];")),
        "7": ("functions that a flag or a kind switches", lines(root, r"^(?:pub(?:\(crate\))? )?fn \w+\((?:.*, )?(?:kind: u16|restore: bool|keeps: bool)")),
    }


def main() -> None:
    arguments = sys.argv[1:]
    root = ROOT
    if arguments[:1] == ["-C"]:
        root, arguments = pathlib.Path(arguments[1]), arguments[2:]
    for row, (what, places) in rows(root).items():
        if not arguments:
            print(f"{row:3} {len(places):4}  {what}")
        elif row in arguments:
            print("\n".join(places))


if __name__ == "__main__":
    main()
