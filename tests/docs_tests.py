#!/usr/bin/env python3
"""Tests of what the documents point to.

    python3 tests/docs_tests.py

docs/DECISIONS.md points to the lines that have each form of the specification; docs/SPECIFICATION.md names the definitions
that say each section; docs/PROMISES.md names the clauses and theorems of each sentence of the demands, and every must-fail
edit; all pages name files. A pointer that leads nowhere fails here.
"""
import pathlib
import re
import subprocess
import typing
import unittest

ROOT = pathlib.Path(__file__).resolve().parent.parent
SPECS, PROOFS = sorted(ROOT.glob("crates/*/specs/**/*.antt")), sorted(ROOT.glob("crates/*/proofs/**/*.antt"))
CODE = SPECS + PROOFS + sorted(ROOT.glob("crates/*/src/**/*.rt"))
WORD = re.compile(r"[A-Za-z_'′][\w'′-]*", re.UNICODE)
PAGES = [ROOT / name for name in ("README.md", "CONTRIBUTING.md", "CHANGELOG.md")] + sorted(ROOT.glob("docs/*.md"))
FOLDERS = "bench|bin|bindings|crates|docs|examples|include|python|tests|tools|[.]ci"


def text(name: str) -> str:
    return (ROOT / "docs" / name).read_text(encoding="utf-8")


def section(content: str, heading: str) -> str:
    """The lines below a heading, up to the next one of its level."""
    return re.split(r"^## ", content.split(f"## {heading}\n", 1)[1], maxsplit=1, flags=re.M)[0]


class Files(unittest.TestCase):
    """Each file that a page names or links to is there."""

    def test_named(self) -> None:
        for page in PAGES:
            content = page.read_text(encoding="utf-8")
            for path in re.findall(rf"`((?:{FOLDERS})/[\w./-]+)`", content):
                if "NAME" not in path:
                    with self.subTest(page=page.name, path=path):
                        self.assertTrue((ROOT / path).exists())

    def test_linked(self) -> None:
        for page in PAGES:
            for path in re.findall(r"\]\(([\w./-]+)\)", page.read_text(encoding="utf-8")):
                with self.subTest(page=page.name, path=path):
                    self.assertTrue((page.parent / path).is_file())


class Lines(unittest.TestCase):
    """`FILE:LINE` `CODE` in docs/DECISIONS.md: that line holds that code."""

    def test_pointers(self) -> None:
        pointers = re.findall(r"`(crates/[^`:]+):(\d+)` `([^`]+)`", text("DECISIONS.md"))
        self.assertGreater(len(pointers), 20)
        for path, number, code in pointers:
            with self.subTest(path=path, line=number):
                lines = (ROOT / path).read_text(encoding="utf-8").split("\n")
                self.assertEqual(lines[int(number) - 1].strip(), code)


class Definitions(unittest.TestCase):
    """CRATE FILE `name` .. in docs/SPECIFICATION.md: that file below the crate's specs/ or proofs/ declares each name."""

    def test_citations(self) -> None:
        page = re.sub(r"\s+", " ", text("SPECIFICATION.md"))
        cited = re.findall(r"\b([a-z_]+) ((?:theorems/|lemmas/)?[A-Z]\w+)((?: `[^`]+`)+)", page)
        self.assertGreater(len(cited), 90)
        for crate, name, names in cited:
            with self.subTest(crate=crate, file=name):
                files = [file for part in ("specs", "proofs") for file in (ROOT / "crates" / crate / part).rglob(f"{name}.antt")]
                content = "\n".join(file.read_text(encoding="utf-8") for file in files)
                for one in re.findall(r"`([^`]+)`", names):
                    self.assertRegex(content, rf"(?m)^ *(?:\w+ )*{re.escape(one)}(?= [:(])")


class Definition(typing.NamedTuple):
    """A name that a file of definitions declares: crates/CRATE/specs/FILE.antt."""
    crate: str
    file: str
    name: str


def imported(lines: str) -> dict[str, tuple[str, str, str]]:
    """What each `use` of the crates' own specs brings in: its name here, and the crate, the file and the name there."""
    found = {}
    for crate, file, names in re.findall(r"(?m)^(?:ghost )?use Rattle\.(\w+)\.specs\.([\w.]+)\.\{([^}]*)\};?$", lines):
        for name in re.split(r",\s*", names.strip(", \n")):
            there, _, here = name.partition(" as ")
            found[here or there] = (crate, file, there)
    return found


def blocks(content: str) -> dict[str, str]:
    """The text of each definition of a file, by its name."""
    found: dict[str, str] = {}
    name = ""
    for line in content.split("\n"):
        begins = re.match(r"(?:unfoldable |abbrev )?(?:pub )?(?:record |data )?(\S+)(?= [:(])", line)
        if begins and not line.startswith(("use ", "--")):
            name = begins.group(1)
        if name and not line.startswith("--"):
            found[name] = found.get(name, "") + line.partition(" --")[0] + "\n"
    return found


class Believed(unittest.TestCase):
    """docs/DEFINITIONS.md links each file of definitions once. Such a file has no proof, imports files of definitions alone
    beside the toolchain's library, and each of its definitions is one that a public contract rests on."""

    def setUp(self) -> None:
        self.files = [path for path in sorted(ROOT.glob("crates/*/specs/*.antt"))
                      if path.stem not in ("Lib", "theorems", "lemmas")]

    def test_page(self) -> None:
        linked = re.findall(r"\]\(\.\./(crates/[^)]+)\)", text("DEFINITIONS.md"))
        self.assertEqual(sorted(linked), [str(path.relative_to(ROOT)) for path in self.files])

    def test_definitions_alone(self) -> None:
        for path in self.files:
            with self.subTest(file=path.relative_to(ROOT)):
                self.assertNotRegex(path.read_text(encoding="utf-8"), r"(?m)^(?:pub )?(?!record |data )[^\s:({]+ :")

    def test_imports(self) -> None:
        known = {(path.parts[-3], path.stem) for path in self.files}
        for path in self.files:
            for line in re.findall(r"(?m)^use Rattle\..*$", path.read_text(encoding="utf-8")):
                with self.subTest(file=path.relative_to(ROOT), line=line):
                    crate, file = re.match(r"use Rattle\.(\w+)\.specs\.(\w+)", line).groups()
                    self.assertTrue(file == "declared" or (crate, file) in known or not (ROOT / "crates" / crate).exists())

    def test_rested_on(self) -> None:
        told, uses = {}, {}
        for path in self.files:
            content = path.read_text(encoding="utf-8")
            uses[path.parts[-3], path.stem] = imported(content)
            for name, block in blocks(content).items():
                told[Definition(path.parts[-3], path.stem, name)] = WORD.findall(block)
        reached: set[Definition] = set()
        ahead = [Definition(*place) for path in sorted(ROOT.glob("crates/*/src/**/*.rt")) for place in contracts(path)]
        while ahead:
            one = ahead.pop()
            if one in reached or one not in told:
                continue
            reached.add(one)
            known = uses[one.crate, one.file]
            ahead += [Definition(*known[word]) for word in told[one] if word in known]
            ahead += [Definition(one.crate, one.file, word) for word in told[one]]
        self.assertGreater(len(reached), 250)
        self.assertEqual(set(told) - reached, set())


def contracts(path: pathlib.Path) -> list[tuple[str, str, str]]:
    """What the contracts of a file's public functions name, by `ghost use`."""
    content = path.read_text(encoding="utf-8")
    known = imported(content)
    said = re.findall(r'(?ms)^pub (?:extern "C" )?fn .*?\n\{\n', content)
    return [known[word] for one in said for word in WORD.findall(one) if word in known]


class Sections(unittest.TestCase):
    """A section of docs/SPECIFICATION.md that a comment cites by its title is there."""

    def test_titles(self) -> None:
        headings = set(re.findall(r"(?m)^#+ (?:[\d.]+ )?(.*)$", text("SPECIFICATION.md")))
        cited = 0
        for path in CODE:
            comments = re.sub(r"\n *(?:--|//) ?", " ", path.read_text(encoding="utf-8"))
            for titles in re.findall(r"docs/SPECIFICATION\.md, ((?:'[^']+'(?:, | and )?)+)", comments):
                for title in re.findall(r"'([^']+)'", titles):
                    cited += 1
                    self.assertIn(title, headings, path)
        self.assertGreater(cited, 15)


class Sizes(unittest.TestCase):
    """The largest table has 256 tips and 4n nodes: what the pages and the package tell of the work that two of them take."""

    def test_work(self) -> None:
        cells = (4 * 256 - 1) ** 2
        self.assertIn(f" {cells} are enough for any pair, ", text("LIBRARY.md"))
        self.assertIn(f"\nWORK_CELLS = {cells}\n", (ROOT / "python" / "leskwyn" / "_library.py").read_text(encoding="utf-8"))

    def test_nodes(self) -> None:
        readme = (ROOT / "README.md").read_text(encoding="utf-8")
        for row in ("| 1 | m, the number of nodes: n to 4n |\n", "| 3 | m is not n to 4n |",
                    "| 7 | a tip other than node 0 has a child, or an inner node has none |"):
            self.assertEqual(readme.count(row), 1, row)


class Written(unittest.TestCase):
    """What a tool writes is current: the map of the crates in docs/ARCHITECTURE.md, and what each rests on in crates.txt."""

    def test_current(self) -> None:
        for tool in ("crate-map", "crate-lists"):
            with self.subTest(tool):
                ran = subprocess.run([ROOT / "tools" / tool, "--check"], capture_output=True, text=True, check=False)
                self.assertEqual((ran.returncode, ran.stderr), (0, ""))


class OneName(unittest.TestCase):
    """No two public definitions have one name."""

    def test_definitions(self) -> None:
        where = {}
        for path in SPECS + [path for path in PROOFS if path.relative_to(ROOT).parts[3] in ("theorems", "lemmas")]:
            for name in re.findall(r"^ *(?:unfoldable pub|abbrev pub|pub record|pub data) ([^\s:(]+)", path.read_text(encoding="utf-8"), re.M):
                where.setdefault(name, []).append(str(path.relative_to(ROOT)))
        self.assertGreater(len(where), 500)
        self.assertEqual({name: paths for name, paths in where.items() if len(paths) > 1}, {})


class Names(unittest.TestCase):
    """Names in docs/PROMISES.md stand in the crates."""

    def setUp(self) -> None:
        self.promises = text("PROMISES.md")

    def test_demands(self) -> None:
        known = {word for path in CODE for word in WORD.findall(path.read_text(encoding="utf-8"))}
        for demand in (1, 2, 3):
            rows = section(self.promises, f"Demand {demand}, sentence by sentence")
            names = {WORD.findall(name)[0] for name in re.findall(r"`([^`]+)`", rows) if WORD.findall(name)}
            self.assertGreater(len(names), 10)
            self.assertEqual(names - known, set())

    def test_edits(self) -> None:
        tried = {path.stem for path in ROOT.glob("crates/*/must-fail/*.edit")}
        told = set(re.findall(r"^\| (?:\w+ )?`(\w+)` \| [^|]+\|(?: [^|]+\|)?$", self.promises, re.M))
        self.assertEqual(tried - told, set())
        known = {word for path in CODE for word in WORD.findall(path.read_text(encoding="utf-8"))}
        self.assertEqual({name for name in told if "_" in name} - tried - known, set())

    def test_edits_cited(self) -> None:
        """A label of an edit has three words or more; a name like that is an edit's, or stands in the code."""
        tried = {path.stem for path in ROOT.glob("crates/*/must-fail/*.edit")}
        named = " ".join(path.read_text(encoding="utf-8") for path in CODE + sorted(ROOT.glob("include/*.h")))
        for page in ("PROMISES.md", "SPECIFICATION.md", "DECISIONS.md"):
            cited = set(re.findall(r"`(\w+_\w+_\w+)`", text(page)))
            self.assertEqual({name for name in cited - tried if name not in named}, set(), page)


if __name__ == "__main__":
    unittest.main()
