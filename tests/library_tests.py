#!/usr/bin/env python3
"""Tests that docs/LIBRARY.md says what is run and what is there.

    python3 tests/library_tests.py

Each block of code on the page is the text of the file that is named before it. The calls that it lists are the public
functions of the libraries with their parameters, and the functions for C are the same in crates/capi, in the header, in
Rust and on the page, with the same types of parameters in the first three.
"""
import pathlib
import re
import unittest

ROOT = pathlib.Path(__file__).resolve().parent.parent
PROGRAMS = ["crates/library_example/src/main.rt", "crates/library_example/proofs/distance/Answers.antt",
            "examples/compare.c", "examples/canonical_copy.c", "examples/exchange_tallies.c", "bindings/examples/distance.rs"]
LIBRARIES = ["trees", "quartets", "weights", "pair_file", "rerooting", "kept_triplets", "one_label", "canonical_copy",
             "exchange_tallies", "levels", "views", "tree_lists", "median_tree"]


def text(path: str) -> str:
    return (ROOT / path).read_text(encoding="utf-8")


PAGE = text("docs/LIBRARY.md")


def named_blocks() -> list[tuple[str, str]]:
    """Each fenced block, with the last file that is named before it."""
    found = []
    path = ""
    for number, part in enumerate(re.split(r"^```\w*\n", PAGE, flags=re.M)):
        if number % 2:
            found.append((path, part))
        for name in re.findall(r"`([\w./-]+)`", part) if number % 2 == 0 else []:
            path = name if (ROOT / name).is_file() else path
    return found


def public_functions(crate: str) -> dict[str, list[str]]:
    """The parameters of each function that callers of the crate reach, its own and those that it passes on."""
    sources = [path.read_text(encoding="utf-8") for path in sorted(ROOT.glob("crates/*/src/*.rt"))]
    declared = {name: re.findall(r"(\w+):", parameters)
                for source in sources
                for name, parameters in re.findall(r"^pub fn (\w+)(?:<[^(]*>)?\(([^)]*)\)", source, re.M)}
    passed_on = re.findall(r"^pub use [\w:]+::(\w+|\{[^}]*\});", text(f"crates/{crate}/src/lib.rt"), re.M)
    reached = [name for names in passed_on for name in re.findall(r"\w+", names)]
    return {name: declared[name] for name in reached if name in declared}


# The types of a slice's pointer and of a number in C and in Rust, by those of crates/capi.
SLICES = {"&[u16]": ("const uint16_t *", "*const u16"), "&mut [u16]": ("uint16_t *", "*mut u16"),
          "&[u8]": ("const uint8_t *", "*const u8"), "&mut [u8]": ("uint8_t *", "*mut u8")}
NUMBERS = {"u16": ("uint16_t ", "u16"), "u64": ("uint64_t ", "u64"), "usize": ("size_t ", "usize"), "f64": ("double ", "f64")}


def exports() -> str:
    """The exported functions of crates/capi but the version's."""
    return "".join(text(f"crates/capi/src/{name}.rt") for name in ("exports", "labels", "tables", "tallies", "viewing", "lists"))


def parameter_types(pattern: str, source: str, of_parameter: str) -> dict[str, list[str]]:
    """The types of the parameters of each function that the pattern finds."""
    return {name: re.findall(of_parameter, parameters) for name, parameters in re.findall(pattern, source, re.M)}


class Blocks(unittest.TestCase):
    def test_programs(self) -> None:
        """Each program stands on the page, whole."""
        blocks = dict(named_blocks())
        for path in PROGRAMS:
            with self.subTest(path=path):
                self.assertEqual(blocks.get(path), text(path))

    def test_every_block(self) -> None:
        for path, block in named_blocks():
            with self.subTest(path=path):
                self.assertIn(block, text(path))


class Calls(unittest.TestCase):
    def test_calls(self) -> None:
        listed = {crate: {} for crate in LIBRARIES}
        for crate, name, parameters in re.findall(r"^\| `(\w+)::(\w+)\(([^)]*)\)` \|", PAGE, re.M):
            listed[crate][name] = parameters.split(", ")
        self.assertEqual(listed, {crate: public_functions(crate) for crate in LIBRARIES})

    def test_functions_for_c(self) -> None:
        exported = set(re.findall(r'^#\[unsafe\(no_mangle\)\]\npub extern "C" fn (\w+)',
                                  exports() + text("crates/capi/src/version.rt"), re.M))
        self.assertEqual(set(re.findall(r"^\w+ (leskwyn_\w+)\(", text("include/leskwyn.h"), re.M)), exported)
        self.assertEqual(set(re.findall(r"^    pub fn (\w+)\(", text("bindings/src/raw.rs"), re.M)), exported)
        self.assertEqual(set(re.findall(r"^\| `(leskwyn_\w+)` \|", PAGE, re.M)), exported)

    def test_types_for_c(self) -> None:
        """A linker does not see types: a work of words where the library takes bytes would pass unseen."""
        cell = re.search(r"^pub type Cell = (\w+);", text("crates/table_words/src/lib.rt"), re.M)
        assert cell is not None
        exported = parameter_types(r'^pub extern "C" fn (\w+)\(([^)]*)\)', exports().replace("[Cell]", f"[{cell[1]}]"),
                                   r"\w+: ([^,\n)]+)")
        in_c = parameter_types(r"^\w+ (leskwyn_\w+)\(([^)]*)\);", text("include/leskwyn.h"), r"((?:const )?\w+ \*?)\w+(?:,|$)")
        in_rust = parameter_types(r"^    pub fn (\w+)\(([^)]*)\)", text("bindings/src/raw.rs"), r"\w+: ([^,\n]+)")
        self.assertIn("&mut [u8]", exported["leskwyn_crossings"])
        for name, types in exported.items():
            slices = [[SLICES[one], NUMBERS["usize"]] if one in SLICES else [NUMBERS[one]] for one in types]
            flat = [one for both in slices for one in both]
            with self.subTest(function=name):
                self.assertEqual((in_c[name], in_rust[name]), ([c for c, _ in flat], [rust for _, rust in flat]))


if __name__ == "__main__":
    unittest.main()
