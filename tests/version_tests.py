#!/usr/bin/env python3
"""Tests that every place which tells the version tells that of CHANGELOG.md's newest heading.

    python3 tests/version_tests.py

Needs target/staticlib/libcapi.a and a C compiler: the header and the library are asked from C.
"""
import os
import pathlib
import re
import subprocess
import sys
import tempfile
import unittest

ROOT = pathlib.Path(__file__).resolve().parent.parent
LIBRARY = ROOT / "target" / "staticlib" / "libcapi.a"
ASKS = """\
#include <leskwyn.h>
#include <stdio.h>
int main(void) { printf("%lu %lu", (unsigned long)LESKWYN_VERSION, (unsigned long)leskwyn_version()); }
"""


def text(path: str) -> str:
    return (ROOT / path).read_text(encoding="utf-8")


def newest() -> str:
    """The version of the first heading below the title."""
    found = re.search(r"^## (\d+\.\d+\.\d+)$", text("CHANGELOG.md"), re.M)
    assert found is not None, "CHANGELOG.md has no heading with a version"
    return found[1]


def number(version: str) -> int:
    """The version as leskwyn_version tells it."""
    major, minor, patch = map(int, version.split("."))
    return major * 1_000_000 + minor * 1_000 + patch


def printed(*command: str | pathlib.Path, given: str = "") -> str:
    return subprocess.run(command, input=given, stdout=subprocess.PIPE, text=True, check=True, cwd=ROOT).stdout


class Versions(unittest.TestCase):
    def test_header_and_library(self) -> None:
        with tempfile.TemporaryDirectory() as folder:
            program = pathlib.Path(folder) / "asks"
            compiler = os.environ.get("CC", "cc")
            printed(compiler, "-Iinclude", "-x", "c", "-", "-x", "none", LIBRARY, "-o", program, given=ASKS)
            self.assertEqual(printed(program), f"{number(newest())} {number(newest())}")

    def test_definition(self) -> None:
        parts = dict(re.findall(r"^(major|minor|patch) = (\d+)$", text("crates/capi/specs/Version.antt"), re.M))
        self.assertEqual(f"{parts['major']}.{parts['minor']}.{parts['patch']}", newest())

    def test_packages(self) -> None:
        for path, packages in (("bindings", ["leskwyn"]), ("bench", ["bench", "leskwyn"])):
            told = re.findall(r'^name = "(\w+)"\nversion = "([^"]+)"$', text(f"{path}/Cargo.lock"), re.M)
            self.assertEqual(told, [(name, newest()) for name in packages])
            self.assertRegex(text(f"{path}/Cargo.toml"), rf'(?m)^version = "{re.escape(newest())}"$')

    def test_commands(self) -> None:
        for command in ("bin/compare", "bin/leskwyn"):
            with self.subTest(command=command):
                name = command.split("/")[1]
                self.assertEqual(printed(ROOT / command, "--version"), f"{name} (Leskwyn) {newest()}\n")

    def test_python_package(self) -> None:
        """It tells the version in one place, and its commands tell that."""
        self.assertRegex(text("python/leskwyn/__init__.py"), rf'(?m)^__version__ = "{re.escape(newest())}"$')
        telling = [path.name for path in (ROOT / "python").rglob("*.*")
                   if path.suffix in (".py", ".toml") and newest() in path.read_text(encoding="utf-8")]
        self.assertEqual(telling, ["__init__.py"])
        for command in ("", "compare", "against", "matrix", "why", "influence", "copy", "same", "exchange", "view", "view-topology",
                        "three", "nearest", "table", "show"):
            told = printed("env", "PYTHONPATH=python", sys.executable, "-B", "-m", "leskwyn", *command.split(), "--version")
            self.assertEqual(told, f"leskwyn (Leskwyn) {newest()}\n")


if __name__ == "__main__":
    unittest.main()
