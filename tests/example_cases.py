#!/usr/bin/env python3
"""The cases of the program examples, with answers worked out from docs/SPECIFICATION.md alone.

    python3 tests/example_cases.py           writes crates/examples/stdin and stdout
    python3 tests/example_cases.py --check   tells whether the two files are what it would write
"""
import pathlib
import sys

sys.dont_write_bytecode = True
from cases import pairs, quartets, trees

FOLDER = pathlib.Path(__file__).resolve().parent.parent / "crates" / "examples"
ROOM = 278528  # the most bytes that the program reads


def main() -> int:
    sys.setrecursionlimit(10000)
    cases = trees.examples() + pairs.examples() + quartets.examples()
    files = {
        "stdin": "".join(" ".join(map(str, case.numbers)) + "\n" for case in cases),
        "stdout": "".join(" ".join(map(str, case.answer)) + "\n" for case in cases),
    }
    assert len(files["stdin"]) <= ROOM, len(files["stdin"])
    if sys.argv[1:] == ["--check"]:
        stale = [name for name, text in files.items() if (FOLDER / name).read_text() != text]
        print(f"{len(cases)} cases; not as worked out: {' '.join(stale) or 'none'}")
        return 1 if stale else 0
    for name, text in files.items():
        (FOLDER / name).write_text(text)
    print(f"{len(cases)} cases, {len(files['stdin'])} bytes in, {len(files['stdout'])} bytes out")
    return 0


if __name__ == "__main__":
    sys.exit(main())
