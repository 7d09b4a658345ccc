"""The doors bin/leskwyn and bin/compare in a house of their own: a temporary folder with what they need of the repository,
tools/build among it, and a path that has the commands which they call, and in the place of rt a script that proves nothing.

The script notes each call, says that the crate in whose folder it is called is proved, and leaves in its out/ what was built
before: the program target/bin/compare and the library target/staticlib/libcapi.a of the repository.
"""
import os
import pathlib
import shutil
import subprocess
import sys
import tempfile
import unittest
from typing import Any

ROOT = pathlib.Path(__file__).resolve().parent.parent.parent
PROGRAM = pathlib.Path(os.environ.get("LESKWYN_COMPARE") or ROOT / "target" / "bin" / "compare").absolute()
LIBRARY = ROOT / "target" / "staticlib" / "libcapi.a"
SECONDS = 20  # the longest that one run may take
Done = subprocess.CompletedProcess[bytes]

STAND_IN_RT = """#!/bin/sh
echo "$PWD: $*" >>"$CALLS"
trap 'rmdir "$CALLS.running"' EXIT
trap 'exit 1' PIPE
mkdir "$CALLS.running" || echo "another runs" >>"$CALLS"
crate=${PWD##*/}
mkdir -p out
case $crate in
compare | capi)
    echo "what the prover says of $crate"
    [ ! -e "$CALLS.fail" ] || exit 1
    [ ! -e "$CALLS.nothing" ] || exit 0
    [ "$crate" = capi ] || cp "$PROGRAM" out/compare
    [ "$crate" = compare ] || cp "$LIBRARY" out/libcapi.a
    ;;
*)
    sleep "$PAUSE"
    echo "what the prover says of $crate"
    ;;
esac
echo "logic=proved functions=1"
"""
# What the doors call, what the stand-in calls besides, and what the C compiler does.
COMMANDS = ["awk", "bash", "cat", "dirname", "env", "find", "flock", "mkdir", "mv", "python3", "readlink", "rm", "rmdir", "sleep",
            "tail", "sh", "cp", "cc", "as", "ld"]
CRATES = ["sums", "shapes"]  # what both doors stand on in the house
CRATES_TXT = "sums:\nshapes: sums\ncapi staticlib: shapes sums\n# the program\ncompare: sums shapes io\n"


class House(unittest.TestCase):
    """`folder` holds `house`, the repository; `path`, the commands; `calls`, a line for each call of rt."""

    door = "compare"

    def setUp(self) -> None:
        folder = tempfile.TemporaryDirectory()
        self.addCleanup(folder.cleanup)
        self.folder = pathlib.Path(folder.name).resolve()
        self.house, self.calls, self.path = self.folder / "the house", self.folder / "calls", self.folder / "path"
        for part in ("bin", "examples"):
            shutil.copytree(ROOT / part, self.house / part)
        (self.house / "tools").mkdir()
        shutil.copy(ROOT / "tools" / "build", self.house / "tools" / "build")
        for crate in (*CRATES, "capi"):
            self.with_crate(crate)
        self.with_crate("compare", "main.rt")
        self.source = self.with_crate("compare", "input.rt")
        (self.house / "crates.txt").write_text(CRATES_TXT)
        self.target = self.house / "target"
        self.where = {"PATH": str(self.path), "CALLS": str(self.calls), "PROGRAM": str(PROGRAM), "LIBRARY": str(LIBRARY),
                      "PAUSE": "0"}
        self.path.mkdir()
        for command in COMMANDS:
            if found := sys.executable if command == "python3" else shutil.which(command):
                (self.path / command).symlink_to(found)
        self.command("rt", STAND_IN_RT)

    def with_crate(self, crate: str, name: str = "lib.rt") -> pathlib.Path:
        """Makes a crate's folder with this source, and gives the source."""
        file = self.house / "crates" / crate / "src" / name
        file.parent.mkdir(parents=True, exist_ok=True)
        file.write_text("")
        return file

    def command(self, name: str, script: str) -> None:
        """Puts a script on the path."""
        (self.path / name).unlink(missing_ok=True)
        (self.path / name).write_text(script)
        (self.path / name).chmod(0o755)

    def run_door(self, *words: str, cwd: pathlib.Path | str | None = None, command: str | None = None,
                 stdout: int = subprocess.PIPE, stderr: int = subprocess.PIPE, **given: Any) -> Done:
        """A run; `given` is its standard input, else it has an empty one."""
        given = given or {"input": b""}
        return subprocess.run([command or self.house / "bin" / self.door, *words], cwd=cwd or self.folder, env=self.where,
                              stdout=stdout, stderr=stderr, timeout=SECONDS, check=False, **given)

    def builds(self) -> list[list[str]]:
        """The calls of rt, build by build: each begins with the lowest crate."""
        begun: list[list[str]] = []
        for call in self.calls.read_text().splitlines() if self.calls.exists() else []:
            if call == f"{self.house}/crates/{CRATES[0]}: lib":
                begun.append([])
            self.assertTrue(begun, call)
            begun[-1].append(call)
        return begun

    def whole(self, door: str) -> list[str]:
        """The calls of a door's build that goes well: in the folders of its crates, one after another."""
        crates = [(crate, "lib") for crate in CRATES] + [{"compare": ("compare", "run"), "leskwyn": ("capi", "lib")}[door]]
        return [f"{self.house}/crates/{crate}: {word}" for crate, word in crates]

    def built(self) -> int:
        """How often a build was begun: rt was called in the crates' folders, with the door's words, and never two at once."""
        begun = self.builds()
        for build in begun:
            self.assertEqual(build, self.whole(self.door)[:len(build)])
        return len(begun)

    def file(self, name: str, content: bytes) -> str:
        (self.folder / name).write_bytes(content)
        return name

    def assert_done(self, done: Done, status: int, printed: bytes) -> None:
        self.assertEqual((done.returncode, done.stdout), (status, printed), done.stderr)

    def assert_trouble(self, done: Done, *words: str) -> None:
        """Status 2, nothing on standard output, a message."""
        self.assert_done(done, 2, b"")
        for word in words:
            self.assertIn(word, done.stderr.decode())
