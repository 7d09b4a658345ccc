#!/usr/bin/env python3
"""Tests of the doors bin/leskwyn and bin/compare: what they keep on first use, and what they say of text by mistake.

    python3 tests/first_use_tests.py

Needs target/bin/compare, target/staticlib/libcapi.a and a C compiler. Nothing is proved here: the doors and tools/build stand in
cases/house, with a script in the place of rt, and bin/leskwyn runs a package of a few lines that asks the library for its
version; what is told before anything is built is told by the package of the repository.
"""
import contextlib
import os
import re
import signal
import subprocess
import sys
import time
import unittest
from collections.abc import Callable
from typing import Any

sys.dont_write_bytecode = True
from cases import skips
from cases.house import CRATES, LIBRARY, PROGRAM, ROOT, SECONDS, Done, House
from cases.shapes import caterpillar
from cases.tables import P, Q

# docs/SPECIFICATION.md, 'The listing of P and Q'.
P_AND_Q = b"leaves 5\nclaims 10 6 6 0\nquartets 3 0 2 0 0\ndistance 2\nsplits 2 1 1 1\ntriplets 3 0 1 0 0\n"
P_AND_Q_TREES = b"(0,(1,(2,(3,4))));(0,1,(2,3,4));"
PACKAGE = """\
import ctypes, os, sys
print(ctypes.CDLL(os.environ["LESKWYN_LIBRARY"]).leskwyn_version(), sys.argv[1:], sys.path[:2])
"""
BEFORE = "def run(has_library):\n    raise SystemExit(9 if has_library else 3)\n"
OLDER_PYTHON = """\
#!/bin/sh
shift
code="import sys; sys.version_info = (3, 9, 2); sys.version = '3.9.2 (older)'
$1"
shift
exec {python} -c "$code" "$@"
"""
CHECK_TIMES = "## Other\n\n| `sums` | 1 | 900 |\n\n## Check times\n\n| crate | functions | s |\n|---|---:|---:|\n"


def setUpModule() -> None:
    for built in (PROGRAM, LIBRARY):
        if not built.is_file():
            sys.exit(f"first_use_tests: {built} is missing; run 'tools/build check compare' and 'tools/build staticlib capi'")


def header_version() -> int:
    """The number that include/leskwyn.h has for the version."""
    found = re.search(r"#define LESKWYN_VERSION\D+(\d+)", (ROOT / "include" / "leskwyn.h").read_text(encoding="utf-8"))
    assert found is not None
    return int(found[1])


def until(holds: Callable[[], bool]) -> None:
    """Waits for it."""
    end = time.monotonic() + SECONDS
    while not holds():
        assert time.monotonic() < end, "it did not come"
        time.sleep(0.01)


def screen(said: str) -> list[str]:
    """The lines on a terminal that got these characters."""
    lines, column = [""], 0
    for sign in re.findall(r"\r|\n|\x1b\[K|.", said):
        if sign == "\r":
            column = 0
        elif sign == "\n":
            lines.append("")
        elif sign == "\x1b[K":
            lines[-1] = lines[-1][:column]
        else:
            lines[-1] = lines[-1][:column] + sign + lines[-1][column + 1:]
            column += 1
    return lines


class Door(House):
    """A house in which the door is used. `words` and `printed` are those of a use that goes well."""

    words: list[str]
    crate: str
    built_file: str

    def printed(self) -> bytes:
        raise NotImplementedError

    def start(self, **given: Any) -> subprocess.Popen[bytes]:
        """A use in the background."""
        return subprocess.Popen([self.house / "bin" / self.door, *self.words], cwd=self.folder, env=self.where,
                                stdin=subprocess.DEVNULL, stdout=subprocess.PIPE,
                                **{"stderr": subprocess.PIPE, **given})

    def ended(self, use: subprocess.Popen[bytes]) -> Done:
        printed, said = use.communicate(timeout=SECONDS)
        return subprocess.CompletedProcess(use.args, use.returncode, printed, said)

    def assert_used(self, builds: int) -> Done:
        """A use that goes well; so many builds were begun since the beginning."""
        done = self.run_door(*self.words)
        self.assert_done(done, 0, self.printed())
        self.assertEqual(self.built(), builds, done.stderr)
        self.assertEqual(self.builds()[-1], self.whole(self.door))
        return done

    def marks(self) -> list[str]:
        return sorted(path.name for path in self.target.glob("*.mark"))

    def kept(self) -> dict[str, tuple[int, int]]:
        """The size and the time of each file that a use leaves."""
        return {str(path): (path.stat().st_size, path.stat().st_mtime_ns) for path in self.target.rglob("*")}

    def with_check_times(self, **seconds: int) -> None:
        (self.house / "docs").mkdir(exist_ok=True)
        rows = [f"| `{crate}` | 1 | {took} |\n" for crate, took in seconds.items()]
        (self.house / "docs" / "PROMISES.md").write_text(CHECK_TIMES + "".join(rows), encoding="utf-8")

    def kill_in_the_middle(self) -> None:
        """A use that is killed while rt proves the second crate. Its rt may have the streams for a while still."""
        self.where["PAUSE"] = "0.2"
        log = self.target / f"{self.door}.log"
        log.unlink(missing_ok=True)
        use = self.start()
        until(lambda: log.is_file() and b"sums proved" in log.read_bytes())
        use.kill()
        self.assertEqual(use.wait(timeout=SECONDS), -signal.SIGKILL)
        use.stdout.close()
        use.stderr.close()
        self.where["PAUSE"] = "0"


class Building(Door):
    """What holds of both doors."""

    def test_first_and_second_use(self) -> None:
        done = self.assert_used(1)
        lines = [line for line in done.stderr.decode().splitlines() if "example" not in line]
        self.assertEqual(len(lines), 1, lines)
        for words in ("proving and building", "on first use", f"{self.door}.log"):
            self.assertIn(words, lines[0])
        self.assertEqual(self.marks(), [f"{self.door}.mark"])
        log = (self.target / f"{self.door}.log").read_text()
        for crate in CRATES:
            self.assertRegex(log, rf"what the prover says of {crate}\nlogic=proved functions=1\nrt: {crate} proved \(\d s\)\n")
        (self.path / "rt").unlink()
        kept = self.kept()
        self.assertNotIn(b"proving", self.assert_used(1).stderr)
        self.assertEqual(self.kept(), kept)

    def test_a_newer_source_is_built(self) -> None:
        self.assert_used(1)
        for number, newer in enumerate((self.source, self.house / "crates.txt"), start=2):
            later = time.time() + 3600
            os.utime(newer, (later, later))
            self.assert_used(number)
            os.utime(newer, (0, 0))
            self.assert_used(number)
        self.source.unlink()
        self.assert_used(4)

    def test_a_file_that_is_gone_is_built(self) -> None:
        self.assert_used(1)
        (self.house / self.built_file).unlink()
        self.assert_used(2)

    def test_a_failed_build_is_told_and_tried_again(self) -> None:
        fail = self.folder / "calls.fail"
        fail.write_text("")
        for _ in range(2):
            done = self.run_door(*self.words)
            self.assert_trouble(done, f"{self.crate} failed", f"{self.door}.log")
            self.assertRegex(done.stderr.decode(), rf"(?m)^rt: {self.crate} NOT PROVED \(exit 1, \d s\)$")
            self.assertEqual(self.marks(), [])
        fail.unlink()
        self.assert_used(3)

    def test_what_no_longer_proves_is_not_used(self) -> None:
        self.assert_used(1)
        later = time.time() + 3600
        os.utime(self.source, (later, later))
        (self.folder / "calls.fail").write_text("")
        self.assert_trouble(self.run_door(*self.words), f"{self.crate} failed")

    def test_no_rt(self) -> None:
        (self.path / "rt").unlink()
        self.assert_trouble(self.run_door(*self.words), "still to be proved and built, and there is no rt on the path")

    def test_a_folder_that_cannot_be_written(self) -> None:
        self.target.write_text("")
        self.assert_trouble(self.run_door(*self.words), f"cannot write in {self.target}")
        self.target.unlink()
        if os.path.isdir("/proc/self"):
            self.target.symlink_to("/proc")
            self.assert_trouble(self.run_door(*self.words), f"cannot write in {self.target}")
        self.assertEqual(self.built(), 0)

    @unittest.skipIf(os.geteuid() == 0, "root can write everywhere")
    def test_a_read_only_folder(self) -> None:
        self.assert_used(1)
        self.target.chmod(0o555)
        self.addCleanup(self.target.chmod, 0o755)
        self.assert_used(1)
        os.utime(self.source, (later := time.time() + 3600, later))
        self.assert_trouble(self.run_door(*self.words), f"cannot write in {self.target}")

    @unittest.skipUnless(os.path.exists("/dev/full"), "there is no full device")
    def test_a_full_device(self) -> None:
        with open("/dev/full", "wb") as full:
            done = self.run_door("--version", stdout=full.fileno())
            self.assertEqual((done.returncode, done.stderr.decode()), (2, f"{self.door}: cannot write to standard output\n"))
            self.assert_done(self.run_door(*self.words, stderr=full.fileno()), 0, self.printed())
        self.assertEqual(self.built(), 1)
        os.utime(self.source, (later := time.time() + 3600, later))
        log = self.target / f"{self.door}.log"
        log.unlink()
        log.symlink_to("/dev/full")
        self.assert_used(2)

    def test_nobody_reads_the_progress(self) -> None:
        reader, writer = os.pipe()
        os.close(reader)
        self.assert_done(self.run_door(*self.words, stderr=writer), 0, self.printed())
        os.close(writer)
        self.assert_done(self.run_door(*self.words, preexec_fn=lambda: os.close(2)), 0, self.printed())
        self.assertEqual(self.built(), 1)

    def test_closed_standard_input(self) -> None:
        self.assert_done(self.run_door(*self.words, preexec_fn=lambda: os.close(0)), 0, self.printed())
        self.assertEqual(self.built(), 1)

    def test_help_and_version_build_nothing(self) -> None:
        (self.path / "rt").unlink(missing_ok=True)
        for option in ("-h", "--help"):
            done = self.run_door(option)
            self.assertEqual((done.returncode, done.stderr, done.stdout[:5]), (0, b"", b"usage"))
        newest = re.search(r"^## (\S+)$", (ROOT / "CHANGELOG.md").read_text(encoding="utf-8"), re.M)
        self.assert_done(self.run_door("--version"), 0, f"{self.door} (Leskwyn) {newest[1]}\n".encode())
        self.assertFalse(self.target.exists())


class AtOnce(Door):
    """Several first uses at once, and killed ones; with flock here, and below without it."""

    def test_first_uses_at_once(self) -> None:
        self.where["PAUSE"] = "0.1"
        for number, count in enumerate((2, 5), start=1):
            uses = [self.start() for _ in range(count)]
            done = [self.ended(use) for use in uses]
            self.assertEqual({(use.returncode, use.stdout) for use in done}, {(0, self.printed())})
            self.assertEqual(self.built(), number)
            said = "\n".join(use.stderr.decode() for use in done)
            self.assertEqual(said.count("proving and building"), 1, said)
            (self.target / f"{self.door}.mark").unlink()

    def test_a_killed_first_use_is_begun_anew(self) -> None:
        self.kill_in_the_middle()
        self.assertEqual(self.marks(), [])
        self.assert_used(2)
        self.assert_used(2)

    def test_a_killed_rebuild_leaves_no_mark(self) -> None:
        self.assert_used(1)
        later = time.time() + 3600
        os.utime(self.source, (later, later))
        self.kill_in_the_middle()
        os.utime(self.source, (0, 0))
        self.assertTrue((self.house / self.built_file).exists())
        self.assertEqual(self.marks(), [])
        self.assert_used(3)


class WithoutFlock(AtOnce):
    def setUp(self) -> None:
        super().setUp()
        (self.path / "flock").unlink(missing_ok=True)
        self.lock = self.target / "first-use.lock.d"

    def with_lock(self, holders: str | None, age: float) -> None:
        self.lock.mkdir(parents=True)
        if holders is not None:
            (self.lock / "holders").write_text(holders)
        os.utime(self.lock, (time.time() - age, time.time() - age))

    def test_the_lock_of_processes_that_are_gone_is_taken_over(self) -> None:
        gone = subprocess.Popen(["true"])
        gone.wait()
        self.with_lock(f"{gone.pid}\n{gone.pid}\n", 0)
        self.assertNotIn(b"waits", self.assert_used(1).stderr)
        self.assertFalse(self.lock.exists())

    def test_a_lock_of_nobody_is_taken_over_when_it_is_old(self) -> None:
        self.with_lock(None, 3600)
        self.assertNotIn(b"waits", self.assert_used(1).stderr)

    def test_a_lock_of_a_living_process_is_waited_for(self) -> None:
        for number, holders in enumerate((f"{os.getpid()}\n", None), start=1):
            self.with_lock(holders, 0)
            use = self.start()
            time.sleep(0.5)
            self.assertEqual((use.poll(), self.built()), (None, number - 1))
            for inside in self.lock.iterdir():
                inside.unlink()
            self.lock.rmdir()
            done = self.ended(use)
            self.assert_done(done, 0, self.printed())
            self.assertEqual((self.built(), done.stderr.count(b"waits for it")), (number, 1))
            (self.target / f"{self.door}.mark").unlink()


class Progress(Door):
    def on_terminal(self, term: str = "xterm") -> str:
        """What a first use says on a terminal."""
        own, other = os.openpty()
        self.where["TERM"] = term
        use = self.start(stderr=other)
        os.close(other)
        said = b""
        with contextlib.suppress(OSError):  # that is how a terminal ends
            while piece := os.read(own, 4096):
                said += piece
        os.close(own)
        self.assert_done(self.ended(use), 0, self.printed())
        return said.decode()

    def test_one_line_is_rewritten_on_a_terminal(self) -> None:
        self.with_check_times(sums=60, shapes=120, **{self.crate: 60})
        self.where["PAUSE"] = "0.05"
        said = self.on_terminal()
        told = re.findall(r"\r([^\r\n]+)\x1b\[K", said)
        crates = [re.sub(r"; about \d+ (?:s|min) left$|; some seconds left$", "", line) for line in told]
        expected = [f"{self.door}: proving {crate}, crate {number} of 3" for number, crate in
                    enumerate([*CRATES, self.crate], start=1)]
        expected.append(f"{self.door}: all 3 crates are proved; building")
        self.assertEqual(list(dict.fromkeys(crates)), expected, said)
        self.assertIn("about 4 min left", told[0])
        left = [line for line in screen(said) if line]
        self.assertTrue(left[-1].startswith(f"{self.door}: proving and building"), left)

    def test_the_time_left_follows_the_pace(self) -> None:
        """The first crate was to take 60 s and takes none, so the rest is expected to be quicker."""
        self.with_check_times(sums=60, shapes=120, **{self.crate: 60})
        said = self.on_terminal()
        self.assertRegex(said, r"proving sums, crate 1 of 3; about 4 min left")
        self.assertRegex(said, r"proving shapes, crate 2 of 3; about 30 s left")

    def test_unchanged_crates_say_nothing_of_the_pace(self) -> None:
        self.with_check_times(sums=60, shapes=120, **{self.crate: 60})
        script = (self.path / "rt").read_text().replace("logic=proved", "nothing has changed since the last proved build")
        self.command("rt", script)
        self.assertRegex(self.on_terminal(), r"proving shapes, crate 2 of 3; about 3 min left")

    def test_a_dumb_terminal_gets_lines(self) -> None:
        said = self.on_terminal("dumb")
        self.assertNotIn("\x1b", said)
        self.assertEqual(said.count("proving"), 1)

    def test_the_crates_of_the_repository(self) -> None:
        """Those of the door's line in crates.txt and the crate itself, level by level."""
        needs = {name: words.split() for name, words in
                 re.findall(r"^(\w+)(?: staticlib)?:(.*)$", (ROOT / "crates.txt").read_text(encoding="utf-8"), re.M)}

        def level(crate: str) -> int:
            return 1 + max((level(below) for below in needs[crate] if below in needs), default=-1)

        needed = sorted([name for name in needs[self.crate] if name in needs] + [self.crate], key=level)
        (self.house / "crates.txt").write_text((ROOT / "crates.txt").read_text(encoding="utf-8"), encoding="utf-8")
        for crate in needed:
            self.with_crate(crate)
        said = self.on_terminal()
        told = {int(number): crate for crate, number in re.findall(rf"proving (\w+), crate (\d+) of {len(needed)};", said)}
        self.assertEqual(list(told), list(range(1, len(needed) + 1)), said)
        self.assertEqual([level(crate) for crate in told.values()], [level(crate) for crate in needed], said)
        self.assertIn(f"all {len(needed)} crates are proved; building", said)

    def test_a_page_that_cannot_be_read(self) -> None:
        """Ten seconds for each of the three crates."""
        self.assertIn("on first use, about 30 s; log: ", self.assert_used(1).stderr.decode())


class CompareDoor(Door):
    door, crate, built_file, words = "compare", "compare", "target/bin/compare", []

    def printed(self) -> bytes:
        return P_AND_Q


class LeskwynDoor(Door):
    door, crate, built_file, words = "leskwyn", "capi", "target/libleskwyn.so", ["compare", "two words", "", "*"]

    def setUp(self) -> None:
        super().setUp()
        self.package = self.folder / "packages" / "leskwyn"
        self.package.mkdir(parents=True)
        (self.package / "__main__.py").write_text(PACKAGE)
        (self.package / "commands.py").write_text(BEFORE)
        self.where |= {"LESKWYN_PYTHON": str(self.package.parent), "PYTHONPATH": "/elsewhere", "PYTHONDONTWRITEBYTECODE": "1"}

    def printed(self) -> bytes:
        path = [str(self.package.parent), "/elsewhere"]
        return f"{header_version()} {self.words} {path}\n".encode()


class CompareBuilding(CompareDoor, Building):
    def test_a_build_that_leaves_nothing(self) -> None:
        (self.folder / "calls.nothing").write_text("")
        self.assert_trouble(self.run_door(), "left no")


class CompareAtOnce(CompareDoor, AtOnce):
    pass


class CompareWithoutFlock(CompareDoor, WithoutFlock):
    pass


class CompareProgress(CompareDoor, Progress):
    def test_lines_now_and_then_where_there_is_no_terminal(self) -> None:
        shared = self.house / "bin" / "first-use.sh"
        self.assertEqual(shared.read_text().count("every=30 "), 1)
        shared.write_text(shared.read_text().replace("every=30 ", "every=1 "))
        self.where["PAUSE"] = "0.75"
        lines = [line for line in self.assert_used(1).stderr.decode().splitlines() if "proving" in line]
        self.assertIn("proving and building", lines[0])
        self.assertIn(len(lines), (2, 3), lines)  # the clock of the shell has whole seconds
        for line in lines[1:]:
            self.assertRegex(line, r"^compare: proving (?:sums, crate 1|shapes, crate 2) of 3; (?:about \d+ s|some seconds) left$")


    def test_lines_in_pieces_and_without_an_end(self) -> None:
        (self.house / "tools" / "build").write_text("#!/bin/sh\n[ $1 != order ] || { echo sums; exit; }\nprintf 'rt: sums pro'\n"
                                                    "sleep 1.2\necho 've\\d (1 s)'\nprintf 'the end '\nexit 3\n")
        self.assert_trouble(self.run_door(), "\nthe end \ncompare: tools/build check compare failed")
        self.assertEqual((self.target / "compare.log").read_text(), "rt: sums prove\\d (1 s)\nthe end \n")


class LeskwynBuilding(LeskwynDoor, Building):
    def with_nothing_to_build_with(self) -> None:
        """The package of the repository, no rt and no C compiler."""
        self.where |= {"LESKWYN_PYTHON": str(ROOT / "python"), "CC": "no-such-compiler"}
        (self.path / "rt").unlink(missing_ok=True)

    def assert_nothing_begun(self) -> None:
        self.assertEqual((self.built(), self.target.exists()), (0, False))

    def test_help_and_version_build_nothing(self) -> None:
        self.with_nothing_to_build_with()
        super().test_help_and_version_build_nothing()
        for command in ("compare", "against", "matrix", "why", "influence", "copy", "same", "exchange", "view", "view-topology",
                        "three", "nearest", "table", "show"):
            for words in (["-h"], ["--help"], ["a", "--help"]):
                done = self.run_door(command, *words)
                self.assertEqual((done.returncode, done.stderr), (0, b""))
                self.assertTrue(done.stdout.startswith(b"usage: leskwyn " + command.encode()), done.stdout)
            self.assertTrue(self.run_door(command, "--version").stdout.startswith(b"leskwyn (Leskwyn) "))
        self.assert_nothing_begun()

    def test_wrong_usage_is_told_before_anything_is_built(self) -> None:
        self.with_nothing_to_build_with()
        for words, told in ((["comprae", "a", "b"], "no command 'comprae'; the commands are compare, "),
                            (["a.nwk", "b.nwk"], "no command 'a.nwk'"), (["--listing"], "no command '--listing'"),
                            (["compare", "--lisitng", "a"], "unrecognized arguments: --lisitng"),
                            (["compare", "--format", "xml", "a"], "invalid choice: 'xml'"),
                            (["compare", "a", "b", "c"], "3 files; one or two are needed"), (["matrix"], "no files;"),
                            (["matrix", "a", "--jobs", "0"], "not a number of threads"), (["against", "a"], "REF and one file"),
                            (["why", "a", "b"], "2 words; one or two files and four names are needed"),
                            (["why", "a.nwk", "-", "b", "c", "d", "e"], "cannot read a.nwk: No such file"),
                            (["influence"], "0 files; one or two are needed"),
                            (["influence", "a", "--drop", "0"], "not a number of populations from 1 to 256"),
                            (["copy", "a", "b"], "2 files; one is needed"), (["copy", "a.nwk"], "cannot read a.nwk: No such file"),
                            (["same"], "0 files; one or two are needed"),
                            (["same", "-", "a.nwk"], "cannot read a.nwk: No such file"),
                            (["exchange", "a", "--pairs", "0"], "not a number of pairs from 1 on"),
                            (["exchange", "a.nwk"], "cannot read a.nwk: No such file"),
                            (["view", "a", "b"], "required: --levels, --viewer"),
                            (["view", "-", "--levels", "a.tsv", "--viewer", "1"], "cannot read a.tsv: No such file"),
                            (["view", "a", "--levels", "b", "--viewer", "4"], "'4' is not a level from 0 to 3"),
                            (["view-topology", "a", "--levels", "b", "--viewer", "1"], "1 word; a file and four names are needed"),
                            (["view-topology", "a.nwk", *"bcde", "--levels", "-", "--viewer", "1"],
                             "cannot read a.nwk: No such file"),
                            (["three", "a", "b"], "2 files; one or three are needed"),
                            (["three", "a", "b", "c", "--weight", "0.3"], "'0.3' is no weight"),
                            (["three", "a.nwk", "-", "b.nwk"], "cannot read a.nwk: No such file"),
                            (["nearest"], "no files; one or more are needed"),
                            (["nearest", "a", "--jobs", "0"], "not a number of threads"),
                            (["nearest", "-", "a.nwk"], "cannot read a.nwk: No such file"),
                            (["table"], "0 tree files;"), (["show", "a", "--nmaes", "b"], "--nmaes"),
                            (["compare", "a.nwk", "-"], "cannot read a.nwk: No such file"),
                            (["matrix", "-", "the house"], "cannot read the house: Is a directory"),
                            (["against", "--", "-h", "a"], "cannot read -h: No such file")):
            done = self.run_door(*words)
            self.assert_trouble(done, "leskwyn: ", told)
            self.assertEqual(done.stderr.count(b"\n"), 1, done.stderr)
        self.assert_trouble(self.run_door("compare", "-", preexec_fn=lambda: os.close(0)), "standard input: it is closed")
        self.assert_nothing_begun()

    def test_what_needs_no_library_builds_none(self) -> None:
        self.with_nothing_to_build_with()
        trees = self.file("trees", P_AND_Q_TREES)
        self.assert_done(self.run_door("table", trees, "-o", "pair"), 0, b"")
        self.assertEqual((self.folder / "pair").read_bytes(), (ROOT / "examples" / "p-q.bin").read_bytes())
        self.assertIn(b"(0,1,(2,(3,4)));\n", self.run_door("show", "-", input=(self.folder / "pair").read_bytes()).stdout)
        self.assert_nothing_begun()

    def test_what_needs_the_library_wants_it(self) -> None:
        self.with_nothing_to_build_with()
        self.file("-h", b"")
        for words in ([], ["compare"], ["compare", "-"], ["compare", "--", "-h"], ["matrix", "/dev/stdin"]):
            self.assert_trouble(self.run_door(*words), "still to be built, and there is no C compiler no-such-compiler")

    def test_standard_input_and_pipes_are_left_to_the_command(self) -> None:
        self.where["LESKWYN_PYTHON"] = str(ROOT / "python")
        self.assert_done(self.run_door("compare", "-", "--listing", input=P_AND_Q_TREES), 0, P_AND_Q)
        self.assertEqual(self.built(), 1)
        (self.target / "leskwyn.mark").unlink()
        pipe = self.folder / "pipe"
        os.mkfifo(pipe)
        self.words = ["compare", "pipe", "--listing"]
        use = self.start()
        pipe.write_bytes(P_AND_Q_TREES)
        self.assert_done(self.ended(use), 0, P_AND_Q)
        self.assertEqual(self.built(), 2)

    def test_the_status_and_standard_input_are_those_of_the_package(self) -> None:
        (self.package / "__main__.py").write_text("import sys\nprint(sys.stdin.read())\nsys.exit(1)\n")
        self.assert_done(self.run_door("compare", "-", input=b"a tree"), 1, b"a tree\n")

    def test_no_module_of_the_current_folder_is_taken(self) -> None:
        for name in ("leskwyn", "ctypes", "os"):
            self.file(f"{name}.py", b"raise SystemExit(9)")
        self.assert_used(1)
        self.where["PYTHONSAFEPATH"] = "1"
        self.assert_used(1)

    def test_the_package_beside_bin(self) -> None:
        self.package.parent.rename(self.house / "python")
        del self.where["LESKWYN_PYTHON"], self.where["PYTHONPATH"]
        done = self.run_door(*self.words)
        self.assertEqual(done.returncode, 0, done.stderr)
        self.assertIn(str(self.house / "python"), done.stdout.decode())

    def test_from_elsewhere_and_through_a_link(self) -> None:
        self.assert_used(1)
        (self.folder / "linked").symlink_to(self.house / "bin" / "leskwyn")
        for cwd, command in (("/", None), (self.folder, "./linked"), (self.house, "bin/leskwyn")):
            self.assert_done(self.run_door(*self.words, cwd=cwd, command=command), 0, self.printed())
        self.assertEqual(self.built(), 1)

    def test_standard_input_that_is_a_folder(self) -> None:
        folder = os.open(self.folder, os.O_RDONLY)
        self.addCleanup(os.close, folder)
        done = self.run_door(*self.words, stdin=folder)
        self.assert_trouble(done)
        self.assertEqual((done.stderr, self.built()), (b"leskwyn: standard input is a folder, not a file\n", 0))

    def test_no_package(self) -> None:
        self.where["LESKWYN_PYTHON"] = str(self.folder)
        self.assert_trouble(self.run_door(*self.words), f"no Python package leskwyn in {self.folder}")

    def test_no_python(self) -> None:
        (self.path / "python3").unlink()
        self.assert_trouble(self.run_door(*self.words), "there is no python3 on the path")
        self.assertEqual(self.built(), 0)

    def test_an_older_python(self) -> None:
        self.assert_used(1)
        self.command("python3", OLDER_PYTHON.format(python=sys.executable))
        for _ in range(2):
            done = self.run_door(*self.words)
            self.assert_trouble(done)
            self.assertEqual(done.stderr, b"leskwyn: Python 3.10 or newer is needed, and python3 is 3.9.2\n")
            (self.target / "leskwyn.mark").unlink(missing_ok=True)
        self.assertEqual(self.built(), 1)

    def test_no_c_compiler(self) -> None:
        self.where["CC"] = "no-such-compiler"
        self.assert_trouble(self.run_door(*self.words), "no C compiler no-such-compiler on the path")
        self.assertEqual(self.built(), 0)
        del self.where["CC"]
        self.assert_used(1)
        self.where["CC"] = "no-such-compiler"
        self.assert_used(1)

    def test_a_c_compiler_that_fails_or_is_killed(self) -> None:
        self.where["CC"] = "half"
        self.command("half", "#!/bin/sh\nprintf half >\"$3\"\necho no more room\nexit 1\n")
        self.assert_trouble(self.run_door(*self.words), "no more room", "half made no shared library")
        self.assertEqual((self.marks(), (self.house / self.built_file).exists()), ([], False))
        self.command("half", "#!/bin/sh\nprintf half >\"$3\"\nkill -KILL $PPID\n")
        self.assertEqual(self.run_door(*self.words).returncode, -signal.SIGKILL)
        self.assertEqual((self.marks(), (self.house / self.built_file).exists()), ([], False))
        del self.where["CC"]
        self.assert_used(3)


class LeskwynAtOnce(LeskwynDoor, AtOnce):
    pass


class LeskwynProgress(LeskwynDoor, Progress):
    pass


class BothDoors(LeskwynDoor):
    def test_both_at_once_wait_for_each_other(self) -> None:
        self.where["PAUSE"] = "0.1"
        other = subprocess.Popen([self.house / "bin" / "compare"], env=self.where, stdout=subprocess.PIPE,
                                 stderr=subprocess.DEVNULL)
        use = self.start()
        self.assertEqual(other.communicate(timeout=SECONDS)[0], P_AND_Q)
        self.assert_done(self.ended(use), 0, self.printed())
        self.assertEqual(sorted(self.builds()), sorted([self.whole("compare"), self.whole("leskwyn")]))
        self.assertEqual(self.marks(), ["compare.mark", "leskwyn.mark"])


class Build(House):
    """tools/build, which both doors call."""

    def run_build(self, *words: str) -> Done:
        return self.run_door(*words, command=str(self.house / "tools" / "build"))

    def test_what_it_leaves(self) -> None:
        for words, left in ((["check", "capi"], []), (["check", "compare"], ["bin/compare"]),
                            (["staticlib", "capi"], ["bin/compare", "staticlib/libcapi.a"])):
            done = self.run_build(*words)
            self.assertEqual((done.returncode, done.stderr), (0, b""))
            self.assertRegex(done.stdout.decode(), rf"\nrt: {words[1]} proved \(\d s\)\n$")
            kept = [str(path.relative_to(self.target)) for path in self.target.rglob("*") if path.is_file()]
            self.assertEqual(sorted(kept), left)
        self.assertEqual((self.target / "bin" / "compare").read_bytes(), PROGRAM.read_bytes())
        self.assertTrue(os.access(self.target / "bin" / "compare", os.X_OK))
        self.assertEqual((self.target / "staticlib" / "libcapi.a").read_bytes(), LIBRARY.read_bytes())

    def test_nothing_above_a_crate_that_is_not_proved(self) -> None:
        self.command("rt", "#!/bin/sh\necho ${PWD##*/} >>\"$CALLS\"\n[ ${PWD##*/} != shapes ] || exit 5\n")
        done = self.run_build("check", "compare")
        self.assertEqual((done.returncode, self.calls.read_text(), self.target.exists()), (1, "sums\nshapes\n", False))
        self.assertRegex(done.stdout.decode(), r"^rt: sums proved \(unchanged\)\nrt: shapes NOT PROVED \(exit 5, \d s\)\n$")

    def test_the_order(self) -> None:
        self.assert_done(self.run_build("order", "compare"), 0, b"sums\nshapes\ncompare\n")
        self.assert_done(self.run_build("order", "capi"), 0, b"sums\nshapes\ncapi\n")

    def test_wrong_words(self) -> None:
        for words, told in (([], "two words are needed"), (["check"], "two words are needed"),
                            (["prove", "sums"], "no command prove"), (["check", "none"], "crates.txt has no crate none"),
                            (["order", ""], "crates.txt has no crate")):
            self.assert_trouble(self.run_build(*words), f"tools/build: {told}")
        self.assertFalse(self.calls.exists())


class Text(CompareDoor):
    """Text in the place of a comparison file."""

    def assert_told(self, content: bytes, kind: str) -> None:
        name = self.file("trees", content)
        self.assert_trouble(self.run_door(name), f"compare: trees is {kind} text", "bin/leskwyn compare")
        with open(self.folder / name, "rb") as given:
            self.assert_trouble(self.run_door("-", stdin=given), f"compare: standard input is {kind} text")

    def test_newick_and_nexus(self) -> None:
        self.assert_used(1)
        trees = (ROOT / "examples" / "feathers.nwk").read_bytes()
        for before in (b"", b"\xef\xbb\xbf", b" \r\n\t", b"\xef\xbb\xbf\n\n", b"[a comment] "):
            for more in (b"", b" "):
                self.assert_told(before + trees + more, "Newick")
        self.assert_told(trees * 100, "Newick")
        for start in (b"#NEXUS\nbegin trees;\n", b"#nexus ", b"\xef\xbb\xbf\n#Nexus\r\n"):
            self.assert_told(start, "NEXUS")
        self.assertEqual(self.run_door(self.file("trees", trees)).stderr.decode(),
                         "compare: trees is Newick text, no comparison file; this takes text: bin/leskwyn compare trees\n")

    def test_a_pipe_is_told_of_as_a_guess(self) -> None:
        for content in (b"((a,b),c,d); ", b"((a,b),c,d);"):
            done = self.run_door("-", input=content)
            self.assert_done(done, 1, b"refused %d\n" % (15 if len(content) % 2 else 2))
            self.assertEqual(done.stderr.decode().splitlines()[-1],
                             "compare: if standard input is Newick text, this takes text: bin/leskwyn compare -")

    def test_a_long_file(self) -> None:
        self.assert_used(1)
        done = self.run_door(self.file("pair", bytes(2000)))
        self.assert_done(done, 1, b"refused 14\n")
        self.assertEqual(done.stderr.decode(),
                         "compare: pair has more than 1016 bytes; this takes it: bin/leskwyn compare --listing pair\n")
        self.assertEqual(self.run_door("-", input=bytes(2000)).stderr.count(b"bin/leskwyn compare "), 2)

    def test_comparison_files_that_begin_with_such_a_byte(self) -> None:
        """40 tips make the first byte '(', 91 '[', 35 '#', 32 a blank: accepted, and refused by their number."""
        self.assert_used(1)
        for n in (40, 35, 32, 13):
            table = caterpillar(n)
            content = b"".join(word.to_bytes(2, "little") for word in table + table)
            done = self.run_door(self.file("pair", content))
            self.assertEqual((done.returncode, done.stdout[:10], done.stderr), (0, b"leaves %d\n" % n, b""))
            for cut, number in ((content[:-2], 104), (content[:-1], 15), (content[:2], 1)):
                done = self.run_door(self.file("pair", cut))
                self.assertEqual((done.returncode, done.stdout, done.stderr), (1, b"refused %d\n" % number, b""))

    def test_other_refused_files(self) -> None:
        self.assert_used(1)
        words = [*P[:4], 7, *P[5:], *Q]  # node 2 stands below a later node
        broken = b"".join(word.to_bytes(2, "little") for word in words)
        for content, number in ((b"", 1), (b"leaves 5", 2), (b"# a note", 2), (b"#NEXU", 15), (broken, 5)):
            done = self.run_door(self.file("pair", content))
            self.assertEqual((done.returncode, done.stdout, done.stderr), (1, b"refused %d\n" % number, b""))


def load_tests(loader: unittest.TestLoader, _: unittest.TestSuite, __: str | None) -> unittest.TestSuite:
    """The tests of a door; what holds of both is there to be inherited."""
    doors = [CompareBuilding, CompareAtOnce, CompareWithoutFlock, CompareProgress, LeskwynBuilding, LeskwynAtOnce, LeskwynProgress,
             BothDoors, Build, Text]
    return unittest.TestSuite(loader.loadTestsFromTestCase(door) for door in doors)


if __name__ == "__main__":
    skips.main()
