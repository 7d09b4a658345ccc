"""What tests of the commands share: a folder for each test, and runs of python3 -m leskwyn with or without a process."""
import contextlib
import io
import os
import pathlib
import subprocess
import sys
import tempfile
import types
import unittest
import unittest.mock
from collections.abc import Callable, Iterator

ROOT = pathlib.Path(__file__).resolve().parent.parent
sys.path.insert(0, str(ROOT / "python"))
from leskwyn import commands, files

# Without installed packages: the commands need none, and start sooner.
LESKWYN = [sys.executable, "-S", "-B", "-m", "leskwyn"]
ENVIRONMENT = {**os.environ, "PYTHONPATH": str(ROOT / "python")}
Done = subprocess.CompletedProcess[bytes]
Run = Callable[..., Done]


@contextlib.contextmanager
def inside(folder: pathlib.Path) -> Iterator[None]:
    """Works in a folder for a while."""
    before = os.getcwd()
    os.chdir(folder)
    try:
        yield
    finally:
        os.chdir(before)


class CommandTest(unittest.TestCase):
    def setUp(self) -> None:
        folder = tempfile.TemporaryDirectory()
        self.addCleanup(folder.cleanup)
        self.folder = pathlib.Path(folder.name)

    def file(self, name: str, content: bytes | str) -> str:
        path = self.folder / name
        path.write_bytes(content if isinstance(content, bytes) else content.encode())
        return name

    def run_command(self, *arguments: str, command: str = "table", stdin: bytes | str = b"") -> Done:
        stdin = stdin if isinstance(stdin, bytes) else stdin.encode()
        return subprocess.run([*LESKWYN, command, *arguments], input=stdin, capture_output=True, cwd=self.folder,
                              env=ENVIRONMENT, timeout=20)

    def run_here(self, *arguments: str, command: str = "table", stdin: bytes | str = b"") -> Done:
        """As run_command, without a process of its own: for long rows of cases."""
        stdin = stdin if isinstance(stdin, bytes) else stdin.encode()
        output, errors = io.BytesIO(), io.StringIO()
        with (inside(self.folder), contextlib.redirect_stderr(errors),
              unittest.mock.patch.object(sys, "stdin", types.SimpleNamespace(buffer=io.BytesIO(stdin))),
              unittest.mock.patch.object(os, "isatty", lambda _: False),
              unittest.mock.patch.object(files, "put_on_standard_output", output.write)):
            status = commands.main([command, *arguments])
        return subprocess.CompletedProcess(arguments, status, output.getvalue(), errors.getvalue().encode())

    def assert_message(self, done: Done, status: int, *words: str) -> None:
        """One line on standard error that holds the words, and nothing on standard output."""
        self.assertEqual((done.returncode, done.stdout), (status, b""), done)
        message = done.stderr.decode()
        self.assertEqual((message.count("\n"), message[-1:], message[:9]), (1, "\n", "leskwyn: "), message)
        for word in words:
            self.assertIn(word, message)

    def contents(self) -> dict[str, bytes]:
        return {path.name: path.read_bytes() for path in self.folder.iterdir()}
