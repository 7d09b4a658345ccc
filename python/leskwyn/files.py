"""Files: bytes read whole, text by its byte order mark or as UTF-8, and outputs that take their places together."""
import contextlib
import os
import stat
import sys
import typing

from leskwyn.errors import Refusal, Trouble, one_line

MOST_BYTES = 1 << 30
BYTE_ORDER_MARKS = [(b"\xef\xbb\xbf", "utf-8"), (b"\xff\xfe\0\0", "utf-32-le"), (b"\0\0\xfe\xff", "utf-32-be"),
                    (b"\xff\xfe", "utf-16-le"), (b"\xfe\xff", "utf-16-be")]


# ---- what is said on standard error

def say(text: str) -> None:
    # Standard error may be closed; then nobody listens.
    if sys.stderr is not None:
        with contextlib.suppress(OSError, ValueError):
            sys.stderr.write(text)
            sys.stderr.flush()


def say_line(message: str) -> None:
    say(f"leskwyn: {one_line(message)}\n")


# ---- reading

def shown_path(path: str) -> str:
    return "standard input" if path == "-" else path


@contextlib.contextmanager
def reading(path: str) -> typing.Iterator[None]:
    try:
        yield
    except (OSError, ValueError) as error:
        raise Trouble(f"cannot read {shown_path(path)}: {getattr(error, 'strerror', None) or error}") from None


def check_there(path: str) -> None:
    """Tells of a file that cannot be opened. A pipe is left alone, since what opens it takes something away."""
    if path == "-" and sys.stdin is None:
        raise Trouble("cannot read standard input: it is closed")
    if path != "-" and (os.path.isfile(path) or os.path.isdir(path) or not os.path.exists(path)):
        with reading(path), open(path, "rb"):
            pass


def read_bytes(path: str) -> bytes:
    """All bytes of a file, or of standard input for `-`."""
    with reading(path):
        if path != "-":
            with open(path, "rb") as file:
                content = file.read(MOST_BYTES + 1)
        else:
            check_there(path)
            content = sys.stdin.buffer.read(MOST_BYTES + 1)
    if len(content) > MOST_BYTES:
        raise Refusal(f"{shown_path(path)}: more than {MOST_BYTES} bytes, which no file of trees needs")
    return content


def encoding_of(content: bytes) -> tuple[str, int]:
    """The encoding, and how many bytes its mark has; UTF-8 where there is no mark."""
    for mark, encoding in BYTE_ORDER_MARKS:
        if content.startswith(mark):
            return encoding, len(mark)
    return "utf-8", 0


def decoded(place: str, content: bytes) -> str:
    """The bytes as text, without its byte order mark. No encoding is guessed."""
    encoding, start = encoding_of(content)
    try:
        text = content[start:].decode(encoding)
    except UnicodeDecodeError as error:
        at = start + error.start
        name = encoding[:-3].upper() if encoding != "utf-8" else "UTF-8"
        told = f", {content[at]:#04x}" if at < len(content) else ""
        line = content.count(b"\n", 0, at) + 1
        raise Refusal(f"{place}: not {name} text, at byte {at} (line {line}){told}; save the file as UTF-8") from None
    if "\0" in text:
        at = content.index(b"\0")
        raise Refusal(f"{place}: a zero byte, at byte {at}; text has none (UTF-16 needs its byte order mark)")
    return text


def read_text(path: str) -> str:
    return decoded(shown_path(path), read_bytes(path))


# ---- writing

def put_on_standard_output(content: bytes) -> None:
    while content:
        content = content[os.write(1, content):]


def print_text(text: str) -> None:
    """Text on standard output, always as UTF-8; a character that UTF-8 does not have is escaped."""
    write_outputs([("-", text.encode("utf-8", "backslashreplace"))])


def is_device(path: str) -> bool:
    """True for what can be written but not replaced, such as a pipe."""
    return os.path.exists(path) and not os.path.isfile(path)


def write_outputs(outputs: list[tuple[str, bytes]]) -> None:
    """Writes bytes to each path, `-` being standard output. A file takes its place only when all are written."""
    waiting: list[tuple[str, str]] = []
    try:
        for path, content in outputs:
            with writing(path):
                write_output(path, content, waiting)
        while waiting:
            with writing(waiting[-1][1]):
                take_place(*waiting[-1])
            waiting.pop()
    finally:
        for part, _ in waiting:
            with contextlib.suppress(OSError):
                os.remove(part)


@contextlib.contextmanager
def writing(path: str) -> typing.Iterator[None]:
    try:
        yield
    except (OSError, ValueError) as error:
        name = "standard output" if path == "-" else path
        raise Trouble(f"cannot write {name}: {getattr(error, 'strerror', None) or error}") from None


def write_output(path: str, content: bytes, waiting: list[tuple[str, str]]) -> None:
    """A file is written beside its place, and waits there."""
    if path == "-":
        put_on_standard_output(content)
    elif is_device(path):
        with open(path, "wb") as file:
            file.write(content)
    else:
        place = os.path.realpath(path)
        part = f"{place}.{os.getpid()}.part"
        with open(part, "xb") as file:
            waiting.append((part, place))
            file.write(content)


def take_place(part: str, place: str) -> None:
    if os.path.exists(place):
        os.chmod(part, stat.S_IMODE(os.stat(place).st_mode))
    os.replace(part, place)


def same_file(path: str, other: str) -> bool:
    if path == "-" or other == "-":
        return path == other
    if os.path.exists(path) and os.path.exists(other):
        return os.path.samefile(path, other)
    return os.path.realpath(path) == os.path.realpath(other)
