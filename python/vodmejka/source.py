"""Lists and rule files as the tools read them: names, applications and places. The grammar is in docs/LANGUAGE.md.

Only the heads of items are read, and formulas are skipped. A byte order mark is skipped too; `slips` and `explain` report it. grammar.py reads formulas.
"""
from __future__ import annotations

import contextlib
import dataclasses
import io
import os
import re
import signal
import stat
import sys
import threading
import traceback
from typing import IO, Any, Callable, Iterable, Iterator

from .limits import CELLS, FILE_BYTES, FILE_NAME_BYTES, LIST_FILES, RULE_BYTES, TABLE_CELLS
from .lines import Lines  # noqa: F401
from .messages import Messages
from .tokens import WORDS, Token, Tokens, scanned  # noqa: F401

GAP_OR_TOKEN = re.compile(
    rb"(?P<gap>[ \t\r\n]+|#[^\n]*)|(?P<text>\"[^\"]*\")|(?P<number>[0-9]+\.[0-9]+|[0-9]+(?![A-Za-z0-9_]))|(?P<word>[A-Za-z0-9_]+)"
    rb"|(?P<sign>\.\.|!=|<=|>=|[-+*/=<>()\[\],;:])"
)


MARK = b"\xef\xbb\xbf"
QUOTE = '"'
NUMBER_OR_COLON = re.compile("[01:]")
PIPED: dict[str, bytes] = {}
WAITING: list[int] = []
BEGIN = 0  # is before the signals that wait
MASK = os.umask(0o077)  # what the user keeps from others in new files
os.umask(MASK)
# Signals that end a tool, with SIGINT.
ENDING = (signal.SIGHUP, signal.SIGTERM, signal.SIGQUIT, signal.SIGXCPU, signal.SIGUSR1, signal.SIGUSR2, signal.SIGALRM)
MARKED = "; it begins with a byte order mark: save it as UTF-8 without one"


class Refused(Exception):
    """A file that can't be read, or that the program would refuse; the text says where and why."""


class Command:
    """The name of the command that runs, which its messages begin with."""

    name = "vodmejka"


class Pipes:
    """Whether the program has read all pipes: whoever opened one again would wait for ever."""

    are_read = False


class Input(io.RawIOBase):
    """The standard input. A read that fails is reported as such, and not as a fault of the output."""

    def readable(self) -> bool:
        return True

    def readinto(self, room: Any) -> int:
        try:
            return os.readv(0, [room])
        except OSError as fault:
            raise Refused("unreadable input") from fault


def standard_input() -> io.BufferedReader:
    """The bytes of the standard input."""
    return io.BufferedReader(Input(), 1_048_576)


@dataclasses.dataclass(slots=True)
class Variable:
    """A declaration. `size` is the number of cells of a table, and None of another variable; `words` are the attributes without a number, `numbered`
    those with one, each with its byte, and `numbers` the number of each, the last if a word occurs twice. `text` and `type` are the description
    and the type after it; of a constant `text` is its number. `at` is the number of its first token."""

    file: RuleFile
    at: int
    name: str
    kind: str
    size: int | None
    words: list[str]
    numbered: list[tuple[str, int]]
    code: str | None
    numbers: dict[str, str]
    text: str = ""
    type: str | None = None

    @property
    def byte(self) -> int:
        return self.file.tokens.bytes[self.at]

    @property
    def place(self) -> str:
        return self.file.place(self.byte)


@dataclasses.dataclass(slots=True)
class Rule:
    """A rule or a verification, by its first word, with its applications: pairs of a word and its byte."""

    file: RuleFile
    at: int
    kind: str
    applications: list[tuple[str, int]]
    is_chained: bool
    number: str = ""

    @property
    def place(self) -> str:
        return self.file.place(self.file.tokens.bytes[self.at])


def fetch(name: str, longest: int = FILE_BYTES) -> bytes:
    """The bytes of a file, which has at most so many. Those of a pipe, which can be read but once, are kept for the next time."""
    if name in PIPED:
        return taken(io.BytesIO(PIPED[name]), name, longest)
    try:
        if Pipes.are_read and not os.path.isfile(name):
            raise OSError
        with open(name, "rb") as file:
            content = taken(file, name, longest)
            if not stat.S_ISREG(os.fstat(file.fileno()).st_mode):
                PIPED[name] = content
            return content
    except (OSError, ValueError) as fault:
        raise Refused(f"unreadable {name}") from fault


def taken(file: IO[bytes], name: str, longest: int = FILE_BYTES) -> bytes:
    """What is left of an open file, which is at most so many bytes."""
    pieces: list[bytes] = []
    size = 0
    try:
        while size <= longest and (piece := file.read(1_048_576)):
            pieces.append(piece)
            size += len(piece)
    except OSError as fault:
        raise Refused(f"unreadable {name}") from fault
    if size > longest:
        raise Refused(f"file too long {name}")
    return b"".join(pieces)


def fetch_rules(names: Iterable[str]) -> Iterator[bytes]:
    """The bytes of rule files, one after the other. All together they have at most RULE_BYTES."""
    left = RULE_BYTES
    for name in names:
        content = fetch(name, min(FILE_BYTES, left))
        left -= len(content)
        yield content


def lines_of(content: bytes) -> list[bytes]:
    """The lines of a list, a driver or requests: a carriage return right before a line feed is dropped."""
    return content.replace(b"\r\n", b"\n").split(b"\n")


def read_list(name: str) -> tuple[str, list[str]]:
    """The application of a list, and the names of its rule files. What the program refuses is refused."""
    return read_list_text(name, fetch(name))


def read_list_text(name: str, content: bytes) -> tuple[str, list[str]]:
    lines = lines_of(content)
    application = lines[0].decode("latin-1")
    if not re.fullmatch("[A-Za-z0-9_]+", application) or application.isdigit():
        raise Refused(f"{name} line 1: no application{MARKED if lines[0].startswith(MARK) else ''}")
    for number, line in enumerate(lines, 1):
        try:
            line.decode("utf-8")
        except UnicodeDecodeError as fault:
            raise Refused(f"{name} line {number}: the name isn't UTF-8") from fault
        if len(line) > FILE_NAME_BYTES:
            raise Refused(f"{name} line {number}: the name has more than 4,096 bytes")
    names = [os.fsdecode(line) for line in lines[1:] if line]
    if len(names) > LIST_FILES:
        raise Refused(f"{name}: too many files")
    return application, names


class RuleFile:
    """The heads of the items of one rule file. The tokens may be there already."""

    def __init__(self, name: str, content: bytes, tokens: Tokens | None = None):
        self.name = name
        self.bytes = content
        self.lines = Lines(self.bytes)
        self.tokens = self.read_tokens() if tokens is None else tokens
        self.variables: list[Variable] = []
        self.rules: list[Rule] = []
        self.read_items()

    def place(self, byte: int) -> str:
        return f"{self.name} line {self.lines.number(byte)} byte {byte}"

    def read_tokens(self) -> Tokens:
        tokens = scanned(self.bytes, len(MARK) if self.bytes.startswith(MARK) else 0)
        for byte, text in tokens.bad():
            raise Refused(f"{self.place(byte)}: {'open string' if text == QUOTE else 'bad byte'}")
        return tokens

    def text(self, at: int) -> str:
        """The text of a token, and nothing after the last one."""
        return self.tokens.texts[at] if at < len(self.tokens.texts) else ""

    def read_items(self) -> None:
        letters, at = self.tokens.letters, 0
        while at < len(letters):
            end = self.tokens.after(at)
            if letters[at] in "RV":
                self.rules.append(self.rule(at, end))
            elif letters.startswith(":", at + 1):
                self.read_declaration(at, end)
            at = end

    def rule(self, at: int, end: int) -> Rule:
        letters, texts = self.tokens.letters, self.tokens.texts
        begin = letters.find("A", at, end)
        words = [] if begin < 0 else [k for k in range(begin, min(end, len(letters))) if letters[k] in WORDS and letters[k] != "A"]
        number = NUMBER_OR_COLON.search(letters, at, end)
        text = texts[number.start()] if number else ""
        applications = [(texts[k], self.tokens.bytes[k]) for k in words]
        return Rule(self, at, texts[at], applications, letters.startswith("E:", end), text if text.isdigit() else "")

    def read_declaration(self, begin: int, end: int) -> None:
        """Reads the declaration that begins at a token, where it is one of a variable."""
        letters, at = self.tokens.letters, begin + 2
        size: int | None = None
        if letters.startswith("T", at):
            # (nine digits are more than a table may have, however many follow)
            digits = self.text(at + 2).lstrip("0")[:9]
            size, at = int(digits) if digits.isdigit() else 0, at + 4
        kind = self.text(at)
        if kind not in ("saisie", "calculee", "const"):
            return
        variable = Variable(self, begin, self.text(begin), kind, size, [], [], None, {})
        at += 1
        if kind == "const":
            variable.text = "".join(self.tokens.texts[at + 1 : end - 1])
        else:
            at = self.read_attributes(variable, at, end)
            variable.text = self.text(at + 1)[1:-1] if letters.startswith(':"', at) else ""
        variable.type = self.text(at + 3) if letters.startswith("t", at + 2) else None
        self.variables.append(variable)

    def read_attributes(self, variable: Variable, at: int, end: int) -> int:
        """Takes the attributes and the code of a declaration; the number of the token after them."""
        letters = self.tokens.letters
        while at < end and not letters.startswith(":", at):
            if letters.startswith("L", at):
                variable.code, at = self.text(at + 1), at + 2
            elif letters.startswith("=", at + 1):
                name, after = self.text(at), at + 4 if letters.startswith("-", at + 2) else at + 3
                variable.numbered.append((name, self.tokens.bytes[at]))
                variable.numbers[name] = "".join(self.tokens.texts[at + 2 : after])
                at = after
            else:
                variable.words.append(self.text(at))
                at += 1
        return at


class RuleBase:
    """A list with all its rule files, whose names count from a folder. Tables and cells may be `bounded`, as the program's are."""

    def __init__(self, list_name: str, folder: str = "", bounded: bool = True):
        application, names = read_list_text(list_name, fetch(list_name).removeprefix(MARK))
        names = [os.path.join(folder, name) for name in names]
        self.take(application, zip(names, fetch_rules(names)), bounded)

    @classmethod
    def of(cls, application: str, contents: Iterable[tuple[str, bytes]]) -> RuleBase:
        """The rule base of files that were read: each by its name with its bytes."""
        made = cls.__new__(cls)
        made.take(application, contents, True)
        return made

    def take(self, application: str, contents: Iterable[tuple[str, bytes]], bounded: bool) -> None:
        """Reads the files."""
        self.application = application
        self.files = [RuleFile(name, content) for name, content in contents]
        self.variables = [variable for file in self.files for variable in file.variables]
        self.rules = [rule for file in self.files for rule in file.rules]
        if bounded:
            self.look_at_sizes()

    def look_at_sizes(self) -> None:
        """Refuses a table, or a number of cells, that the program refuses."""
        cells = 0
        for variable in self.variables:
            cells += 1 if variable.size is None else variable.size
            if variable.size is not None and variable.size > TABLE_CELLS:
                raise Refused(f"{variable.place}: table size")
            if cells > CELLS:
                raise Refused(f"{variable.place}: too many cells")


def begin() -> None:
    """Names and lines are written as the bytes that they are, whatever the machine's language is. A signal that ends the tool lets it remove what it began."""
    if sys.getfilesystemencoding() != "utf-8":
        # (a language with an alphabet of its own: names would be other letters where they are written than where they are read)
        os.execv(sys.executable, [sys.executable, "-X", "utf8", *sys.orig_argv[1:]])
    for name, number in (("stdin", 0), ("stderr", 2)):
        if getattr(sys, name) is None:
            # (a closed input stays one that can't be read)
            os.dup2(os.open(os.devnull, os.O_WRONLY), number)
            setattr(sys, name, open(number, "r" if number == 0 else "w", closefd=False))
    in_bytes(sys.stderr)
    sys.stderr = Messages(sys.stderr)  # type: ignore[assignment]
    if sys.stdout is None:
        say("the output is closed")
        sys.exit(4)
    for stream in (sys.stdin, sys.stdout):
        in_bytes(stream)
    for number in (signal.SIGINT, *ENDING):
        if signal.getsignal(number) in (signal.SIG_DFL, signal.default_int_handler):
            signal.signal(number, stopped)


def in_bytes(stream: Any) -> None:
    """Has a stream write and read texts as the bytes that they were read from."""
    stream.reconfigure(encoding="utf-8", errors="surrogateescape")


def stopped(number: int, _frame: object = None) -> None:
    """Ends the tool, or notes the signal where it has to wait."""
    if WAITING:
        WAITING.append(number)
    elif number == signal.SIGINT:
        raise KeyboardInterrupt
    else:
        sys.exit(128 + number)


@contextlib.contextmanager
def unbroken() -> Iterator[None]:
    """A block that no signal interrupts: the tool ends after it. (Signals are the main thread's.)"""
    is_main = threading.current_thread() is threading.main_thread()
    if is_main:
        WAITING.append(BEGIN)
    try:
        yield
    finally:
        if is_main:
            came, WAITING[:] = WAITING[1:], []
            if came:
                stopped(came[0])


def say(what: str) -> None:
    """A line on standard error, after the name of the command."""
    print(f"{Command.name}: {what}", file=sys.stderr)


def put(path: str, content: bytes) -> None:
    """Writes a file. Where that fails, as on a full disk, the fault names it."""
    try:
        with open(path, "wb") as out:
            out.write(content)
    except OSError as fault:
        fault.filename = fault.filename or path
        raise


def end(name: str, main: Callable[[], int]) -> None:
    """Begins and runs the command of that name, and ends with its status: 4 where the output was closed or is full, 130 where it was interrupted, and 70
    where it has a fault of its own or no memory."""
    Command.name = name
    begin()
    try:
        status = main()
        sys.stdout.flush()
    except BrokenPipeError:
        status = 4
    except KeyboardInterrupt:
        status = 130
    except OSError as fault:
        status = 4
        say(f"{fault.filename or 'the output'}: {fault.strerror}")
    except Exception as fault:
        status, place = 70, traceback.extract_tb(fault.__traceback__)[-1]
        say(f"don't use what was printed, the tool has a fault: {type(fault).__name__} {fault}, {os.path.basename(place.filename)} line {place.lineno}")
    if status in (4, 70, 130):
        os.dup2(os.open(os.devnull, os.O_WRONLY), sys.stdout.fileno())
    sys.exit(status)
