"""A session: one household that is edited, and its answers."""
from __future__ import annotations

import contextlib
import os
import subprocess
import threading
from types import TracebackType
from typing import TYPE_CHECKING, Callable, Iterator, Protocol

from .answers import Answer, answer_of
from .errors import Interrupted, Refused
from .guard import memory_file
from .program import ENCODING, Amount, raise_for, spelled, started
from .whys import Why

if TYPE_CHECKING:
    from . import reasons

CLOSING = 2.0  # seconds


class Room(Protocol):
    """A folder that exists as long as this object."""

    name: str


class Session:
    """A household of rules, held by the program, which computes only what edits affect. `digests` are those of the source and of the program.

    The words of the program end with the name of the household's file, which is removed with the session. All files are in a folder of the rules. `rules` gives
    the formulas, which `why` shows.
    """

    def __init__(
        self, words: list[str], room: Room, timeout: float | None = None, rules: Callable[[], reasons.Rules] | None = None,
        digests: tuple[str, str] = ("", ""),
    ):
        self._rules, self.digests = rules, digests
        self._room, self._given, self._timeout, self._is_late = room, os.path.join(room.name, words[-1]), timeout, False
        self._messages = open(memory_file("messages"), "r+b", buffering=0)
        try:
            self._child = started(words, cwd=room.name, stdin=subprocess.PIPE, stdout=subprocess.PIPE, stderr=self._messages)
        except BaseException:
            self._drop()
            raise

    def __enter__(self) -> Session:
        return self

    def __exit__(self, kind: type[BaseException] | None, error: BaseException | None, trace: TracebackType | None) -> None:
        self.close()

    def set(self, code: str, amount: Amount) -> None:
        """Gives an input an amount; None makes it undefined."""
        if amount is None:
            self.clear(code)
        else:
            self._edit("set", code, spelled(code, amount))

    def clear(self, code: str) -> None:
        """Makes an input undefined."""
        self._edit("clear", code)

    def show(self) -> Answer:
        """The answer to the household as it is now."""
        with self._whole():
            self._say(b"show\n")
            lines = self._lines()
        if lines and lines[0].startswith("refused "):
            raise Refused(lines[0])
        return answer_of(iter(lines), self.digests)

    def why(self, name: str) -> Why:
        """Why a variable, or a cell as `T[3]`, has its value, at one call of the rules, without the driver, for the household as it is now."""
        assert self._rules is not None
        if name.split() != [name]:
            raise ValueError(f"a name is one word: {name!r}")
        with self._whole():
            self._say(f"why {name}\n".encode(ENCODING))
            lines = self._lines()
        if lines and lines[0].startswith("refused "):
            raise Refused(f"{lines[0]}: {name}" if lines[0] == "refused unknown variable" else lines[0])
        return Why(lines, self._rules, self.digests)

    def __repr__(self) -> str:
        return f"<Session: {'ended' if self._child.poll() is not None else 'a household that is edited'}>"

    def close(self) -> None:
        """Ends the session. A session that is closed, or whose program has ended, can be closed again."""
        self._shut()  # first, since a program whose reply isn't read to its end wouldn't end
        try:
            self._child.wait(CLOSING)
        except subprocess.TimeoutExpired:  # a process that was forked meanwhile holds the program's input open
            self._child.kill()
            self._child.wait()
        self._drop()

    def _shut(self) -> None:
        """Closes the program's input and output."""
        assert self._child.stdin is not None and self._child.stdout is not None
        with contextlib.suppress(BrokenPipeError):  # a line that the program didn't take: it has ended
            self._child.stdin.close()
        self._child.stdout.close()

    def _drop(self) -> None:
        """Removes the household's file, and the program's standard error."""
        self._messages.close()
        with contextlib.suppress(FileNotFoundError):
            os.unlink(self._given)

    # ---- lines

    @contextlib.contextmanager
    def _whole(self) -> Iterator[None]:
        """A line and its reply. An exception in between, as of a signal, ends the session, since the rest of the reply would be read as the next one."""
        timer = None if self._timeout is None else threading.Timer(self._timeout, self._late)
        if timer is not None:
            timer.start()
        try:
            yield
        except BaseException:
            self._child.kill()
            self._shut()
            raise
        finally:
            if timer is not None:
                timer.cancel()

    def _late(self) -> None:
        """Ends a program that gave no reply in time."""
        self._is_late = True
        self._child.kill()

    def _edit(self, *words: str) -> None:
        line = " ".join(words)
        if line.split() != list(words):
            raise ValueError(f"a code, a name and an amount are one word each: {line!r}")
        raw = line.encode(ENCODING) + b"\n"  # (a letter without a byte is the caller's fault, and not the end of the session)
        with self._whole():
            self._say(raw)
            reply = self._line()
        if reply != "ok":
            raise Refused(reply)

    def _say(self, raw: bytes) -> None:
        """Writes a line to the program."""
        assert self._child.stdin is not None
        try:
            self._child.stdin.write(raw)
            self._child.stdin.flush()
        except (BrokenPipeError, ValueError) as fault:
            self._ended(b"", fault)

    def _line(self) -> str:
        """The next line of the program."""
        assert self._child.stdout is not None
        raw = self._child.stdout.readline()
        if not raw.endswith(b"\n"):
            self._ended(raw, None)
        return raw.decode(ENCODING)[:-1]

    def _lines(self) -> list[str]:
        """The lines up to one with a point, or the line of what is refused. The text of a verification that failed or is noted may be a point; it comes right
        after its line."""
        lines: list[str] = []
        in_text = False
        while True:
            line = self._line()
            if not in_text and line == ".":
                return lines
            lines.append(line)
            if lines[0].startswith("refused "):
                return lines
            in_text = not in_text and line.startswith(("failed ", "noted "))
            if self._child.poll() not in (None, 0):
                self._ended("\n".join(lines).encode(ENCODING), None)

    def _ended(self, printed: bytes, fault: Exception | None) -> None:
        """The error of a program that ended."""
        status = self._child.wait()
        if self._child.stdout is not None and not self._child.stdout.closed:
            printed += self._child.stdout.read()
        if self._is_late:
            raise Interrupted(f"the session gave no reply within {self._timeout} s") from fault
        raise_for(printed, status, b"" if self._messages.closed else os.pread(self._messages.fileno(), 65_536, 0))
        raise Interrupted("the session has ended") from fault
