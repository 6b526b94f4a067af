"""The program, and the files that it is given."""
from __future__ import annotations

import contextlib
import csv
import hashlib
import io
import os
import shutil
import subprocess
import sys
import tempfile
import weakref
from decimal import Decimal
from typing import Any, BinaryIO, Iterable, Iterator, Mapping, Union

from . import source
from .errors import Broken, Interrupted, NotFound, Refused
from .guard import GUARD, Child

Amount = Union[Decimal, int, str, None]
ENCODING = "latin-1"
CLONE = "clone.path"
TOP = os.path.dirname(os.path.dirname(os.path.dirname(os.path.realpath(__file__))))
INSIDE = os.path.join(os.path.dirname(os.path.realpath(__file__)), "bin")


def program_path(program: str | None = None, name: str = "m_tax", beside: str | None = None) -> str:
    """The program of a name: the one that is named, or the one of the variable M_TAX or M_SURVEY, which must be there then; else the one in the folder of
    another program, the one inside this package, what `./build` made in the repository around it, or from which it was installed, the one of the path, or the
    script of the repository."""
    variable = name.upper()
    named = program or os.environ.get(variable)
    tops = [TOP, *clone()]
    folders = [] if beside is None else [os.path.dirname(beside), os.path.dirname(os.path.realpath(beside))]
    built = [*(os.path.join(folder, name) for folder in (*folders, INSIDE)), *(os.path.join(top, "out", name) for top in tops)]
    others = [*built, shutil.which(name), *(os.path.join(top, name) for top in tops)]
    for candidate in others if not named else (shutil.which(named) or named,):
        if candidate and os.access(candidate, os.X_OK) and os.path.isfile(candidate):
            return os.path.abspath(candidate)
    raise Broken(f"there is no program {named}" if named else f"there is no program {name}: name it by {variable}, or run ./build in the repository")


def inside() -> None:
    """Becomes the program of this package that the command is named after, which wheels with programs inside have."""
    program = os.path.join(INSIDE, os.path.basename(sys.argv[0]))
    try:
        os.execv(program, [program, *sys.argv[1:]])
    except OSError as fault:
        sys.exit(f"{program}: {fault.strerror}")


def clone() -> list[str]:
    """The repository from which the package was installed, where the wheel names one."""
    try:
        with open(os.path.join(os.path.dirname(os.path.realpath(__file__)), CLONE), encoding="utf-8", errors="surrogateescape") as file:
            return [file.read().rstrip("\n")]
    except OSError:
        return []


class Program:
    """The program that computes. It is one and the same as long as this is used: a file that is replaced in between is an error, and never a second program.

    Of the repository's script what it runs is part of it: what ./build made, or without it the sources of which the script makes a trial.
    """

    def __init__(self, named: str | None = None, name: str = "m_tax", beside: str | None = None):
        self.path, self._name = program_path(named, name, beside), name
        self.digest, self._state = self._looked()

    def check(self) -> None:
        """Raises Broken where the program isn't the one that it was."""
        if self._states() != self._state:
            digest, self._state = self._looked()
            if digest != self.digest:
                raise Broken(f"{self.path} was replaced meanwhile: what was computed before is of another program")

    def _files(self) -> list[str]:
        """The files that make the program."""
        folder = os.path.dirname(os.path.realpath(self.path))
        below = [built] if os.path.exists(built := os.path.join(folder, "out", self._name)) else []
        if not below:
            sources = os.walk(os.path.join(folder, "crates"))
            below = sorted(os.path.join(at, name) for at, _, names in sources for name in names if name.endswith(".rt"))
        return [self.path, *below]

    def _states(self) -> list[tuple[str, int, int, int, int, int]]:
        """What changes wherever one of the files does."""
        try:
            found = [(name, os.stat(name)) for name in self._files()]
        except OSError as fault:
            raise Broken(f"the program can't be started: {fault.filename}: {fault.strerror}") from fault
        return [(name, at.st_dev, at.st_ino, at.st_size, at.st_mtime_ns, at.st_ctime_ns) for name, at in found]

    def _looked(self) -> tuple[str, list[tuple[str, int, int, int, int, int]]]:
        """The digest of the files, and their state before they were read."""
        state = self._states()
        top, pieces = os.path.dirname(os.path.realpath(self.path)), []
        for number, (name, *_) in enumerate(state):
            with open(name, "rb") as file:
                pieces += [os.fsencode(os.path.relpath(name, top)) if number else b"", file.read()]
        return digest_of(*pieces), state


def is_trial(program: str) -> bool:
    """Whether this is the script of a repository in which ./build has made no program: it runs a trial of the sources, which doesn't reply line by line."""
    folder = os.path.dirname(os.path.realpath(program))
    return os.path.exists(os.path.join(folder, "crates.txt")) and not os.access(os.path.join(folder, "out", "m_tax"), os.X_OK)


def digest_of(*pieces: bytes) -> str:
    """A digest of pieces, each with its length."""
    made = hashlib.sha256()
    for piece in pieces:
        made.update(len(piece).to_bytes(8, "big") + piece)
    return made.hexdigest()


class Folder:
    """A folder for files, which is removed with this object, or with the process that made it, but not with a process that was forked since."""

    def __init__(self) -> None:
        self.name = tempfile.mkdtemp(prefix="vodmejka-")
        GUARD.say(f"+f{self.name}")
        weakref.finalize(self, remove, self.name, os.getpid())

    def put(self, content: bytes) -> str:
        """The name of a new file with this content, which no other call has, be it of another thread or of a forked process."""
        number, path = tempfile.mkstemp(prefix="household-", suffix=".csv", dir=self.name)
        with open(number, "wb") as out:
            out.write(content)
        return os.path.basename(path)


def remove(folder: str, owner: int) -> None:
    """Removes a folder of a process, where this is that one."""
    if os.getpid() == owner:
        shutil.rmtree(folder, ignore_errors=True)
        GUARD.say(f"-f{folder}")


def started(words: list[str], **options: Any) -> Child:
    """The program with these words. It ends with this process."""
    try:
        return Child(words, **options)
    except OSError as fault:
        raise Broken(f"the program can't be started: {fault.filename or words[0]}: {fault.strerror}") from fault


def ended(child: Child, program: Program, timeout: float | None) -> int:
    """The status of a program at its end. Its output counts only where the program is the same as before."""
    try:
        status = child.wait(timeout)
    except subprocess.TimeoutExpired:
        raise Interrupted(f"the program gave no answer within {timeout} s") from None
    program.check()
    return status


def run(program: str, *words: str, folder: str | None = None, timeout: float | None = None) -> tuple[bytes, int]:
    """The output of the program, and its status: 0 or 6. Any other status is an error."""
    with started([program, *words], stdin=subprocess.DEVNULL, stdout=subprocess.PIPE, stderr=subprocess.PIPE, cwd=folder) as child:
        try:
            text, messages = child.communicate(timeout=timeout)
        except subprocess.TimeoutExpired:
            child.kill()
            raise Interrupted(f"the program gave no answer within {timeout} s") from None
        except BaseException:
            child.kill()
            raise
    raise_for(text, child.returncode, messages)
    return text, child.returncode


def raise_for(text: bytes, status: int, messages: bytes = b"") -> None:
    """The error of an output, if it is one; `messages` is what the program wrote on its standard error."""
    if status in (0, 6):
        return
    line = text.decode(ENCODING).strip()
    if status in (1, 2) and line.startswith(("refused ", "usage: ")):
        raise Refused(line)
    if status == 3 and line.startswith("unreadable "):
        raise NotFound(line)
    known = {4: "the output could not be written", 5: "out of memory", 70: "a trial of the sources can't do this: ./build makes the program, which can"}
    if status in known or status < 0:
        raise Interrupted(known.get(status, f"the program ended with status {status}"))
    message = messages.decode("utf-8", "replace").strip()[-500:]
    raise Broken(f"the program ended with status {status} and printed no line of its own{f': {message}' if message else ''}")


@contextlib.contextmanager
def whole_file(path: str, mode: int = 0o600) -> Iterator[BinaryIO]:
    """A new file, which gets its name when all is written to it, or goes where something fails."""
    with tempfile.NamedTemporaryFile(dir=os.path.dirname(path), prefix=".vodmejka-", delete=False) as out:
        try:
            os.fchmod(out.fileno(), mode)
            yield out.file  # type: ignore[misc]
            out.flush()
            os.fsync(out.fileno())
            os.replace(out.name, path)
        except BaseException:
            os.unlink(out.name)
            raise


@contextlib.contextmanager
def whole_folder(path: str) -> Iterator[str]:
    """A new folder, which gets its name when all is in it, or goes where something fails."""
    room = tempfile.mkdtemp(prefix=f".{source.Command.name}-", dir=os.path.dirname(os.path.abspath(path)))
    try:
        yield room
        os.chmod(room, 0o777 & ~source.MASK)
        os.rename(room, path)
    except BaseException:
        shutil.rmtree(room, ignore_errors=True)
        raise


def spelled(code: str, amount: Any) -> str:
    """An amount as the program reads it. Whole numbers of any type are amounts, also numpy's. Floats that aren't whole are rejected, since they mean another
    number than they show."""
    if hasattr(amount, "item"):
        amount = amount.item()
    if isinstance(amount, float) and amount.is_integer():
        amount = int(amount)
    if isinstance(amount, bool) or not isinstance(amount, (Decimal, int, str)):
        raise TypeError(f"{code}: an amount is a Decimal, an int or a text, and not {amount!r}")
    if isinstance(amount, Decimal):
        if not amount.is_finite():
            raise ValueError(f"{code}: {amount} is no amount")
        return f"{amount:f}"
    return str(amount)


def household_bytes(household: Mapping[str, Amount]) -> bytes:
    """A household as a file; a code whose amount is None, or an empty text as in a table, is left out."""
    rows = [[code, spelled(code, amount)] for code, amount in household.items() if amount is not None and not (isinstance(amount, str) and amount == "")]
    return csv_text([["code", "amount"], *rows]).encode(ENCODING)


def csv_text(rows: Iterable[Iterable[object]]) -> str:
    """Rows as csv. A carriage return in a field is quoted by every version of Python where lines end with one too."""
    rows = list(rows)
    for end in ("\n", "\r\n"):
        out = io.StringIO(newline="")
        csv.writer(out, lineterminator=end).writerows(rows)
        if "\r" not in out.getvalue():
            break
    return out.getvalue()


def lines_of(output: bytes) -> str:
    """The lines of an output, each with its line feed."""
    if output and not output.endswith(b"\n"):
        raise Broken(f"a last line without its end: {output[-200:]!r}")
    return output.decode(ENCODING)
