"""Any number of households by the command `batch`, some thousand at a time: while it computes a part, the next one is read and written.

Where values of a few names alone are read of the answers, the program is asked for no others from the next part on; where something else
is wanted of such a part, the program computes it a second time, and is asked for all from then on.
"""
from __future__ import annotations

import itertools
import mmap
import os
import re
import subprocess
import weakref
from typing import BinaryIO, Callable, Generator, Iterable, Iterator

from .answers import LABEL_LINE, NEXT_LABEL, Answer, Form, Printed
from .blocks import Hands, Piece, BlockAnswer
from .errors import Broken, NotFound, Refused
from .guard import Child, memory_file
from .limits import FILE_BYTES
from .program import ENCODING, Program, ended, raise_for, started
from .tables import Household, Tables, by_columns

AHEAD = 1_000
SLICE = 24_576
TABLE_NAME = "table.csv"
ROW = re.compile(r"(refused household line )([0-9]+)(: .*)", re.DOTALL)


class Answers:
    """An iterator of answers that are made in lists. It can be closed, as a generator."""

    __slots__ = ("_lists", "_all")

    def __init__(self, lists: Generator[list[BlockAnswer], None, None] | Generator[list[Answer], None, None]):
        self._lists, self._all = lists, itertools.chain.from_iterable(lists)

    def __iter__(self) -> Iterator[Answer]:
        return self._all

    def __next__(self) -> Answer:
        return next(self._all)

    def close(self) -> None:
        """Ends it, and the programs that it started."""
        self._lists.close()


class Batch:
    """Households that are computed in parts of a size, by a program with the words of its source.

    A part of AHEAD or more is begun before the answers of the one before it are handed out, so that the households are read one part ahead. What ends all,
    be it an exception of the caller's iterator, an amount that is none, or a household that the program rejects, is raised when all answers before it were
    handed out.
    """

    def __init__(
        self, program: Program, words: list[str], folder: str, form: Form, size: int, codes: Iterable[str], original_names: Callable[[str], str],
        timeout: float | None = None,
    ):
        self.program, self.timeout = program, timeout
        self.words, self.folder, self.form, self.size = [program.path, *words], folder, form, size
        self.codes, self.original_names, self.tables = frozenset(codes), original_names, Tables()
        self.hands = Hands()
        self.few: Form | None = None

    def answers(self, rows: Iterable[Household]) -> Answers:
        """The answers of households, in their order."""
        return Answers(self._handed(rows))

    def started(self, table: int, printed: int, messages: int, requests: int | None = None) -> Child:
        """The program on a table, which prints to a file, and its messages to another; it computes what these requests name, or all. All are files in
        memory."""
        given = [table] if requests is None else [table, requests]
        words = [*self.words[:-1], self.words[-1] if requests is None else f"/proc/self/fd/{requests}", f"/proc/self/fd/{table}"]
        return started(words, cwd=self.folder, pass_fds=given, stdin=subprocess.DEVNULL, stdout=printed, stderr=messages)

    def ended(self, child: Child) -> int:
        """The status of the program at its end."""
        return ended(child, self.program, self.timeout)

    def _handed(self, rows: Iterable[Household]) -> Generator[list[BlockAnswer], None, None]:
        """The same, some hundred at a time."""
        parts = self._parts(iter(rows))
        handed: list[BlockAnswer] = []
        try:
            for piece in parts:
                handed = self.hands.answers(piece)
                yield handed
        finally:
            parts.close()
            handed.clear()
            self.hands.end()
            self.hands = Hands()  # an answer that is held may hold this batch, and is to go when nobody holds it

    def _few(self) -> Form | None:
        """The form of answers with what is read and nothing else, of the first name where that is nothing; None where it is no less than half of all."""
        read, names = self.hands.read(), list(dict.fromkeys(self.form.names))
        wanted = names if read is None else [name for name in names if name in read] or names[:1]
        if 2 * len(wanted) > len(names):
            return None
        if self.few is None or self.few.names != wanted:
            self.few = Form(wanted, self.form.digests)
        return self.few

    def _parts(self, left: Iterator[Household]) -> Generator[Piece, None, None]:
        """The pieces of what is printed for them."""
        first = 0
        waiting: Part | None = None
        part: Part | None = None
        try:
            while True:
                households, fault = filled(left, self.size)
                if fault is None and not households:
                    break
                part = Part(self, households, first, fault, self._few())
                first += len(households)
                if waiting is not None:
                    yield from waiting.pieces()
                waiting = part
                if self.size < AHEAD or part.fault is not None:
                    yield from waiting.pieces()
                    waiting = None
            if waiting is not None:
                yield from waiting.pieces()
        finally:
            for one in (waiting, part):
                if one is not None:
                    one.end()


class Part:
    """Some households, the first of which has a number from 0 among all; they are computed from now on. `fault` is what is raised after their answers, and
    `few` the form of answers that tell some values alone, where no others are asked for.

    Where an amount is none, it ends before the first household with one, and has that fault.
    """

    def __init__(self, batch: Batch, households: list[Household], first: int, fault: BaseException | None = None, few: Form | None = None):
        self.batch, self.households, self.first, self.fault, self.few = batch, households, first, fault, few
        self.child: Child | None = None
        self.inner: Part | None = None
        self.files: list[int] = []
        try:
            self._begin()
        except BaseException:
            self.end()
            raise

    def _begin(self) -> None:
        """Starts the program on the table, where the table isn't too long."""
        self.files.append(memory_file("table"))
        with open(self.files[0], "wb", closefd=False) as file:
            self._write(file)
        if self.households and (os.fstat(self.files[0]).st_size <= FILE_BYTES or len(self.households) == 1):
            self._start()

    def _start(self) -> None:
        """Starts the program, with requests of all values or of some names."""
        requests = None
        self.files[1:] = [memory_file("answers"), memory_file("messages")]
        if self.few is not None:
            requests = memory_file("requests")
            self.files.append(requests)
            with open(requests, "wb", closefd=False) as file:
                file.write("".join(f"{name}\n" for name in self.few.names).encode(ENCODING))
        table, printed, messages = self.files[:3]
        self.child = self.batch.started(table, printed, messages, requests)

    def _write(self, file: BinaryIO) -> None:
        """Writes the table, of the households before the first one with what is no amount."""
        try:
            self.batch.tables.write(self.households, file)
        except Exception as wrong:
            number, self.fault = first_without_row(self.households, wrong)
            self.households = self.households[:number]
            self.batch.tables.write(self.households, file)

    def pieces(self) -> Iterator[Piece]:
        """What is printed, some hundred answers at a time, and then what is to be raised."""
        try:
            yield from self._halves() if self.child is None else self._pieces()
        finally:
            self.end()
        if self.fault is not None:
            raise self.fault

    def _halves(self) -> Iterator[Piece]:
        """The same where the table would be too long for one: of one half after the other."""
        half = len(self.households) // 2
        for begin, end in ((0, half), (half, len(self.households))):
            if begin < end:
                self.inner = Part(self.batch, self.households[begin:end], self.first + begin)
                yield from self.inner.pieces()

    def _pieces(self) -> Iterator[Piece]:
        """The same of a table that the program takes, or rejects."""
        assert self.child is not None
        status = self.batch.ended(self.child)
        if self.few is not None:
            some = self._some(self.few) if status == 0 else None
            if some is not None:
                yield from some
                return
            status = self._anew()
        try:
            raise_for(b"" if status == 0 else printed_in(self.files[1])[:], status, printed_in(self.files[2])[:])
        except NotFound as missing:
            raise NotFound(self.batch.original_names(str(missing))) from None
        except Refused as refused:
            line = self.batch.original_names(refused.line).replace(f"/proc/self/fd/{self.files[0]}", TABLE_NAME)
            before, self.fault = self._taken(line), Refused(self._among_all(line))
            if before:
                self.batch.tables = Tables()  # the one until now knows the codes of all households
                self.inner = Part(self.batch, self.households[:before], self.first)
                yield from self.inner.pieces()
            return
        pieces = self._pieces_of(self.batch.form)
        self.end()
        yield from pieces

    def _some(self, few: Form) -> list[Piece] | None:
        """The pieces where some values alone were requested; None where it isn't clear which answer is whose."""
        try:
            pieces = self._pieces_of(few)
        except Broken:
            return None
        whole = AllLines(self.batch, self.files.pop(0), len(self.households))
        self.end()
        firsts = itertools.accumulate((piece.size for piece in pieces), initial=0)
        return [piece._replace(whole=whole, first=first) for piece, first in zip(pieces, firsts)]

    def _anew(self) -> int:
        """Has the program compute the same table with all values; its status."""
        self.few = None
        while len(self.files) > 1:
            os.close(self.files.pop())
        self._start()
        assert self.child is not None
        return self.batch.ended(self.child)

    def _taken(self, line: str) -> int:
        """How many households stand before the one that the program rejects with this line: of a fault in the header the first with an unknown code."""
        match = ROW.fullmatch(line)
        if match is None:
            return 0
        if match[2] != "1":
            return int(match[2]) - 2
        return next((k for k, household in enumerate(self.households) if not self.batch.codes.issuperset(household)), 0)

    def _among_all(self, line: str) -> str:
        """A line of the program with the household's line in the table of all; the header stays line 1."""
        match = ROW.fullmatch(line)
        return f"{match[1]}{int(match[2]) + self.first}{match[3]}" if match and match[2] != "1" else line

    def _pieces_of(self, form: Form) -> list[Piece]:
        """The pieces of what the program printed, with the values of a form."""
        return pieces_of(form, printed_in(self.files[1]), len(self.households), self.batch.hands.column())

    def end(self) -> None:
        """Ends the program, and drops its files."""
        if self.inner is not None:
            self.inner.end()
        if self.child is not None and self.child.poll() is None:
            self.child.kill()
            self.child.wait()
        while self.files:
            os.close(self.files.pop())


class AllLines:
    """All lines of the answers of a table, which the program computes when they are wanted first. The table is its own, and closed with it."""

    def __init__(self, batch: Batch, table: int, due: int):
        self.form = batch.form
        self._batch, self._table, self._due = batch, table, due
        self._texts: list[bytes] = []
        weakref.finalize(self, os.close, table)

    def lines(self, first: int, count: int) -> bytes:
        """The lines of so many answers, from one of them on, with their labels."""
        if not self._texts:
            self._texts = self._computed()
        return b"".join(self._texts[first : first + count])

    def _computed(self) -> list[bytes]:
        """The lines of each answer."""
        printed, messages = memory_file("answers"), memory_file("messages")
        try:
            with self._batch.started(self._table, printed, messages) as child:
                try:
                    status = self._batch.ended(child)
                except BaseException:
                    child.kill()
                    raise
            text, said = printed_in(printed), printed_in(messages)[:]
        finally:
            os.close(printed)
            os.close(messages)
        raise_for(b"" if status == 0 else text[:], status, said)
        return [lines for piece in pieces_of(self.form, text, self._due) for lines in piece.texts()]


def printed_in(file: int) -> Printed:
    """All that was printed to a file, where it stands."""
    size = os.fstat(file).st_size
    return mmap.mmap(file, size, access=mmap.ACCESS_READ) if size else b""


def pieces_of(form: Form, printed: Printed, due: int, asked: str | None = None) -> list[Piece]:
    """What the program printed, in pieces with as many answers as are due, with the values of a form. `asked` is a name
    that each may have an amount of."""
    if printed and not (printed[: len(LABEL_LINE)] == LABEL_LINE.encode() and printed[-1:] == b"\n"):
        raise Broken(f"the program's answer has a first line without a label, or a last line without its end: {printed[:200]!r}, {printed[-200:]!r}")
    places = list(cuts(printed))
    if asked is not None:  # each answer has at most one amount of a name
        columns = [form.column(asked, printed, *place) for place in places]
        if sum(map(len, columns)) == due:
            return [Piece(form, printed, *place, len(column), {asked: column}) for place, column in zip(places, columns)]
    pieces = [Piece(form, printed, begin, end, printed[begin:end].count(NEXT_LABEL) + 1, {}) for begin, end in places]
    if not form.names or sum(piece.size for piece in pieces) != due:
        pieces = [Piece(form, text, 0, len(text), 1, {}) for text in by_line(printed[:])]
    if sum(piece.size for piece in pieces) != due:
        raise Broken(f"the program printed {sum(piece.size for piece in pieces)} answers for {due} households")
    return pieces


def filled(left: Iterator[Household], size: int) -> tuple[list[Household], Exception | None]:
    """The next households, at most so many, and what their iterator raised after them."""
    households: list[Household] = []
    try:
        households.extend(itertools.islice(left, size))
    except Exception as fault:
        return households, fault
    return households, None


def first_without_row(households: list[Household], wrong: Exception) -> tuple[int, Exception]:
    """The number of the first household that can't be written, and why; none and what was wrong with all where each can be written alone."""
    for number, household in enumerate(households):
        try:
            by_columns([household]).encode(ENCODING)
        except Exception as fault:
            return number, fault
    return 0, wrong


def cuts(printed: Printed) -> Iterator[tuple[int, int]]:
    """Where to cut what was printed, in pieces that each begin with a label: of some hundred answers, or one that is long."""
    begin, size = 0, len(printed)
    while begin < size:
        end = size
        if begin + SLICE < size:
            end = printed.rfind(NEXT_LABEL, begin, begin + SLICE) + 1 or printed.find(NEXT_LABEL, begin) + 1 or size
        yield begin, end
        begin = end


def by_line(text: bytes) -> list[bytes]:
    """The same with one answer in each, where answers may have no lines, or the text of a note or a stop is a label: it goes with the line before it."""
    texts: list[list[bytes]] = []
    in_text = False
    for line in text.split(b"\n")[:-1]:
        if not in_text and line + b"\n" == LABEL_LINE.encode():
            texts.append([])
        texts[-1].append(line + b"\n")
        in_text = not in_text and line.startswith((b"failed ", b"noted "))
    return list(map(b"".join, texts))
