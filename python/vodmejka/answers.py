"""The answer to a household, read from the lines of the program."""
from __future__ import annotations

import functools
import mmap
import re
from dataclasses import dataclass
from decimal import Decimal, InvalidOperation
from typing import TYPE_CHECKING, Callable, Iterator, Mapping, Union

from .errors import Broken, Stopped
from .program import ENCODING
from .shown import section, table

if TYPE_CHECKING:
    from .blocks import Block


class Over:
    """The value after an overflow: it is beyond the greatest amount. There is one, `OVER`."""

    def __repr__(self) -> str:
        return "OVER"

    def __reduce__(self) -> str:
        return "OVER"


OVER = Over()
Value = Union[Decimal, None, Over]
"""An amount, None where the variable is undefined, or OVER."""


@dataclass(frozen=True)
class Note:
    """A verification that failed and didn't stop the run: its number as spelled, its error, the error's kind and text."""

    verification: str
    error: str
    kind: str
    text: str


@dataclass(frozen=True)
class Stop:
    """What stopped a run: a verification that failed (with its error's kind and text) or overflowed, or a line of the driver that overflowed."""

    line: str
    verification: str | None = None
    error: str | None = None
    kind: str | None = None
    text: str | None = None
    driver_line: int | None = None


Printed = Union[bytes, mmap.mmap]
Read = tuple[dict[str, Value], tuple[Note, ...], Union[Stop, None]]


class Answer(Mapping[str, Value]):
    """The values by their names in order, and the notes; or the stop, and then there are no values. `digests` are those of the source and of the program.

    It is a mapping of names to values. Of a household that a verification stopped it is empty, and `answer[NAME]` raises `Stopped`.

    Of a batch the lines of the program are read when something of them is requested, and of a single value its line alone, so that many answers cost little.
    """

    __slots__ = ("_block", "_columns", "_index", "_lines", "_form", "_values", "_rest")
    _index: int

    def __init__(
        self, values: dict[str, Value] | None = None, notes: tuple[Note, ...] = (), stop: Stop | None = None, digests: tuple[str, str] = ("", "")
    ):
        self._block: Block | None = None
        self._columns: dict[str, list[Decimal] | None] = NO_COLUMNS
        self._lines, self._form = "", empty_form(digests)
        self._values: dict[str, Value] | None = {} if values is None else values
        self._rest: tuple[tuple[Note, ...], Stop | None] | None = (notes, stop)

    @property  # type: ignore[override]
    def values(self) -> dict[str, Value]:
        if self._block is not None:
            self._leave(self._block)
        if self._values is None:
            self._values = self._form.values(self._lines)
        return self._values

    @property
    def digests(self) -> tuple[str, str]:
        return (self._form if self._block is None else self._block.form).digests

    @property
    def notes(self) -> tuple[Note, ...]:
        return self._notes_and_stop()[0]

    @property
    def stop(self) -> Stop | None:
        return self._notes_and_stop()[1]

    def __getitem__(self, name: str) -> Value:
        try:
            return self._columns[name][self._index]  # type: ignore[index]
        except (KeyError, TypeError):
            return self._value(name)

    def __iter__(self) -> Iterator[str]:
        return iter(self.values)

    def __len__(self) -> int:
        return len(self.values)

    def __bool__(self) -> bool:
        return True

    def __contains__(self, name: object) -> bool:
        return name in self.values

    def __eq__(self, other: object) -> bool:
        return isinstance(other, Answer) and (self.values, *self._notes_and_stop()) == (other.values, *other._notes_and_stop())

    __hash__ = None  # type: ignore[assignment]

    def __repr__(self) -> str:
        return f"Answer(values={self.values!r}, notes={self.notes!r}, stop={self.stop!r})"

    def _repr_html_(self) -> str:
        if self.stop is not None:
            return section([self.stop.line, self.stop.text])
        notes = [f"noted {note.verification} {note.error} {note.kind}: {note.text}" for note in self.notes]
        values = [[name, "undefined" if value is None else "over" if isinstance(value, Over) else value] for name, value in self.values.items()]
        return section([f"{len(values)} values", *notes], table(["name", "value"], values))

    def __reduce__(self) -> tuple[type, tuple[object, ...]]:
        return Answer, (self.values, self.notes, self.stop, self.digests)

    def _value(self, name: str) -> Value:
        """A value of which there is no column yet, or none at all."""
        if self._block is not None:
            if name not in self._columns:
                column = self._block.column(name)
                if column is not None:
                    return column[self._index]
            self._leave(self._block)
        try:
            return Decimal(self._lines.rpartition(self._form.begins[name])[2].partition("\n")[0])
        except (KeyError, InvalidOperation):
            pass
        values = self.values
        if name not in values and self.stop is not None:
            raise Stopped(self.stop.line)
        return values[name]

    def _notes_and_stop(self) -> tuple[tuple[Note, ...], Stop | None]:
        """The notes and the stop."""
        if self._block is not None:
            self._leave(self._block)
        if self._rest is None:
            begin = after_notes(self._lines)
            lines = self._lines if self._lines.startswith(STOPS, begin) else self._lines[:begin]
            self._rest = parts_of(lines_of(lines))[1:]
        return self._rest

    def _leave(self, block: Block) -> None:
        """Copies its own lines out of its block, and releases the block."""
        self._lines, self._form, self._values, self._rest, self._block = block.lines(self._index), block.form, None, None, None
        self._columns = NO_COLUMNS
        block.is_left = True


class Known(dict):  # type: ignore[type-arg]
    """Decimals by their texts."""

    __slots__ = ()

    def __missing__(self, text: bytes) -> Decimal:
        made = self[text] = decimal_of(text)
        return made


def decimal_of(text: bytes) -> Decimal:
    return Decimal(text.decode(ENCODING))


class Form:
    """How answers of rules print values of these names, where all are amounts: how each line begins, and the form of all lines together. `digests` are those of
    the source and of the program.

    The lines of an answer have a line feed before the first one and after each. The last line that begins with a name and ` = ` is that name's, or the text of
    a note or a stop, and this is no amount, since it has the colons between the error's texts. So a line that is a label, or a name with an amount, is no text.
    """

    def __init__(self, names: list[str], digests: tuple[str, str] = ("", "")):
        self.names, self.digests = names, digests
        self.begins = {name: f"\n{name} = " for name in names}
        self._finders: dict[str, Callable[[Printed, int, int], list[bytes]]] = {}
        self._known: dict[bytes, Decimal] | None = Known()
        together = "".join(f"{re.escape(name)} = (-?[0-9.]+)\n" for name in names[:MOST_TOGETHER])
        self.match = re.compile(together if 0 < len(names) <= MOST_TOGETHER else "(?!)").fullmatch

    def column(self, name: str, printed: Printed, begin: int, end: int) -> list[Decimal]:
        """The amounts of all lines of a name in a piece of what was printed; nothing where one of them is no amount, or where answers have two such lines."""
        if self.names.count(name) != 1:
            return []
        try:
            return self._decimals((self.names == [name] and self._alone(name, printed[begin:end])) or self._found(name, printed, begin, end))
        except InvalidOperation:
            return []

    def _alone(self, name: str, lines: bytes) -> list[bytes]:
        """The same as texts, where each answer is its label and this line; nothing where one isn't."""
        front = (LABEL_LINE[:-1] + self.begins[name]).encode(ENCODING)
        texts = lines[len(front) : -1].split(b"\n" + front)
        others = (front + b"\n").translate(None, AMOUNTS) * len(texts)
        return texts if lines.startswith(front) and lines.endswith(b"\n") and lines.translate(None, AMOUNTS) == others else []

    def _found(self, name: str, printed: Printed, begin: int, end: int) -> list[bytes]:
        """The same as texts, where there may be other lines."""
        if name not in self._finders:
            self._finders[name] = re.compile(re.escape(self.begins[name].encode(ENCODING)) + rb"([-0-9.]+)\n").findall
        return self._finders[name](printed, begin, end)

    def _decimals(self, texts: list[bytes]) -> list[Decimal]:
        """Texts as decimals. Most amounts are met again and again, and are kept; where most are new, none is kept from then on."""
        if self._known is None:
            return list(map(decimal_of, texts))
        before = len(self._known)
        found = list(map(self._known.__getitem__, texts))
        if before > MOST_KNOWN:
            self._known = None if 2 * (len(self._known) - before) > len(texts) else Known()
        return found

    def values(self, lines: str) -> dict[str, Value]:
        """The values in lines."""
        begin = after_notes(lines)
        match = self.match(lines, begin)
        if match:
            return dict(zip(self.names, map(Decimal, match.groups())))
        rest = lines[begin:]
        found = [] if rest.startswith(STOPS) else VALUES.findall(rest)
        if len(found) != rest.count("\n"):
            return parts_of(lines_of(lines))[0]
        return {name: Decimal(number) if number else None if undefined else OVER for name, number, undefined, _ in found}


LABEL = "~"
LABEL_LINE = f"household {LABEL}\n"
NEXT_LABEL = b"\n" + LABEL_LINE.encode()
MOST_KNOWN = 20_000
MOST_TOGETHER = 100
NO_FORM = Form([])
AMOUNTS = b"0123456789.-"
NO_COLUMNS: dict[str, list[Decimal] | None] = {}
STOPS = ("failed ", "over ")
LABELLED = re.compile(r"(failed|noted) ([0-9]+) ([^ ]+) (anomalie|discordance|informative)")
OVER_LINE = re.compile(r"over (?:verification ([0-9]+) ([^ ]+)|driver line ([0-9]+))")
VALUE = re.compile(r"([^ \n]+)(?: = (-?[0-9]+(?:\.[0-9]+)?)|( undefined)|( over))")
VALUES = re.compile("(?m)^" + VALUE.pattern + "$")


def lines_of(lines: str) -> Iterator[str]:
    """Lines one by one."""
    return iter(lines[1:].split("\n")[:-1])


def after_notes(lines: str) -> int:
    """Where the lines after the notes begin, each of which has two."""
    begin = 1
    while lines.startswith("noted ", begin):
        text = lines.find("\n", begin) + 1
        behind = lines.find("\n", text) + 1
        if not text or not behind:
            return len(lines)
        begin = behind
    return begin


def parts_of(lines: Iterator[str]) -> Read:
    """The values, the notes and the stop in lines."""
    values: dict[str, Value] = {}
    notes: list[Note] = []
    for line in lines:
        if match := LABELLED.fullmatch(line):
            text = next(lines, "")
            if match[1] == "failed":
                return {}, (), Stop(line, match[2], match[3], match[4], text)
            notes.append(Note(match[2], match[3], match[4], text))
        elif match := OVER_LINE.fullmatch(line):
            return {}, (), Stop(line, match[1], match[2], driver_line=int(match[3]) if match[3] else None)
        else:
            values.setdefault(line.split(" ")[0], value_of(line))
    return values, tuple(notes), None


def value_of(line: str) -> Value:
    """The value in a line: `NAME = AMOUNT`, `NAME undefined` or `NAME over`."""
    match = VALUE.fullmatch(line)
    if match is None:
        raise Broken(f"a line that is no answer: {line}")
    return Decimal(match[2]) if match[2] else None if match[3] else OVER


@functools.lru_cache(maxsize=64)
def empty_form(digests: tuple[str, str]) -> Form:
    """The form of answers whose values were read already."""
    return Form([], digests)


def answer_of(lines: Iterator[str], digests: tuple[str, str]) -> Answer:
    """The answer of which these are all lines."""
    return Answer(*parts_of(lines), digests)
