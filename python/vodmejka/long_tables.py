"""Tables of households of any length, in parts of whole records. A table is csv; its first column has the labels, and each other one amounts of a code or
something else."""
from __future__ import annotations

import bisect
import csv
import io
import itertools
import os
from typing import BinaryIO, Iterator, NamedTuple, Sequence

from . import records
from .errors import NotFound, Refused
from .limits import FILE_BYTES
from .program import ENCODING, csv_text

NO_SEPARATORS = bytes(set(range(256)) - set(b",\n"))


class Part(NamedTuple):
    """Some records of a table, each with a line feed, how many they are, and how many precede them."""

    text: bytes
    rows: int
    before: int


class LongTable:
    """A table, of which the first record was read."""

    def __init__(self, path: str | os.PathLike[str]):
        self.path = os.fspath(path)
        try:
            self._file: BinaryIO = open(self.path, "rb")
        except (OSError, ValueError) as fault:
            raise NotFound(f"unreadable {self.path}") from fault
        self._state = records.state(self._file)
        self._blocks = self._read()
        block = next(self._blocks, [b""])
        head = list(fields_of(block[0] + b"\n", self.path))
        self._blocks = itertools.chain([block[1:]], self._blocks)
        self.head: list[str] = head[0] if head else []
        if not self.head or self.head[0] != "name" or len(set(self.head)) < len(self.head):
            raise Refused(f"{self.path}: its first line is name and columns, each once")

    def parts(self, rows: int, size: int) -> Iterator[Part]:
        """The records after the first, at most so many and so many bytes at a time, or a single longer one."""
        kept: list[bytes] = []
        length = before = 0
        for block in self._blocks:
            at, ends = 0, [0, *itertools.accumulate(len(record) + 1 for record in block)]
            while at < len(block):
                end = min(len(block), at + rows - len(kept), bisect.bisect_right(ends, ends[at] + size - length) - 1)
                end = max(end, at if kept else at + 1)
                kept += block[at:end]
                length += ends[end] - ends[at]
                at = end
                if at < len(block):
                    yield Part(b"\n".join([*kept, b""]), len(kept), before)
                    before, kept, length = before + len(kept), [], 0
        if kept:
            yield Part(b"\n".join([*kept, b""]), len(kept), before)

    def check(self) -> None:
        """Refuses a file that was changed since it was opened."""
        if records.state(self._file) != self._state:
            raise Refused(f"{self.path} was changed meanwhile: begin again")

    def close(self) -> None:
        self._file.close()

    def _read(self) -> Iterator[list[bytes]]:
        try:
            yield from records.blocks(self._file, FILE_BYTES)
        except records.Strange as fault:
            raise Refused(f"{self.path}: {fault}") from None
        except OSError as fault:
            raise NotFound(f"unreadable {self.path}") from fault


def is_plain(text: bytes) -> bool:
    """Whether each comma of these records separates two fields."""
    return b'"' not in text and b"\r" not in text


def columns_of(text: bytes, count: int, head: Sequence[str], path: str) -> list[list[str]]:
    """The columns of so many records, which have as many fields as the first line, and a label that can be printed on a line."""
    width = len(head)
    if is_plain(text) and text.translate(None, NO_SEPARATORS) == (b"," * (width - 1) + b"\n") * count:
        fields = text.decode(ENCODING).replace("\n", ",").split(",")
        columns = [fields[at : count * width : width] for at in range(width)]
    else:
        columns = [list(column) for column in zip(*of_width(fields_of(text, path), head, path))] or [[] for _ in head]
    labels = "".join(columns[0])
    if "" in columns[0] or not (labels.isprintable() or min(labels) >= " "):
        at = next(at for at, label in enumerate(columns[0]) if not label or min(label) < " ")
        row = ",".join(column[at] for column in columns)
        raise Refused(f"{path}: a label is empty or has a line end: {shown(row[:80])!r}")
    return columns


def fields_of(text: bytes, path: str) -> Iterator[list[str]]:
    """The fields of records."""
    try:
        yield from csv.reader(io.StringIO(text.decode(ENCODING), newline=""), strict=True)
    except csv.Error as fault:
        raise Refused(f"{path}: {fault}") from None


def joined(columns: Sequence[Sequence[str]], plain: bool) -> bytes:
    """Columns as records. Fields are plain where they have no comma, no quote and no line end."""
    if plain:
        return "\n".join([*map(",".join, zip(*columns)), ""]).encode(ENCODING)
    return csv_text(zip(*columns)).encode(ENCODING)


def shown(text: str) -> str:
    """The bytes of a table as a message shows them."""
    return os.fsdecode(text.encode(ENCODING))


def column_named(word: str) -> str:
    """The name of a column as the table's bytes are read."""
    return os.fsencode(word).decode(ENCODING)


def of_width(rows: Iterator[list[str]], head: Sequence[str], path: str) -> Iterator[list[str]]:
    """Records that have as many fields as the first one."""
    for row in rows:
        if len(row) != len(head):
            raise Refused(f"{path}: a row of {len(row)} fields where the first line has {len(head)}: {shown(','.join(row)[:80])}")
        yield row
