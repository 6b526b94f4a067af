"""Files of households of any length: a table as csv, and the answers to its households as csv or as a file of Parquet, in parts."""
from __future__ import annotations

import csv
import os
import re
from typing import TYPE_CHECKING, BinaryIO, Iterator, Mapping, Sequence

from .answers import LABEL
from .errors import Broken, Refused, Stopped
from .frames import STOPS, FrameAnswers, Households, quoted
from .limits import FILE_BYTES
from .long_tables import LongTable, Part, column_named, columns_of, is_plain, joined
from .program import ENCODING, csv_text, whole_file
from .source import MASK
from .surveys import FIRST, Run, Survey, body_of, in_table

if TYPE_CHECKING:
    import pandas

FORMATS = ("csv", "parquet")
STOPPED = re.compile(rb'(?m)^("(?:[^"]|"")*"|[^",\n]*),([^,\n]+),')


class HouseholdFile:
    """A table of households, whose columns are codes of the rules, or are copied."""

    def __init__(self, path: str | os.PathLike[str], types: Mapping[str, str], keep: Sequence[str], with_labels: bool):
        self.table = LongTable(path)
        wanted = [column_named(name) for name in keep]
        head = self.table.head
        unknown = [name for name in head[1:] if name not in types and name not in wanted]
        missing = [name for name in wanted if name not in head[1:]]
        if unknown:
            raise Refused(f"column {quoted(unknown[0])} is no code of the rules: keep=[{', '.join(map(quoted, unknown))}]?")
        if missing:
            raise Refused(f"keep: the table has no column {quoted(missing[0])}")
        self.kept = [head.index(name) for name in wanted]
        self.codes = [at for at, name in enumerate(head) if at and name in types]
        self.is_plain, self.with_labels = with_labels and len(self.codes) == len(head) - 1, with_labels
        self.head = csv_text([["name", *(head[at] for at in self.codes)]]).encode(ENCODING)

    def columns(self, part: Part) -> list[list[str]]:
        """The columns of a part."""
        return columns_of(part.text, part.rows, self.table.head, self.table.path)

    def of_codes(self, part: Part) -> bytes:
        """The table of a part for the program."""
        if self.is_plain:
            return self.head + part.text
        columns = self.columns(part)
        labels = columns[0] if self.with_labels else [LABEL] * part.rows
        return self.head + joined([labels, *(columns[at] for at in self.codes)], is_plain(part.text))

    def runs(self, survey: Survey, rows: int) -> Iterator[tuple[Part, Run]]:
        """The program on each part, started while the one before it is written."""
        waiting: list[tuple[Part, Run]] = []
        try:
            for part in self.table.parts(rows, FILE_BYTES // 2):
                waiting.append((part, survey.begun(self.of_codes(part))))
                if len(waiting) > 1:
                    yield waiting[0]
                    waiting.pop(0)[1].end()
            yield from waiting
        finally:
            for _, run in waiting:
                run.end()
        self.table.check()


def batch_file(
    survey: Survey, types: Mapping[str, str], names: Sequence[str], path: str | os.PathLike[str], out: str | os.PathLike[str], *,
    format: str, numbers: str, stops: str, keep: Sequence[str], rows: int,
) -> int:
    """Writes the answers to the households of a file, and returns how many they are."""
    if format not in FORMATS or stops not in STOPS:
        raise ValueError('format: "csv" or "parquet", and stops: "raise" or "keep"')
    if format == "parquet" and numbers == "decimal":
        raise ValueError('numbers: "float64" or "micros", since a column of Parquet has no over among decimals')
    households = HouseholdFile(path, types, keep, format == "csv")
    written: Csv | Parquet = Csv(households, names, stops) if format == "csv" else Parquet(households, names, numbers, stops)
    count = 0
    try:
        with whole_file(os.path.abspath(os.fspath(out)), 0o666 & ~MASK) as file:
            for part, run in households.runs(survey, rows):
                written.put(file, part, printed_of(run, part, names))
                count += part.rows
            written.end(file)
    finally:
        households.table.close()
    return count


def printed_of(run: Run, part: Part, names: Sequence[str]) -> bytes:
    """The program's output for a part. A message has the household's line in the file."""
    try:
        printed = body_of(run.printed(), names)[:]
    except Refused as refused:
        raise in_table(refused, part.before) from None
    if printed.count(b"\n") != part.rows + 1:
        raise Broken(f"{printed.count(10) - 1} answers for {part.rows} households")
    return printed


class Csv:
    """The program's output, with the columns that are kept after the label."""

    def __init__(self, households: HouseholdFile, names: Sequence[str], stops: str):
        self._households, self._stops, self._is_begun, self._names = households, stops, False, [*FIRST, *names]
        head = households.table.head
        self._head = csv_text([["name", *(head[at] for at in households.kept), *FIRST[1:], *names]]).encode(ENCODING)

    def put(self, file: BinaryIO, part: Part, printed: bytes) -> None:
        """Writes a part."""
        if not self._is_begun:
            file.write(self._head)
            self._is_begun = True
        body = printed[printed.index(b"\n") + 1 :]
        stopped = STOPPED.search(body) if self._stops == "raise" else None
        if stopped is not None:
            label, line = (found.decode(ENCODING) for found in stopped.groups())
            raise Stopped(line, f'household {quoted(next(csv.reader([label]))[0])}: {line}; stops="keep" keeps what is stopped')
        file.write(self._with_kept(part, body) if self._households.kept else body)

    def end(self, file: BinaryIO) -> None:
        """Writes the first line of a table without households."""
        if not self._is_begun:
            file.write(self._head)

    def _with_kept(self, part: Part, body: bytes) -> bytes:
        labels, *answers = columns_of(body, part.rows, self._names, "an answer")
        given = self._households.columns(part)
        return joined([labels, *(given[at] for at in self._households.kept), *answers], is_plain(part.text) and is_plain(body))


class Parquet:
    """Frames of the parts, written by pyarrow."""

    def __init__(self, households: HouseholdFile, names: Sequence[str], numbers: str, stops: str):
        try:
            import pyarrow.parquet
        except ImportError:
            raise Broken("a file of Parquet needs the package pyarrow, which isn't there") from None
        self._arrow, self._households, self._writer = pyarrow, households, None
        self._names, self._numbers, self._stops = names, numbers, stops

    def put(self, file: BinaryIO, part: Part, printed: bytes) -> None:
        """Writes a part."""
        self._write(file, self.frame(part, printed))

    def end(self, file: BinaryIO) -> None:
        """Writes the end of the file."""
        if self._writer is None:
            head = ",".join([*FIRST, *self._names]).encode(ENCODING) + b"\n"
            self._write(file, self.frame(Part(b"", 0, 0), head))
        self._writer.close()  # type: ignore[attr-defined]

    def frame(self, part: Part, printed: bytes) -> pandas.DataFrame:
        """A part as a frame; labels and kept columns are texts."""
        import pandas

        head, encoding = self._households.table.head, "utf-8" if is_utf8(part.text) else ENCODING
        columns = self._households.columns(part)
        texts = {head[at]: [text.encode(ENCODING).decode(encoding) for text in columns[at]] for at in [0, *self._households.kept]}
        given = pandas.DataFrame(texts, dtype=object)
        given.index = pandas.Index(given["name"], dtype=object)
        answers = FrameAnswers(Households(given, {}, list(given.columns)), self._names, self._numbers, self._stops)
        if part.rows:
            answers.add(0, part.rows, printed)
        return answers.frame().reset_index(drop=True)

    def _write(self, file: BinaryIO, frame: pandas.DataFrame) -> None:
        texts = {name: "string" for name in frame.columns if frame[name].dtype == object}
        schema = self._arrow.Schema.from_pandas(frame.astype(texts), preserve_index=False)
        table = self._arrow.Table.from_pandas(frame, schema, preserve_index=False)
        if self._writer is None:
            self._writer = self._arrow.parquet.ParquetWriter(file, schema)
        self._writer.write_table(table)  # type: ignore[attr-defined]


def is_utf8(text: bytes) -> bool:
    try:
        text.decode("utf-8")
    except UnicodeDecodeError:
        return False
    return True
