"""Tables of cases, as docs/CASES.md has them: households, and what is expected of them below heads that begin with `=`."""
from __future__ import annotations

import csv
import io
import re
from typing import NamedTuple

from . import source
from .limits import FILE_BYTES
from .program import csv_text

EXPECTED = re.compile(r"-?[0-9]+(?:\.[0-9]+)?|undefined|over|stop|")
MARK = "\u00ef\u00bb\u00bf"  # a byte order mark, in Latin-1


class Row(NamedTuple):
    """A household: its label, its fields, what is expected of it, and the line where it begins."""

    label: str
    fields: list[str]
    expected: list[str]
    line: int


class CaseTable:
    """A table by its columns: `codes` are those of households, `outputs` the names behind `=`. Its texts are bytes as letters of Latin-1."""

    def __init__(self, name: str):
        self.name = name
        text = source.fetch(name, FILE_BYTES).decode("latin-1").removeprefix(MARK)
        reader = csv.reader(io.StringIO(text, newline=""), strict=True)
        try:
            numbered = [(reader.line_num, record) for record in reader if record]
        except csv.Error as fault:
            raise source.Refused(f"{name} line {reader.line_num}: {fault}") from fault
        if not numbered or numbered[0][1][0] != "name":
            raise source.Refused(f"{name} is no table of cases: its first field is name")
        heads = numbered[0][1]
        self.at = [k for k, head in enumerate(heads) if head.startswith("=")]
        self.codes = [head for k, head in enumerate(heads) if k and k not in set(self.at)]
        self.outputs = [heads[k][1:] for k in self.at]
        if twice := [output for k, output in enumerate(self.outputs) if output in self.outputs[:k]]:
            raise source.Refused(f"{name} line 1: ={twice[0]} stands twice")
        self.rows = [self.row(heads, line, record) for line, record in numbered[1:]]

    def row(self, heads: list[str], line: int, record: list[str]) -> Row:
        if len(record) != len(heads):
            raise source.Refused(f"{self.name} line {line}: {len(record)} fields, and the first record has {len(heads)}")
        expected = [record[k] for k in self.at]
        if wrong := [text for text in expected if not EXPECTED.fullmatch(text)]:
            raise source.Refused(f"{self.name} line {line}: {wrong[0]} is no expected value: an amount, undefined, over, stop or nothing")
        found = set(self.at)
        return Row(record[0], [field for k, field in enumerate(record) if k and k not in found], expected, line)

    def households(self, rows: list[Row]) -> bytes:
        """A table of households for `batch`."""
        return csv_text([["name", *self.codes], *([row.label, *row.fields] for row in rows)]).encode("latin-1")
