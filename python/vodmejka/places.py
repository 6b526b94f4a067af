"""Places in files: the line with a caret under the byte, and the records of a household."""
from __future__ import annotations

import os
import re
import unicodedata
from typing import Iterable, Iterator, Sequence

from . import source
from .lines import Lines

WIDEST = 120
Field = tuple[int, bytes]
"""A field of a record, after its first byte."""
Texts = dict[str, "Lines | None"]
QUOTED, PLAIN = re.compile(rb'"(?:[^"]|"")*(?:"|$)'), re.compile(rb"[^,\r\n]*")


def shown(text: str) -> Iterator[tuple[str, str]]:
    """Characters as a terminal shows them, each with the blanks that take its place in the line of the caret."""
    for letter in text:
        if letter == "\t":
            yield letter, letter
        elif unicodedata.category(letter) in ("Mn", "Me", "Cf"):
            yield letter, ""
        elif unicodedata.category(letter) == "Cc":
            yield "\ufffd", " "
        else:
            yield letter, "  " if unicodedata.east_asian_width(letter) in "WF" else " "


def shown_name(name: str) -> str:
    """A file's name as a text, with a sign for each byte that is none."""
    return os.fsencode(name).decode("utf-8", "replace")


def decode(line: bytes) -> str:
    try:
        return line.decode("utf-8")
    except UnicodeDecodeError:
        return line.decode("latin-1")


def pointer(line: bytes, number: int, byte: int | None) -> list[str]:
    """The line with its number, and a caret below the byte; without a byte no caret. Of a long line a piece round the byte is shown."""
    if byte is None:
        before, after = "", decode(line)[:WIDEST]
    else:
        text = decode(line)
        encoding = "utf-8" if text.encode("utf-8") == line else "latin-1"
        before = line[:byte].decode(encoding, errors="ignore")
        after = text[len(before) :]
        if len(text) > WIDEST:
            cut = max(0, len(before) - WIDEST // 2)
            before = ("…" if cut else "") + before[cut:]
            after = after[: WIDEST // 2] + ("…" if len(after) > WIDEST // 2 else "")
    head = f"{number:>6} | "
    pieces = [head + "".join(letter for letter, _ in shown(before + after))]
    if byte is not None:
        pieces.append(" " * (len(head) - 2) + "| " + "".join(blank for _, blank in shown(before)) + "^")
    return pieces


def text_at(name: str, texts: Texts | None = None) -> Lines | None:
    """The lines of a file, or nothing where it can't be read. Those that were read before are in `texts`, if that is given."""
    texts = {} if texts is None else texts
    if name not in texts:
        try:
            texts[name] = Lines(source.fetch(name))
        except source.Refused:
            texts[name] = None
    return texts[name]


def line_at(name: str, number: int, texts: Texts | None = None) -> bytes | None:
    """The bytes of a line of a file, from 1, or nothing."""
    text = text_at(name, texts)
    return None if text is None else text.line(number)


def records(content: bytes) -> list[tuple[int, list[Field]]]:
    """The records of a household: the line and byte where each begins, and its fields with their bytes."""
    at = 3 if content.startswith(b"\xef\xbb\xbf") else 0
    found: list[tuple[int, list[Field]]] = []
    while at < len(content):
        if content[at] in b"\r\n":
            at += 1
            continue
        begin = at
        fields: list[Field] = []
        while True:
            field = at
            if content[at : at + 1] == b'"':
                at = end_of(QUOTED, content, at)
            at = end_of(PLAIN, content, at)
            fields.append((field, content[field:at]))
            if content[at : at + 1] != b",":
                break
            at += 1
        found.append((begin, fields))
    return found


def end_of(form: re.Pattern[bytes], content: bytes, at: int) -> int:
    """The end of a match at a byte."""
    found = form.match(content, at)
    return at if found is None else found.end()


def faulty_field(fields: Sequence[Field], what: str, heads: Iterable[Field]) -> int | None:
    """The byte of the field with the fault of a record, if it is known; `heads` are the fields of the first record."""
    if what in ("unknown code", "code twice"):
        return fields[0][0] if len(fields) == 2 else None
    if what == "bad amount":
        expected = {k for k, (_, head) in enumerate(heads) if head.strip(b'"').startswith(b"=")}
        for k, (byte, field) in enumerate(fields[1:], 1):
            if k in expected:
                continue
            amount = field.strip(b'"')
            if amount and (not re.fullmatch(rb"-?[0-9]+(\.[0-9]+)?", amount) or abs(float(amount)) > 1e13) or len(fields) == 2:
                return byte
    return None
