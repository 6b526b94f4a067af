"""Texts as a client and the program see them: bytes with an encoding, lines, and positions that count UTF-16 units.

Lines end at line feeds alone, as the program counts them; so do the editors that keep a carriage return within a line.
"""
from __future__ import annotations

import bisect
import os
import re
import urllib.parse
from typing import Any

from .protocol import INVALID_PARAMS, ResponseError

Position = dict[str, int]


class Text:
    """The content of a file. `version` is the client's, or nothing where the client hasn't opened it; then `signature` identifies the file on the disk."""

    def __init__(self, path: str, uri: str | None = None) -> None:
        self.path, self.uri = path, uri or uri_of(path)
        self.content, self.encoding = b"", "utf-8"
        self.version: int | None = None
        self.signature: tuple[int, ...] | None = None
        self.on_disk: bytes | None = None  # what the file has, where the client's text may differ
        self.starts = [0]

    @property
    def is_open(self) -> bool:
        return self.version is not None

    @property
    def is_saved(self) -> bool:
        return not self.is_open or self.on_disk == self.content

    def set(self, content: bytes, encoding: str) -> None:
        """Takes a new content whole."""
        self.content, self.encoding = content, encoding
        self.starts = starts_of(content)

    def line_of(self, byte: int) -> int:
        """The line from 0 in which a byte is."""
        return bisect.bisect_right(self.starts, byte) - 1

    def line(self, number: int) -> bytes:
        """A line without its end."""
        end = self.starts[number + 1] - 1 if number + 1 < len(self.starts) else len(self.content)
        return self.content[self.starts[number] : end].removesuffix(b"\r")

    def decoded(self, piece: bytes) -> str:
        return piece.decode(self.encoding, "replace")

    def encoded(self, text: str) -> bytes:
        return text.encode(self.encoding, "replace")

    def position(self, byte: int) -> Position:
        """The client's position of a byte."""
        number = self.line_of(byte)
        before = self.content[self.starts[number] : byte]
        return {"line": number, "character": len(before) if before.isascii() else units(before.decode(self.encoding, "ignore"))}

    def range(self, begin: int, end: int) -> dict[str, Position]:
        return {"start": self.position(begin), "end": self.position(end)}

    def byte(self, position: object) -> int:
        """The byte of a client's position. One past the end of a line is its end, and one past the last line the end of the text."""
        line, character = line_and_character(position)
        if line >= len(self.starts):
            return len(self.content)
        content = self.line(line)
        if content.isascii():
            return self.starts[line] + min(character, len(content))
        text = self.decoded(content)
        return self.starts[line] + len(self.encoded(prefix(text, character)))

    def edit(self, begin: int, end: int, piece: bytes) -> None:
        """Puts other bytes in the place of some."""
        first, last = self.line_of(begin), self.line_of(end)
        shift = len(piece) - (end - begin)
        middle = [begin + match.end() for match in re.finditer(b"\n", piece)]
        rest = self.starts[last + 1 :]
        self.starts[first + 1 :] = middle + ([start + shift for start in rest] if shift else rest)
        self.content = b"".join((self.content[:begin], piece, self.content[end:]))


def starts_of(content: bytes) -> list[int]:
    return [0, *(match.end() for match in re.finditer(b"\n", content))]


def units(text: str) -> int:
    """How many UTF-16 units a text has."""
    return len(text) + sum(letter > "\uffff" for letter in text)


def prefix(text: str, count: int) -> str:
    """The letters that end within `count` UTF-16 units."""
    if text.isascii() or max(text) <= "\uffff":
        return text[:count]
    at = 0
    while at < len(text) and (count := count - (2 if text[at] > "\uffff" else 1)) >= 0:
        at += 1
    return text[:at]


def line_and_character(position: object) -> tuple[int, int]:
    if isinstance(position, dict):
        line, character = position.get("line"), position.get("character")
        if type(line) is int and type(character) is int and line >= 0 and character >= 0:
            return line, character
    raise ResponseError(INVALID_PARAMS, "a position has a line and a character, whole numbers from 0 on")


def encoding_of(content: bytes) -> str:
    """A file that isn't UTF-8 is Latin-1."""
    try:
        content.decode("utf-8")
    except UnicodeDecodeError:
        return "latin-1"
    return "utf-8"


def encoded_as(text: str, encoding: str) -> tuple[bytes, str]:
    """The bytes of a client's text in the encoding of its file, or in UTF-8 where it has letters that this can't spell."""
    if encoding == "latin-1":
        try:
            return text.encode("latin-1"), "latin-1"
        except UnicodeEncodeError:
            pass
    return text.encode("utf-8", "replace"), "utf-8"


def uri_of(path: str) -> str:
    return "file://" + urllib.parse.quote(os.fsencode(os.path.abspath(path)))


def path_of(uri: str) -> str | None:
    """The path of a file's address, or nothing of another address."""
    parts = urllib.parse.urlsplit(uri)
    if parts.scheme != "file" or parts.netloc not in ("", "localhost"):
        return None
    path = os.fsdecode(urllib.parse.unquote_to_bytes(parts.path))
    return None if "\0" in path else path


def text_change(change: object) -> tuple[Any, str]:
    """The range and the text of a change; no range where it is the whole text."""
    if not isinstance(change, dict) or not isinstance(change.get("text"), str):
        raise ResponseError(INVALID_PARAMS, "a change has a text")
    where = change.get("range")
    if where is not None and not (isinstance(where, dict) and "start" in where and "end" in where):
        raise ResponseError(INVALID_PARAMS, "a range has a start and an end")
    return where, change["text"]
