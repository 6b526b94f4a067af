"""What each token of a text is, for highlighting. Files of more than LONGEST bytes are coloured by the lines that a client shows, and not whole."""
from __future__ import annotations

import re
from collections.abc import Iterator
from typing import Any

from .. import drivers, items, source
from ..grammar import OF_ONE, OF_TWO, RESERVED
from .base import Base
from .context import Context, pieces_in, range_of, read_text
from .occurrences import tokens_in
from .pieces import Check, Formula, Head, Piece, RuleText
from .texts import Text, units
from .workspace import DriverText

LONGEST = 262_144
TYPES = ["namespace", "enumMember", "parameter", "variable", "property", "function", "keyword", "comment", "string", "number", "operator"]
MODIFIERS = ["declaration", "readonly", "modification"]
LEGEND = {"tokenTypes": TYPES, "tokenModifiers": MODIFIERS}
NUMBER_OF = {name: number for number, name in enumerate(TYPES)}
DECLARATION, READONLY, MODIFICATION = 1, 2, 4
FUNCTIONS = {*OF_ONE, *OF_TWO, "somme"}
OPERATORS = {"+", "-", "*", "/", "=", "!=", "<", "<=", ">", ">=", "==", "<-", ".."}

Coloured = tuple[int, int, str, int]  # the bytes of a token, its type, its modifiers


def full(context: Context, params: dict[str, Any]) -> dict[str, Any]:
    text = read_text(context, params)
    return {"data": encoded(text, coloured(context, text, 0, len(text.content))) if len(text.content) <= LONGEST else []}


def of_range(context: Context, params: dict[str, Any]) -> dict[str, Any]:
    text = read_text(context, params)
    begin, end = range_of(text, params)
    end = min(end, begin + LONGEST)
    return {"data": encoded(text, (one for one in coloured(context, text, begin, end) if one[0] < end and one[1] > begin))}


def coloured(context: Context, text: Text, begin: int, end: int) -> Iterator[Coloured]:
    if isinstance(text, DriverText):
        yield from colours_of_driver(text)
    if isinstance(text, RuleText):
        base = next(iter(context.workspace.bases_of(text)), None)
        for number in pieces_in(text, begin, end):
            context.tick()
            yield from colours_of_piece(base, text.pieces[number])


def colours_of_piece(base: Base | None, piece: Piece) -> Iterator[Coloured]:
    content, end, before = piece.text.content, piece.begin, ""
    named = False
    for token in [*tokens_in(piece), source.Token("end", "", piece.size)]:
        begin = piece.begin + token.byte
        if begin > end + 1:
            for match in re.finditer(rb"#[^\n]*", content[end:begin]):
                yield end + match.start(), end + match.end(), "comment", 0
        end = begin + len(token.text)
        named = named or token.text == "application"
        found = colour_of(base, piece, token, before, named)
        if found is not None:
            yield begin, end, *found
        before = token.text


def colour_of(base: Base | None, piece: Piece, token: source.Token, before: str, named: bool) -> tuple[str, int] | None:
    """The type of a token, with its modifiers."""
    if token.kind in ("text", "number"):
        return ("string" if token.kind == "text" else "number"), 0
    if token.kind != "word":
        return ("operator", 0) if token.text in OPERATORS else None
    if token.text in RESERVED:
        return ("function" if token.text in FUNCTIONS else "keyword"), 0
    item = piece.item
    if isinstance(item, items.Declaration):
        if token.byte != item.byte:
            return ("keyword" if before == "type" else "property"), 0
        is_error = item.kind in items.KINDS_OF_ERRORS
        return ("enumMember" if is_error else "variable"), DECLARATION | (READONLY if item.kind == "const" else 0)
    if isinstance(item, Head):
        return ("namespace" if named else "property"), 0
    if isinstance(item, Check) and token.byte >= item.error_byte:
        return ("enumMember" if token.byte == item.error_byte else "property"), 0
    if len(token.text) == 1 and token.text.islower():
        return "parameter", 0
    if isinstance(item, Formula) and token.byte == item.byte:
        return "variable", MODIFICATION
    declared = base.declared(token.text) if base is not None else None
    return "variable", READONLY if declared is not None and declared.kind == "const" else 0


def colours_of_driver(text: DriverText) -> Iterator[Coloured]:
    functions = {name for name, _ in text.driver.functions} | {"call_m"}
    for number, start in enumerate(text.starts):
        line = text.line(number)
        code = line.split(b"#")[0]
        for match in drivers.TOKEN.finditer(code):
            word = match[0].decode("latin-1")
            kind = "number" if match.lastgroup == "number" else "operator" if match.lastgroup == "sign" else "variable"
            if kind == "variable":
                kind = "keyword" if word in drivers.RESERVED else "function" if word in functions else "variable"
            if kind != "operator" or word in OPERATORS:
                yield start + match.start(), start + match.end(), kind, 0
        if len(code) < len(line):
            yield start + len(code), start + len(line), "comment", 0


def encoded(text: Text, found: Iterator[Coloured]) -> list[int]:
    """Tokens as the protocol has them: each counts from the one before it, and none goes over the end of a line."""
    data: list[int] = []
    last_line = last_character = line = 0
    start, stop, is_ascii = 0, -1, True  # (of the line at hand)
    for begin, end, kind, modifiers in found:
        if begin > stop:
            line = text.line_of(begin)
            content = text.line(line)
            start, stop, is_ascii = text.starts[line], text.starts[line] + len(content), content.isascii()
        places = [(line, begin - start, end - begin)] if is_ascii and end <= stop else pieces_of_lines(text, begin, end)
        for number, character, length in places:
            data += (number - last_line, character - (last_character if number == last_line else 0), length, NUMBER_OF[kind], modifiers)
            last_line, last_character = number, character
    return data


def pieces_of_lines(text: Text, begin: int, end: int) -> Iterator[tuple[int, int, int]]:
    first = text.line_of(begin)
    for line in range(first, text.line_of(max(begin, end - 1)) + 1):
        start = text.starts[line]
        content = text.line(line)
        low, high = max(begin, start) - start, min(end - start, len(content))
        if low < high:
            before, piece = content[:low], content[low:high]
            yield line, units(text.decoded(before)), units(text.decoded(piece))
