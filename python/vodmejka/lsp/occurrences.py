"""The symbol at a byte of a text, and its occurrences: variables and errors, through the loops that words are in, letters of loops, functions."""
from __future__ import annotations

import re
from collections.abc import Iterator
from typing import Any, NamedTuple

from .. import items, source
from ..drivers import RESERVED as DRIVER_RESERVED
from ..drivers import TOKEN as DRIVER_TOKEN
from ..grammar import RESERVED
from ..loops import is_number
from .base import Base, names_of
from .pieces import Check, Formula, Head, Piece, RuleText, headers_of
from .texts import Text
from .workspace import DriverText, Workspace

VARIABLE, ERROR, CODE, LETTER, FUNCTION, APPLICATION, RULE = "variable", "error", "code", "letter", "function", "application", "rule"


class Symbol(NamedTuple):
    """The symbol at some bytes: a word of a kind, with the names that it denotes; `headers` are the loops round it, and `index` that of a table."""

    kind: str
    word: str
    names: list[str]
    text: Text
    begin: int
    end: int
    piece: Piece | None = None
    headers: list[Any] = []
    index: Any = None


class Occurrence(NamedTuple):
    """An occurrence of a name: `is_exact` means that the word is the name, and not one with letters of loops."""

    text: Text
    begin: int
    end: int
    is_exact: bool = True
    piece: Piece | None = None


def tokens_in(piece: Piece) -> list[source.Token]:
    """The tokens of a piece. Their bytes count from its begin."""
    tokens: list[source.Token] = []
    content = piece.text.content[piece.begin : piece.end]
    items.take_tokens(content, len(source.MARK) if piece.begin == 0 and content.startswith(source.MARK) else 0, tokens, [], is_cut=piece.text.is_cut)
    return tokens


def symbol_at(text: Text, byte: int) -> Symbol | None:
    """The symbol at a byte, or one that ends there."""
    if isinstance(text, DriverText):
        return symbol_of_driver(text, byte)
    if not isinstance(text, RuleText) or not text.pieces:
        return None
    for at in (byte, byte - 1):
        if at < 0:
            continue
        piece = text.pieces[text.at(at)]
        tokens = tokens_in(piece)
        for number, token in enumerate(tokens):
            if token.byte <= at - piece.begin < token.byte + len(token.text):
                found = symbol_of(piece, tokens, number)
                if found is not None:
                    return found
    return None


def symbol_of(piece: Piece, tokens: list[source.Token], number: int) -> Symbol | None:
    """The symbol of a token of a piece."""
    token, item = tokens[number], piece.item
    before = tokens[number - 1].text if number else ""

    def made(kind: str, names: list[str], headers: list[Any] = [], index: Any = None) -> Symbol:
        begin = piece.begin + token.byte
        return Symbol(kind, token.text, names, piece.text, begin, begin + len(token.text), piece, headers, index)

    if isinstance(item, Head) and token.kind == "number":
        return made(RULE, [token.text])
    if token.kind != "word" or token.text in RESERVED:
        return None
    if isinstance(item, items.Declaration):
        if token.byte == item.byte:
            return made(ERROR if item.kind in items.KINDS_OF_ERRORS else VARIABLE, [token.text])
        return made(CODE, [token.text]) if before == "alias" else None
    if isinstance(item, Check) and token.byte == item.error_byte or before == "erreur":
        return made(ERROR, [token.text])
    if isinstance(item, Formula) and token.byte == item.byte:
        return made(VARIABLE, names_of(token.text, item.loops), item.loops)
    for word, index, at, headers in piece.reads:
        if at == token.byte:
            letters = {letter for header in headers for letter, _ in header}
            return made(LETTER if word in letters else VARIABLE, [name for name in names_of(word, headers) if not is_number(name)], headers, index)
    if re.fullmatch("[a-z]", token.text):
        return made(LETTER, [], [header for header in headers_of(piece) if token.text in (letter for letter, _ in header)])
    if isinstance(item, Head) and "application" in [other.text for other in tokens[:number]]:
        return made(APPLICATION, [token.text])
    return None if item is not None or not token.text.upper() == token.text else made(VARIABLE, [token.text])


def symbol_of_driver(text: DriverText, byte: int) -> Symbol | None:
    line = text.line_of(byte)
    for word, begin, end, is_called in words_of_driver(text, line):
        if begin <= byte <= end:
            return Symbol(FUNCTION if is_called else VARIABLE, word, [word], text, begin, end)
    return None


def words_of_driver(text: DriverText, number: int) -> Iterator[tuple[str, int, int, bool]]:
    """The words of a line that are names of cells or functions, each with its bytes and whether brackets follow it."""
    line, kinds = text.line(number), {byte for _, _, line, byte in text.driver.kinds if line == number + 1}
    code = line.split(b"#")[0]
    found = list(DRIVER_TOKEN.finditer(code))
    for match, after in zip(found, [*found[1:], None]):
        word = match[0].decode("latin-1")
        if match.lastgroup == "word" and word not in DRIVER_RESERVED and match.start() not in kinds:
            yield word, text.starts[number] + match.start(), text.starts[number] + match.end(), after is not None and after[0] == b"("


# ---- the occurrences of a name


def declarations(base: Base, kind: str, name: str) -> list[Occurrence]:
    pieces = (base.errors if kind == ERROR else base.codes if kind == CODE else base.variables).of(name)
    found = sorted(pieces, key=base.order)
    return [at(piece, piece.item.byte, len(piece.item.name)) for piece in found]


def at(piece: Piece, byte: int, length: int, is_exact: bool = True) -> Occurrence:
    return Occurrence(piece.text, piece.begin + byte, piece.begin + byte + length, is_exact, piece)


def settings_of(base: Base, name: str) -> list[Occurrence]:
    """The formulas that set a variable or cells of it, each at its target."""
    pieces = sorted(base.targets.of(name), key=base.order)
    return [at(piece, piece.item.byte, len(piece.item.target), piece.item.target == name) for piece in pieces]


def uses(base: Base, kind: str, name: str) -> Iterator[Occurrence]:
    """Where a name is read, or an error is raised."""
    if kind == ERROR:
        for piece in sorted(base.raisers.of(name), key=base.order):
            yield at(piece, piece.item.error_byte, len(name))
    for piece in sorted(base.readers.of(name), key=base.order) if kind == VARIABLE else []:
        for word, _, byte, headers in piece.reads:
            if word == name or headers and not word.isupper() and name in names_of(word, headers):
                yield at(piece, byte, len(word), word == name)


def in_driver(text: DriverText | None, name: str, is_called: bool) -> Iterator[Occurrence]:
    """Where a driver has a name."""
    if text is None:
        return
    for number in range(len(text.starts)):
        if name.encode("latin-1", "replace") in text.line(number):
            for word, begin, end, called in words_of_driver(text, number):
                if word == name and called == is_called:
                    yield Occurrence(text, begin, end)


def everywhere(workspace: Workspace, symbol: Symbol, with_declarations: bool) -> list[Occurrence]:
    """All places of a symbol's names, each once."""
    if symbol.kind == LETTER and symbol.piece is not None:
        return letters_of(symbol)
    if symbol.kind == FUNCTION and isinstance(symbol.text, DriverText):
        return [place for place in in_driver(symbol.text, symbol.word, True) if with_declarations or not is_function_line(place)]
    found: dict[tuple[Text, int], Occurrence] = {}
    for base in bases_at(workspace, symbol.text):
        names = [piece.item.name for code in symbol.names for piece in base.codes.of(code)] if symbol.kind == CODE else symbol.names
        kind = VARIABLE if symbol.kind == CODE else symbol.kind
        for name in names:
            places = [*(declarations(base, kind, name) if with_declarations else []), *(settings_of(base, name) if kind == VARIABLE else [])]
            places += [*uses(base, kind, name), *(in_driver(workspace.driver_of(base), name, False) if kind == VARIABLE else [])]
            for place in places:
                found.setdefault((place.text, place.begin), place)
    return list(found.values())


def is_function_line(place: Occurrence) -> bool:
    return place.text.position(place.begin)["character"] == 0


def letters_of(symbol: Symbol) -> list[Occurrence]:
    """The places of a letter of a loop in its piece: where the letter is alone, and in words."""
    piece, found = symbol.piece, []
    assert piece is not None
    for token in tokens_in(piece):
        if token.kind == "word" and token.text not in RESERVED:
            for match in re.finditer(symbol.word, token.text):
                found.append(at(piece, token.byte + match.start(), 1))
    return found


def bases_at(workspace: Workspace, text: Text) -> list[Base]:
    """The rule bases of a rule file, or of a driver."""
    if isinstance(text, DriverText):
        return [base for base in workspace.bases.values() if workspace.driver_of(base) is text]
    return workspace.bases_of(text)
