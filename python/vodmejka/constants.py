"""Other values of constants in the texts of rule files: where a name gets its value, and a text with pieces of it replaced."""
from __future__ import annotations

import decimal
import re
from typing import Iterable

from . import items, source
from .endings import Wrong
from .limits import AMOUNT

Piece = tuple[int, int, str]
"""A piece of a file: its first byte, its end, and its text."""
Places = dict[str, list[tuple[source.RuleFile, "Piece | None", int, bool]]]
LITERAL = re.compile("-?[01];")
NUMBER = re.compile(r"-?([0-9]+)(?:\.[0-9]+)?")


def spelled(value: str) -> bool:
    """Whether a value is spelled as a number of rules, and not too great."""
    match = NUMBER.fullmatch(value)
    return match is not None and len(match[1].lstrip("0")) <= 14 and decimal.Decimal(value).copy_abs() <= AMOUNT


def whole(value: str) -> str:
    """The canonical spelling of a number."""
    sign, digits = ("-", value[1:]) if value.startswith("-") else ("", value)
    before, _, after = digits.partition(".")
    number = f"{before.lstrip('0')}.{after.rstrip('0')}"
    return number if number == "." else sign + number


def literal_at(file: source.RuleFile, at: int) -> Piece | None:
    """The number from a token to a `;`: its first byte, its end and its text; None of anything else."""
    literal = LITERAL.match(file.tokens.letters, at)
    if literal is None:
        return None
    last = literal.end() - 2
    return file.tokens.bytes[at], file.tokens.bytes[last] + len(file.text(last)), "".join(file.tokens.texts[at : last + 1])


def is_target(file: source.RuleFile, at: int) -> bool:
    """Whether a formula or a declaration may begin at a token: it is the first, or after `;` or `:`."""
    return at == 0 or file.text(at - 1) in (";", ":")


def places_of(files: Iterable[source.RuleFile]) -> Places:
    """Where names and cells get values: for each the files, with what `literal_at` says of the place, and the byte of the name."""
    places: Places = {}
    for file in files:
        for at, token in enumerate(file.tokens):
            if token.kind != "word" or not is_target(file, at):
                continue
            name, after = token.text, at + 1
            if file.text(after) == "[" and file.text(after + 2) == "]":
                name, after = f"{name}[{file.text(after + 1)}]", after + 3
            elif file.text(after) == ":" and file.text(after + 1) == "const":
                after += 2
            if file.text(after) == "=":
                is_const = file.text(at + 1) == ":"
                places.setdefault(name, []).append((file, literal_at(file, after + 1), token.byte, is_const))
    return places


def counts(file: source.RuleFile, byte: int, application: str) -> bool:
    """Whether the formula at a byte is of a rule of an application, and of no chained one."""
    formulas = items.read(file.bytes)[0].formulas
    return any(formula.byte == byte and application in formula.applications and not formula.is_chained for formula in formulas)


def change_of(places: Places, name: str, value: str, application: str) -> tuple[source.RuleFile, Piece]:
    """The file and the piece of it that a change replaces."""
    found = places.get(name, [])
    if not found:
        raise Wrong(f"{name}: no constant has this name, and no formula")
    file, piece, byte, is_const = found[0]
    if len(found) > 1:
        raise Wrong(f"{name}: it stands at {len(found)} places, first {file.place(byte)}")
    if piece is None:
        raise Wrong(f"{name}: it is computed, {file.place(byte)}")
    if whole(piece[2]) == whole(value):
        raise Wrong(f"{name}: it is {piece[2]} already, {file.place(byte)}")
    if not is_const and not counts(file, byte, application):
        raise Wrong(f"{name}: its formula is of no rule that counts for {application}, so nothing would change, {file.place(byte)}")
    return file, piece


def changed(text: bytes, pieces: Iterable[Piece]) -> bytes:
    """A text with pieces of it replaced: each has its first byte, its end and its new text."""
    parts: list[bytes] = []
    at = 0
    for begin, end, value in sorted(pieces):
        parts += [text[at:begin], value.encode()]
        at = end
    return b"".join([*parts, text[at:]])
