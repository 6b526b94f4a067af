"""The entries of a reference, one for each variable of a rule base: declarations with comments, formulas with letters of loops filled in, who reads whom."""
from __future__ import annotations

import bisect
from typing import Any, NamedTuple

from . import drivers, grammar, loops, passages, placed, places, source


class Piece(NamedTuple):
    """A piece of a formula's text, and the variable or error that it names, or nothing."""

    text: str
    name: str


class Formula(NamedTuple):
    """A formula as it is shown: its cell, its pieces, the number of its rule, its place, the comments there, and the variables that it reads."""

    cell: str
    pieces: list[Piece]
    rule: str
    path: str
    line: int
    comments: list[str]
    reads: list[str]


class Check(NamedTuple):
    """A check of a verification that counts."""

    number: str
    error: str
    pieces: list[Piece]
    path: str
    line: int
    comments: list[str]
    reads: list[str]


class Error(NamedTuple):
    """A declared error: its kind and its text, as the program prints it."""

    kind: str
    text: str
    path: str
    line: int


class Reference:
    """A list whose rules the program accepts. `readers` has for each variable the names of the computed variables that read it, `raisers` for each error its
    verifications, `driven` the lines of the driver that name a variable."""

    def __init__(self, list_name: str, driver: bytes | None, names: dict[str, str]):
        self.base, self.names = source.RuleBase(list_name), names
        self.variables = {variable.name: variable for variable in self.base.variables}
        self.descriptions = {name: described(variable) for name, variable in self.variables.items()}
        self.files = {file.name: file for file in self.base.files}
        self.formulas: dict[str, list[Formula]] = {}
        self.checks: list[Check] = []
        self.errors: dict[str, Error] = {}
        self.comments: dict[str, list[str]] = {}
        self.lines: dict[str, tuple[str, int]] = {}
        for file in self.base.files:
            self.read(file)
        self.readers, self.tested = self.reversed_reads(), self.reversed_checks()
        self.driver = driver
        self.driven = self.lines_of_driver(driver) if driver is not None else {}

    def read(self, file: source.RuleFile) -> None:
        reader, passage = placed.read(file), passages.Passages(file)
        for item in reader.declarations:
            place = file.name, file.lines.number(item.byte)
            if item.texts and item.kind in ("anomalie", "discordance", "informative"):
                self.errors[item.name] = Error(item.kind, ":".join(text_of(text) for text in item.texts), *place)
            else:
                self.lines[item.name], self.comments[item.name] = place, passage.comments_at(item.byte)
        for found in reader.placed_formulas:
            if self.base.application in found.item.applications and not found.item.is_chained:
                self.add(file, passage, found)
        for found in reader.placed_checks:
            if self.base.application in found.item.applications:
                check = found.item
                pieces = self.pieces(file, passage, check.condition, check.byte, {}, found.span[1])
                comments = list(dict.fromkeys([*passage.comments_at(passage_head(passage, check.byte)), *passage.comments_at(check.byte)]))
                reads = self.reads(check.condition, {})
                self.checks.append(Check(found.rule, check.error, pieces, file.name, file.lines.number(check.byte), comments, reads))

    def add(self, file: source.RuleFile, passage: passages.Passages, found: placed.Placed) -> None:
        """Adds the instances of a formula. For one of a whole table the first cell represents all."""
        item = found.item
        _, line, _, comments = passage.formula(item.byte)
        for letters in loops.instances(item.loops, ["".join(letter for header in item.loops for letter, _ in header)]):
            name = loops.replaced(item.target, letters)
            cell = name if item.slot is None else f"{name}[{item.slot}]"
            pieces = self.pieces(file, passage, item.term, item.byte, letters, found.span[1])
            shown = Formula(cell, pieces, found.rule, file.name, line, comments, self.reads(item.term, letters))
            self.formulas.setdefault(name, []).append(shown)

    def reads(self, term: Any, letters: dict[str, str]) -> list[str]:
        """The variables that a term reads, each once, in their order."""
        own = [[(letter, [(value, value)]) for letter, value in letters.items()]] if letters else []
        found: dict[str, bool] = {}
        for word, _, _, round_it in loops.reads_of(term, []):
            for values in loops.instances([*own, *round_it], [word]):
                name = loops.replaced(word, values)
                if name in self.variables:
                    found[name] = True
        return list(found)

    def pieces(self, file: source.RuleFile, passage: passages.Passages, term: Any, begin: int, letters: dict[str, str], end: int) -> list[Piece]:
        """The text from a byte on in one line, with letters filled in, and what its words name."""
        bound = {byte: {letter for header in round_it for letter, _ in header} for _, _, byte, round_it in loops.reads_of(term, [])}
        pieces: list[Piece] = []
        at, behind = tokens_from(passage, begin), begin
        while at < len(passage.tokens) and passage.tokens[at].byte < end:
            token = passage.tokens[at]
            if token.byte > behind and pieces:
                pieces.append(Piece(" ", ""))
            word = token.text
            if token.kind == "word" and (token.byte in bound or token.byte == begin) and word not in grammar.RESERVED:
                inner = bound.get(token.byte, set())
                word = loops.replaced(word, {letter: value for letter, value in letters.items() if letter not in inner})
            names = token.kind == "word" and (word in self.variables and (token.byte in bound or token.byte == begin))
            pieces.append(Piece(word if token.kind != "text" else text_of(token.text), word if names else ""))
            behind, at = token.byte + len(token.text), at + 1
        return pieces

    def reversed_reads(self) -> dict[str, list[str]]:
        found: dict[str, dict[str, bool]] = {}
        for name, formulas in self.formulas.items():
            for formula in formulas:
                for read in formula.reads:
                    found.setdefault(read, {})[name] = True
        return {name: list(readers) for name, readers in found.items()}

    def reversed_checks(self) -> dict[str, list[Check]]:
        found: dict[str, list[Check]] = {}
        for check in self.checks:
            for read in check.reads:
                found.setdefault(read, []).append(check)
        return found

    def lines_of_driver(self, content: bytes) -> dict[str, list[int]]:
        """The lines of the driver that name each variable."""
        found: dict[str, list[int]] = {}
        for line, _ in drivers.Driver(content).said:
            for token in line.tokens:
                if token.kind == "word" and token.text in self.variables and line.number not in found.setdefault(token.text, []):
                    found[token.text].append(line.number)
        return found

    def description(self, name: str) -> str:
        return self.descriptions[name]

    def rests_on(self, name: str) -> list[str]:
        """The variables that the formulas of a variable read, each once."""
        return list(dict.fromkeys(read for formula in self.formulas.get(name, ()) for read in formula.reads))


def described(variable: source.Variable) -> str:
    """What a declaration says, in one line."""
    return "" if variable.kind == "const" else " ".join(places.decode(variable.text.encode("latin-1")).split())


def text_of(text: str) -> str:
    return " ".join(places.decode(text[1:-1].encode("latin-1")).split())


def tokens_from(passage: passages.Passages, byte: int) -> int:
    """The number of the token that begins at a byte."""
    return bisect.bisect_left(passage.bytes, byte)


def passage_head(passage: passages.Passages, byte: int) -> int:
    """The byte of the word `verif` before a byte."""
    at = tokens_from(passage, byte)
    while passage.tokens[at].text != "verif":
        at -= 1
    return passage.tokens[at].byte
