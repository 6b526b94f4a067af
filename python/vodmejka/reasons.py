"""Reports for people: which formula sets a cell, with its letters, and which cells it reads; what a declaration says of it."""
from __future__ import annotations

import bisect
import re
from typing import Mapping

from . import item_types, items, source
from .grammar import RESERVED
from .loops import Term, instances, replaced, whole
from .places import decode
from .texts import said
from .tokens import TEXT, Tokens

NUMBER = re.compile("[01]")


class Written:
    """A rule file as it is written, with its tokens."""

    def __init__(self, file: source.RuleFile, tokens: Tokens):
        self.file, self.tokens = file, tokens

    def formula(self, byte: int, letters: Mapping[str, str] | None = None, number: int | None = None) -> str:
        """The text of the formula that begins at a byte, with these letters and the number of its cell filled in."""
        first = bisect.bisect_left(self.tokens.bytes, byte)
        end = min(self.tokens.after(first) - 1, len(self.tokens) - 1)
        pieces: list[bytes] = []
        begin = byte
        for token in self.tokens[first:end]:
            word = str(number) if token.text == "X" and number is not None else token.text
            if letters and token.kind == "word" and token.text not in RESERVED:
                word = replaced(word, letters)
            if word != token.text:
                pieces += [self.file.bytes[begin : token.byte], word.encode("latin-1")]
                begin = token.byte + len(token.text)
        return plain(b"".join([*pieces, self.file.bytes[begin : self.tokens.bytes[end]]]))

    def rule(self, byte: int) -> str:
        """The number of the rule of a formula."""
        return self.number("R", byte)

    def number(self, letter: str, byte: int) -> str:
        """The number after the last `regle` (R) or `verif` (V) before a byte; nothing where there is none."""
        first = bisect.bisect_left(self.tokens.bytes, byte)
        found = NUMBER.search(self.tokens.letters, max(self.tokens.letters.rfind(letter, 0, first), 0), first)
        return self.tokens.texts[found.start()] if found else ""

    def line(self, byte: int) -> int:
        return self.file.lines.number(byte)

    def place(self, byte: int) -> str:
        """The file, the line and the rule of a formula."""
        return said("why.rule", file=self.file.name, line=self.line(byte), number=self.rule(byte))


class Formula:
    """The formula of a cell: where it is written, the letters of its instance, the cell's number in a whole table."""

    def __init__(self, written: Written, formula: item_types.Formula, letters: Mapping[str, str], number: int | None):
        self.written, self.formula, self.letters, self.number = written, formula, letters, number

    @property
    def text(self) -> str:
        return self.written.formula(self.formula.byte, self.letters, self.number)

    def place(self) -> str:
        return self.written.place(self.formula.byte)

    def reads(self, sizes: Mapping[str, int]) -> list[str]:
        """The cells that the formula reads, each once, in their order. `sizes` has the number of cells of each table."""
        term = None if self.letters else self.formula.simple
        if term is not None and not term.has("["):
            return list(dict.fromkeys(term.names()))
        found: dict[str, bool] = {}
        own = {letter: [(value, value)] for letter, value in self.letters.items()}
        loops = [list(own.items())] if own else []
        for word, index, _, round_it in self.formula.reads([]):
            for letters in instances([*loops, *round_it], [word, *words_in(index)]):
                for cell in self.cells(replaced(word, letters), index, letters, sizes):
                    found[cell] = True
        return list(found)

    def cells(self, word: str, index: Term | None, letters: Mapping[str, str], sizes: Mapping[str, int]) -> list[str]:
        if index is None:
            return [] if word.isdigit() else [word]
        number = self.number if index == ("X",) else number_of(index, letters)
        return [f"{word}[{k}]" for k in (range(sizes.get(word, 0)) if number is None else [number])]


def plain(content: bytes) -> str:
    """A piece of a file in one line, without comments."""
    return " ".join(re.sub(r"#[^\n]*", " ", content.decode("latin-1")).split())


def words_in(term: Term | None) -> list[str]:
    """The words of an index that is a number with letters, as `i`; none of another one."""
    return [term[1]] if term is not None and term[0] == "name" else []


def number_of(index: Term, letters: Mapping[str, str]) -> int | None:
    """The number of an index that is one, cut to its whole part; None of another one."""
    text = replaced(index[1], letters) if index[0] in ("name", "number") else ""
    return whole(text.split(".")[0]) if re.fullmatch(r"[0-9]+(\.[0-9]+)?", text) else None


class Rules:
    """The formulas of a list's application by their cells, and the variables with their descriptions. `base` is the rule base, where it was read before."""

    def __init__(self, list_name: str, base: source.RuleBase | None = None):
        base = base or source.RuleBase(list_name)
        self.application, self.contents = base.application, [(file.name, file.bytes) for file in base.files]
        self.variables = {variable.name: variable for variable in base.variables}
        self.sizes = {name: variable.size for name, variable in self.variables.items() if variable.size is not None}
        self.descriptions: dict[str, str] = {}
        self.formulas: dict[str, Formula] = {}
        self.checks: list[tuple[source.RuleFile, item_types.Check, Written]] = []
        self.comments: dict[str, str] = {}
        for file in base.files:
            self.describe(file)
            reader, _ = items.read(file.bytes, file.tokens)
            written = Written(file, reader.tokens)
            self.checks += [(file, check, written) for check in reader.checks if base.application in check.applications]
            for formula in reader.formulas:
                if base.application in formula.applications and not formula.is_chained:
                    self.add(written, formula)

    def describe(self, file: source.RuleFile) -> None:
        """Takes the last text of each declaration of a file."""
        tokens = file.tokens
        for variable in file.variables:
            if variable.kind == "const":
                line = file.lines.line(file.lines.number(variable.byte)) or b""
                self.comments[variable.name] = decode(line.partition(b"#")[2]).strip()
            text = tokens.letters.rfind(TEXT, variable.at, tokens.after(variable.at))
            if text >= 0:
                self.descriptions[variable.name] = decode(tokens.texts[text][1:-1].encode("latin-1"))

    def add(self, written: Written, formula: item_types.Formula) -> None:
        letters_of_target = [letter for header in formula.loops for letter, _ in header]
        for letters in instances(formula.loops, ["".join(letters_of_target)]):
            word = replaced(formula.target, letters)
            numbers = range(self.sizes.get(word, 0)) if formula.slot == "X" else [None if formula.slot is None else int(formula.slot)]
            for number in numbers:
                cell = word if number is None else f"{word}[{number}]"
                self.formulas.setdefault(cell, Formula(written, formula, letters, number))

    def description(self, cell: str) -> str:
        return self.descriptions.get(cell.split("[")[0], "")

    def role(self, cell: str) -> str:
        """What sets a cell without a formula."""
        variable = self.variables.get(cell.split("[")[0])
        if variable is None or variable.kind == "calculee":
            return said("why.no_rule")
        if variable.kind == "saisie":
            return said("why.declared", code=variable.code)
        comment = self.comments.get(variable.name)
        return said("why.constant_told", comment=comment) if comment else said("why.constant")
