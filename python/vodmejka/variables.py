"""What rule files say of variables: their declarations, and the formulas that set them, with their places."""
from __future__ import annotations

import difflib
from dataclasses import dataclass, field
from typing import Iterable, Mapping

from . import reasons, source
from .errors import Refused
from .shown import section, table
from .sources import Sources

TYPES = {"truth": "BOOLEEN", "whole": "ENTIER"}
"""The words of rule files for the types that code files have."""


@dataclass(frozen=True)
class Formula:
    """A formula in one line, as the rule file has it. `sets` is the variable, a cell as `T[3]`, or the table of which it sets each cell; `letters` are the
    values of the letters of its loops."""

    sets: str
    text: str
    letters: Mapping[str, str]
    file: str
    line: int
    rule: str

    @property
    def place(self) -> str:
        return f"{self.file} line {self.line}, rule {self.rule}"


@dataclass(frozen=True)
class Variable:
    """A variable: its kind (`saisie`, `calculee`, `const`), an input's code, the description, the word after `type`, the attributes with their numbers (None
    where one has none), the number of a constant, the number of cells of a table, the place of the declaration, and the formulas that set it.

    Of an input of a code file the code and the type alone are known."""

    name: str
    kind: str
    code: str | None = None
    description: str = ""
    type: str = ""
    attributes: Mapping[str, str | None] = field(default_factory=dict)
    number: str | None = None
    size: int | None = None
    place: str = ""
    formulas: tuple[Formula, ...] = ()

    def _repr_html_(self) -> str:
        words = [name if number is None else f"{name} = {number}" for name, number in self.attributes.items()]
        facts = [self.kind, *([f"alias {self.code}"] if self.code else []), *([f"type {self.type}"] if self.type else []), *words]
        rows = [[formula.sets, formula.text, ", ".join(f"{k} = {v}" for k, v in formula.letters.items()), formula.place] for formula in self.formulas]
        lines = [f"{self.name} ({', '.join(facts)})", *([f"= {self.number}"] if self.number is not None else []), self.description, self.place]
        return section(lines, table(["sets", "formula", "letters", "place"], rows) if rows else "")


class Variables:
    """The variables of a source."""

    def __init__(self, sources: Sources):
        application = sources.listing.replace(b"\r\n", b"\n").split(b"\n")[0].decode("latin-1")
        try:
            self._base = source.RuleBase.of(application, sources.rules)
            self.reasons = reasons.Rules("", self._base)
        except source.Refused as fault:
            raise Refused(str(fault)) from None
        self._inputs = {variable.code: variable.name for variable in reversed(self._base.variables) if variable.kind == "saisie"}

    def variable(self, name: str) -> Variable:
        """The variable of this name, or with this code."""
        name = name if name in self.reasons.variables else self._inputs.get(name, name)
        if name not in self.reasons.variables:
            near = difflib.get_close_matches(name, self.reasons.variables, 1)
            raise Refused(f"no variable has the name {name}{f': {near[0]}?' if near else ''}")
        return self._made(name, tuple(self._formulas(name)))

    def input(self, code: str) -> Variable:
        """The input with a code, which no formula sets."""
        return self._made(self._inputs[code], ())

    def description(self, cell: str) -> str:
        """What the declaration says of a variable, or of the table of a cell."""
        return str(self.reasons.description(cell))

    def _made(self, name: str, formulas: tuple[Formula, ...]) -> Variable:
        said = self.reasons.variables[name]
        number = said.text if said.kind == "const" else None
        attributes = {**dict.fromkeys(said.words), **said.numbers}
        place = said.place.rsplit(" byte ", 1)[0]
        description = "" if number is not None else self.description(name)
        return Variable(name, said.kind, said.code, description, said.type or "", attributes, number, said.size, place, formulas)

    def _formulas(self, name: str) -> Iterable[Formula]:
        """The formulas that set a variable or the cells of a table, each once, in the order of the cells."""
        size = self.reasons.sizes.get(name)
        found: dict[tuple[str, int, str], Formula] = {}
        for cell in [name] if size is None else [f"{name}[{k}]" for k in range(size)]:
            one = self.reasons.formulas.get(cell)
            if one is not None:
                sets = name if one.formula.slot == "X" else cell
                written, byte = one.written, one.formula.byte
                made = Formula(sets, written.formula(byte), dict(one.letters), written.file.name, written.line(byte), written.rule(byte))
                found.setdefault((made.file, one.formula.byte, sets), made)
        return found.values()
