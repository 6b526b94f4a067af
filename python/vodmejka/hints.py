"""Hints for a fault: the name that was meant, the place of the first of two, the letter that no loop binds, the size of a table, the places of a cycle."""
from __future__ import annotations

import re
from collections.abc import Callable, Iterable
from functools import cached_property

from . import drivers, items, source
from .reasons import Rules
from .texts import said

MOST_CHANGES = 2


def distance(one: str, other: str, most: int) -> int:
    """The number of letters to change, insert, delete or swap with the next, at most one more than `most`."""
    if abs(len(one) - len(other)) > most:
        return most + 1
    before: list[int] = []
    last = list(range(len(other) + 1))
    for k, letter in enumerate(one, 1):
        row = [k]
        for j, against in enumerate(other, 1):
            cost = min(last[j] + 1, row[j - 1] + 1, last[j - 1] + (letter != against))
            if k > 1 and j > 1 and letter == other[j - 2] and one[k - 2] == against:
                cost = min(cost, before[j - 2] + 1)
            row.append(cost)
        if min(row) > most:
            return most + 1
        before, last = last, row
    return min(last[-1], most + 1)


def nearest(word: str, names: Iterable[str]) -> str | None:
    """The name that was probably meant: of those with the fewest changes the first. A short word may have one change."""
    best, most = None, min(MOST_CHANGES, max(len(word) // 3, 1))
    for name in names:
        found = distance(word, name, most)
        if found <= most and name != word:
            best, most = name, found - 1
            if most < 1:
                break
    return best


class Hints:
    """The declarations of a list and its files. They are read when a hint needs them."""

    def __init__(self, list_name: str | None, driver: str | None = None):
        self.list_name, self.driver = list_name, driver

    def list_there(self) -> str:
        """The list; a hint that needs one is none where there is none."""
        if self.list_name is None:
            raise source.Refused("no list is named")
        return self.list_name

    def functions(self) -> list[tuple[str, int]]:
        """The functions of the driver, each with its line."""
        return [] if self.driver is None or self.driver == "-" else drivers.Driver(source.fetch(self.driver)).functions

    @cached_property
    def base(self) -> source.RuleBase:
        return source.RuleBase(self.list_there(), bounded=False)

    @cached_property
    def readers(self) -> dict[str, items.RuleReader]:
        return {file.name: items.read(file.bytes, file.tokens)[0] for file in self.base.files}

    @cached_property
    def errors(self) -> list[tuple[str, str]]:
        """The errors in their order, each with its place."""
        return [(error, line_of(file, byte)) for file in self.base.files for error, byte in self.readers[file.name].errors]

    def more(self, what: str, name: str | None = None, byte: int | None = None) -> str:
        """The hint for a fault, by its name in the program; nothing if there is none, or if the files can't be read."""
        kind, _, word = what.rpartition(" ")
        known: dict[str, Callable[[str, str | None, int | None], str]] = {
            "unknown name": self.meant, "unknown error": self.error_meant, "declared twice": self.declared, "alias twice": self.coded,
            "defined twice": self.defined, "bad target": self.target, "unknown": self.in_driver, "function twice": self.function}
        try:
            if what == "unbound index":
                return self.letters(name, byte)
            return known[kind](word, name, byte) if kind in known and self.list_name else ""
        except source.Refused:
            return ""

    def meant(self, word, _name=None, _byte=None) -> str:
        found = nearest(word, [variable.name for variable in self.base.variables])
        return said("hint.meant", name=found) if found else ""

    def error_meant(self, word, _name=None, _byte=None) -> str:
        found = nearest(word, [error for error, _ in self.errors])
        return said("hint.meant", name=found) if found else ""

    def code_meant(self, word: str) -> str:
        """The code that was meant in a household; of a variable's name its code."""
        try:
            codes = {variable.name: variable.code for variable in self.base.variables if variable.code}
        except source.Refused:
            return ""
        found = codes.get(word) or nearest(word, codes.values())
        return said("hint.meant", name=found) if found else ""

    def declared(self, word, name, byte) -> str:
        places = [line_of(file, variable.byte) for file in self.base.files for variable in file.variables
                  if variable.name == word and (file.name, variable.byte) != (name, byte)]
        places += [place for error, place in self.errors if error == word]
        return said("hint.first", place=places[0]) if places else ""

    def coded(self, word, name, byte) -> str:
        places = [(variable.name, line_of(file, variable.byte)) for file in self.base.files for variable in file.variables
                  if variable.code == word and (file.name, variable.byte) != (name, byte)]
        return said("hint.first_input", name=places[0][0], place=places[0][1]) if places else ""

    def defined(self, word, name, byte) -> str:
        formula = Rules(self.list_there()).formulas.get(word)
        return said("hint.first", place=formula.place()) if formula else ""

    def target(self, word, name, byte) -> str:
        variable = next((variable for variable in self.base.variables if variable.name == word), None)
        if variable is None:
            return ""
        if variable.kind != "calculee":
            return said("hint.is_input" if variable.kind == "saisie" else "hint.is_constant", name=word)
        return said("hint.size", name=word, size=variable.size, last=variable.size - 1) if variable.size else ""

    def letters(self, name, byte) -> str:
        """The letters of the word at a byte that no loop round it binds."""
        reader = items.read(source.fetch(name))[0] if self.list_name is None else self.readers.get(name)
        for formula in reader.formulas if reader else ():
            reads = [(formula.target, None, formula.byte, formula.loops), *formula.reads()]
            for word, _, at, round_it in reads:
                if at == byte:
                    return free_letters(word, {letter for header in round_it for letter, _ in header})
        for check in reader.checks if reader else ():
            for word, _, at, round_it in check.reads():
                if at == byte:
                    return free_letters(word, {letter for header in round_it for letter, _ in header})
        return ""

    def in_driver(self, word, _name=None, _byte=None) -> str:
        found = nearest(word, [*(variable.name for variable in self.base.variables), *(name for name, _ in self.functions())])
        return said("hint.meant", name=found) if found else ""

    def function(self, word, _name=None, _byte=None) -> str:
        lines = [line for name, line in self.functions() if name == word]
        return said("hint.first", place=f"{self.driver} line {lines[0]}") if lines else ""

    def cycle(self, cells: list[str]) -> str:
        """The cells of a cycle with the places of their formulas."""
        try:
            formulas = Rules(self.list_name).formulas if self.list_name else {}
        except source.Refused:
            formulas = {}
        places = [re.sub(r" line ([0-9]+), rule .*", r":\1", formulas[cell].place()) for cell in cells if cell in formulas]
        return " → ".join(f"{cell} ({place})" for cell, place in zip(cells, places)) if len(places) == len(cells) else ""


def free_letters(word: str, bound: set[str]) -> str:
    """The small letters of a word that aren't bound."""
    free = list(dict.fromkeys(letter for letter in word if letter.islower() and letter not in bound))
    return said("hint.letter" if len(free) == 1 else "hint.letters", letters=", ".join(free), word=word) if free else ""


def line_of(file: source.RuleFile, byte: int) -> str:
    return f"{file.name} line {file.lines.number(byte)}"
