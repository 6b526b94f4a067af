"""What a page holds of a rule base: its code files, declarations, formulas as trees, where the driver's values come from, its files with their digests.

All comes from copies of the files that were read once. What the program refuses is refused with its line.
"""
import hashlib
import re
import tempfile

from . import origins, passages, reasons, runs, source, trees
from .copies import RuleCopies
from .endings import Wrong
from .places import shown_name

REQUESTS = 100_000


class Refusal(Wrong):
    """What the program refuses, in its line, with the status that it has."""


class Files(RuleCopies):
    """The files of a source, copied into a folder. `contents` has the name and the digest of each."""

    def __init__(self, words, room, asked):
        application, names = source.read_list(words[0])
        self.contents = []
        self.note(words[0], source.fetch(words[0]))
        rules = list(zip(names, source.fetch_rules(names)))
        for name, content in rules:
            self.note(name, content)
        super().__init__(application, rules, room)
        self.driver = None if words[1] == "-" else source.fetch(words[1])
        self.requests = None if words[2] == "-" else source.fetch(words[2])
        for name, content in zip(words[1:], (self.driver, self.requests)):
            if content is not None:
                self.note(name, content)
        if asked is not None:
            self.requests = "".join(name + "\n" for name in asked).encode()
        more = (("driver", self.driver), ("requests", self.requests))
        self.words = [self.list, *("-" if content is None else self.put(name, content) for name, content in more)]

    def note(self, name, content):
        self.contents.append((name, hashlib.sha256(content).hexdigest()))

    def compiled(self, *words):
        """The code file of a source."""
        text, status = runs.printed("compile", *words)
        if status != 0:
            raise Refusal(self.told(runs.fault_of(text, status)), 3 if status == 3 else 1)
        return text.decode("latin-1")


class Law:
    """A rule base with its driver and requests, or with the requested names."""

    def __init__(self, words, asked=None):
        with tempfile.TemporaryDirectory(prefix="page-") as room:
            self.files = Files(words, room, asked)
            self.code = self.files.compiled(*self.files.words)
            self.rules = reasons.Rules(self.files.list)
            self.base = source.RuleBase(self.files.list)
            self.passages = {file.name: passages.Passages(file) for file in self.base.files}
            self.numbers = {path: number for number, path in enumerate(self.passages)}
            self.asked = re.findall(r"^output (.+)$", self.code.split("\ncode\n", 1)[0], re.MULTILINE)
            self.origins = origins.Origins(self.files.driver, self.rules.variables) if self.files.driver is not None else None
            self.trees_and_code()

    # ---- the cells, and the code file of all of them

    def trees_and_code(self):
        """The trees of all formulas that the answer rests on, and the code file that computes their parts. Where there are too many for the program, trees
        without parts; where the cells alone are too many, none."""
        for most in (REQUESTS, 0):
            try:
                self.parts = trees.Parts(self.rules.variables, most)
                self.walk(bool(most))
                self.whole = self.code_of_all()
                return
            except (trees.TooMany, Refusal):
                continue
        self.places, self.trees, self.read, self.parts, self.whole = {}, {}, set(), trees.Parts(self.rules.variables, 0), ""

    def walk(self, with_parts):
        """Gives each cell that is needed a number, in the order in which formulas come on them."""
        self.places, self.trees, self.read, waiting = {}, {}, set(), []

        def place(cell):
            if cell not in self.places:
                self.places[cell] = len(self.places)
                waiting.append(cell)
            return self.places[cell]

        def read(cell):
            self.read.add(cell)
            return place(cell)

        maker = trees.Trees(self.rules.sizes, read, self.parts)
        for cell in [*self.asked, *self.of_driver()]:
            place(cell)
        for cell in waiting:
            if len(self.places) + len(self.parts.numbers) > REQUESTS:
                raise trees.TooMany
            formula = self.rules.formulas.get(cell)
            if formula is not None and with_parts:
                self.trees[cell] = maker.of(formula)
            elif formula is not None:
                self.trees[cell] = ["?", None, *(read(other) for other in formula.reads(self.rules.sizes))]

    def of_driver(self):
        """The cells that the driver takes from calls of the rules."""
        if self.origins is None:
            return []
        cells = {cell: True for commands in self.origins.functions.values() for command in commands for cell in command.cells()}
        return [cell for cell in cells if self.exists(cell)]

    def is_pure(self):
        """Whether the driver changes nothing that rules read, but by partitions: then a call of the rules is one for the household without some inputs."""
        return not any(cell in self.read and cell not in self.rules.formulas for cell in self.of_driver())

    def exists(self, cell):
        name, _, index = cell.partition("[")
        size = self.rules.sizes.get(name)
        return name in self.rules.variables and (not index if size is None else index[:-1].isdigit() and int(index[:-1]) < size)

    def code_of_all(self):
        """The code file of all cells and parts by one call of the rules."""
        paths = [*self.files.names, self.files.put("parts.m", self.parts.rules(self.files.application))]
        requests = self.files.put("all.txt", "\n".join([*self.places, *self.parts.names(), ""]).encode())
        return self.files.compiled(self.files.list_of(paths, "all.list"), "-", requests)

    # ---- the data of the page

    def data(self):
        """All that the page holds of the law, for JSON."""
        formulas = {}
        cells = [self.cell(name, formulas) for name in self.places]
        return {
            "code": self.code,
            "whole": self.whole,
            "cells": cells,
            "formulas": [formula for _, formula in formulas.values()],
            "variables": dict(self.variables()),
            "errors": dict(error for passages in self.passages.values() for error in passages.errors()),
            "pure": self.is_pure(),
            "places": [[shown_name(self.files.names[path]), passages.heading()] for path, passages in self.passages.items()],
            "origins": {name: self.origins.of(name) for name in self.asked} if self.origins else {},
            "files": [[shown_name(name), digest] for name, digest in self.files.contents],
            "digest": hashlib.sha256(self.code.encode("latin-1")).hexdigest(),
        }

    def cell(self, name, formulas):
        """A cell: its name, and where it has a formula, this formula's number and its tree."""
        formula = self.rules.formulas.get(name)
        if formula is None:
            return [name]
        path = formula.written.file.name
        key = (path, formula.formula.byte)
        if key not in formulas:
            text, line, rule, comments = self.passages[path].formula(formula.formula.byte)
            formulas[key] = len(formulas), [text, self.numbers[path], line, rule, *([comments] if comments else [])]
        return [name, formulas[key][0], self.trees[name]]

    def variables(self):
        """The variables of the form and of the cells: kind, description, file, line, code, type, a constant's number, attributes, comments; without empty
        ends."""
        needed = {cell.split("[")[0] for cell in [*self.places, *self.asked]}
        for file in self.base.files:
            for variable in file.variables:
                if variable.kind != "saisie" and variable.name not in needed:
                    continue
                description, word, number, comments = self.passages[file.name].declaration(variable.byte)
                attributes = [*variable.words, *(f"{name} = {value}" for name, value in variable.numbers.items())]
                place = [self.numbers[file.name], file.lines.number(variable.byte)]
                said = [variable.kind, description, *place, variable.code, word, number, attributes, comments]
                while not said[-1]:
                    said.pop()
                yield variable.name, said
