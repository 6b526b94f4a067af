"""The rules of a list as functions of the values of cells, which count what they reach: each formula, branch, bound, cell and verification.

The meaning is that of docs/LANGUAGE.md, on the exact amounts of operators.py. What is computed here is for counting alone: who uses it compares the values
with those that the program prints.
"""
from __future__ import annotations

import sys
from typing import Any, Callable, NamedTuple

from . import loops, operators, placed, source
from .answers import OVER
from .items import Formula
from .points import BOUND, BRANCH, CELL, FORMULA, VERIFICATION, Point, Points

Value = operators.Value
Read = Callable[[list[Value]], Value]
Letters = dict[str, str]
DIGITS = 12
SIGNS_OF_TWO = frozenset(operators.TWO)
# A message is reported for each way of a conditional, and for each argument of max and min.
WAYS = {"si": ("alors", "sinon"), "max": ("1", "2"), "min": ("1", "2")}


class Stopped(Exception):
    """What stops a run: the line that the program prints of it."""


class Cells:
    """The cells of a base by their numbers. `first` has the number of the first cell of each variable."""

    def __init__(self, base: source.RuleBase):
        self.variables = {variable.name: variable for variable in base.variables}
        self.sizes = {variable.name: variable.size for variable in base.variables if variable.size is not None}
        self.names: list[str] = []
        self.first: dict[str, int] = {}
        for variable in base.variables:
            self.first[variable.name] = len(self.names)
            self.names += [variable.name] if variable.size is None else [f"{variable.name}[{k}]" for k in range(variable.size)]
        self.constants = {self.first[name]: operators.read_amount(variable.text) for name, variable in self.variables.items() if variable.kind == "const"}

    def number(self, name: str, index: int | None) -> int:
        return self.first[name] + (index or 0)

    def begun(self, household: dict[str, int]) -> list[Value]:
        """The values with which a run begins: constants, and amounts by codes."""
        values: list[Value] = [None] * len(self.names)
        for number, amount in self.constants.items():
            values[number] = amount
        for name, variable in self.variables.items():
            if variable.code in household:
                values[self.first[name]] = household[variable.code]
        return values


class Owner(NamedTuple):
    """The formula or check that a term is of: its name, its file, the spans of its parts, the number of its cell in a whole table, and the numbers of its
    conditionals and bounds so far. `reads` are the cells that it reads."""

    name: str
    path: str
    parts: dict[int, list[placed.Span]]
    number: int | None
    numbers: dict[Any, Any]
    reads: set[int]


class Terms:
    """Makes functions of terms."""

    def __init__(self, cells: Cells, points: Points, cell_points: list[int | None]):
        self.cells, self.points, self.cell_points = cells, points, cell_points

    def of(self, term: Any, letters: Letters, owner: Owner) -> Read:
        kind = term[0]
        if kind == "number":
            return constant(operators.read_amount(term[1]))
        if kind == "X":
            return constant((owner.number or 0) * operators.UNIT)
        if kind == "name":
            word = loops.replaced(term[1], letters)
            return constant(int(word) * operators.UNIT) if word.isdigit() and len(word) <= DIGITS else self.cell(word, None, owner)
        if kind == "read":
            return self.read(term, letters, owner)
        if kind == "sum":
            words = ["".join(letter for letter, _ in term[1])]
            return folded([("+", self.of(term[2], {**letters, **one}, owner)) for one in loops.instances([term[1]], words)])
        return self.operator(term, letters, owner)

    def cell(self, name: str, index: int | None, owner: Owner) -> Read:
        """The value of a cell; that of a table counts as read."""
        number = self.cells.number(name, index)
        owner.reads.add(number)
        point = self.cell_points[number]
        return (lambda values: values[number]) if point is None else self.counted(number, point)

    def counted(self, number: int, point: int) -> Read:
        """The value of a cell, of which each read reaches a point."""
        hits = self.points.hits

        def read(values: list[Value]) -> Value:
            hits[point] += 1
            return values[number]

        return read

    def read(self, term: Any, letters: Letters, owner: Owner) -> Read:
        """A table at an index."""
        name, size = loops.replaced(term[1], letters), self.cells.sizes[loops.replaced(term[1], letters)]
        index = self.of(term[2], letters, owner)
        if is_plain(term[2], letters):
            number = operators.cut(index([]))  # type: ignore[arg-type]
            return self.cell(name, number, owner) if number < size else constant(None)
        first, hits, points = self.cells.first[name], self.points.hits, self.cell_points
        owner.reads.update(range(first, first + size))

        def read(values: list[Value]) -> Value:
            at = index(values)
            if at is None or at is OVER:
                return at
            number = operators.cut(at)  # type: ignore[arg-type]
            if not 0 <= number < size:
                return 0 if number < 0 else None
            if (point := points[first + number]) is not None:
                hits[point] += 1
            return values[first + number]

        return read

    def operator(self, term: Any, letters: Letters, owner: Owner) -> Read:
        sign, terms = term[1], term[2]
        if sign == "si":
            return self.conditional(term, letters, owner)
        if sign in ("max", "min"):
            return self.bound(term, letters, owner)
        if sign == "dans":
            return self.membership(terms, letters, owner)
        if sign in SIGNS_OF_TWO:
            return self.chain(term, letters, owner)
        inner = self.of(terms[0], letters, owner)
        return lambda values: operators.of_one(sign, inner(values))

    def chain(self, term: Any, letters: Letters, owner: Owner) -> Read:
        """Operators of two arguments, of which the left one leans deep."""
        rest: list[tuple[str, Any]] = []
        while term[0] == "op" and term[1] in SIGNS_OF_TWO and term[1] not in ("max", "min"):
            rest.append((term[1], term[2][1]))
            term = term[2][0]
        first = ("+", self.of(term, letters, owner))
        return folded([first, *((sign, self.of(each, letters, owner)) for sign, each in reversed(rest))])

    def membership(self, terms: list[Any], letters: Letters, owner: Owner) -> Read:
        """`x = 1 ou x >= 3 et x <= 5`."""
        left, members = self.of(terms[0], letters, owner), []
        for member in terms[1:]:
            ends = member[2] if member[0] == "op" and member[1] == ".." else [member, member]
            members.append([self.of(end, letters, owner) for end in ends])

        def read(values: list[Value]) -> Value:
            value = left(values)
            found = [is_member(value, low(values), high(values)) for low, high in members]
            told = found[0]
            for one in found[1:]:
                told = operators.of_two("ou", told, one)
            return told

        return read

    def numbers_of(self, term: Any, owner: Owner) -> tuple[int, int]:
        """The points of a conditional, max or min: one for each way, the same for all instances of a sum."""
        if id(term) not in owner.numbers:
            sign = term[1]
            count = owner.numbers[sign] = owner.numbers.get(sign, 0) + 1
            spans = owner.parts[id(term)]
            spans = spans[1:] if sign == "si" else spans
            if len(spans) == 1:  # (without `sinon` the second way has no text of its own)
                spans = [spans[0], spans[0]]
            kind = BRANCH if sign == "si" else BOUND
            owner.numbers[id(term)] = tuple(
                self.points.add(Point(kind, f"{owner.name} {sign} {count} {way}", owner.path, *span, f"coverage.{sign}.{way}"))
                for way, span in zip(WAYS[sign], spans))
        return owner.numbers[id(term)]

    def conditional(self, term: Any, letters: Letters, owner: Owner) -> Read:
        so, not_so = self.numbers_of(term, owner)
        condition, first = (self.of(each, letters, owner) for each in term[2][:2])
        second = self.of(term[2][2], letters, owner) if len(term[2]) == 3 else constant(None)
        hits = self.points.hits

        def read(values: list[Value]) -> Value:
            told = condition(values)
            if told is None or told is OVER:
                return told
            hits[so if told else not_so] += 1
            return first(values) if told else second(values)

        return read

    def bound(self, term: Any, letters: Letters, owner: Owner) -> Read:
        """`max` or `min`: the argument that decides is counted, where the two differ."""
        numbers, sign, hits = self.numbers_of(term, owner), term[1], self.points.hits
        left, right = (self.of(each, letters, owner) for each in term[2])

        def read(values: list[Value]) -> Value:
            one, other = left(values), right(values)
            found = operators.of_two(sign, one, other)
            if found is not None and found is not OVER and (one or 0) != (other or 0):
                hits[numbers[0 if found == (one or 0) else 1]] += 1
            return found

        return read


def constant(value: Value) -> Read:
    return lambda values: value


def folded(parts: list[tuple[str, Read]]) -> Read:
    """Operators worked from the left; the sign of the first part doesn't count."""
    (_, first), rest = parts[0], parts[1:]

    def read(values: list[Value]) -> Value:
        found = first(values)
        for sign, part in rest:
            found = operators.of_two(sign, found, part(values))
        return found

    return read


def is_member(value: Value, low: Value, high: Value) -> Value:
    if low == high:
        return operators.of_two("=", value, low)
    return operators.of_two("et", operators.of_two(">=", value, low), operators.of_two("<=", value, high))


def is_plain(index: Any, letters: Letters) -> bool:
    """Whether an index is a number as it is written, perhaps by the letters of loops, or the number of the cell."""
    return index[0] in ("number", "X") or index[0] == "name" and loops.replaced(index[1], letters).isdigit()


class Rules:
    """The formulas of a list in an order in which each comes after those that it reads, and its checks in theirs."""

    def __init__(self, base: source.RuleBase, points: Points):
        sys.setrecursionlimit(max(sys.getrecursionlimit(), 20_000))
        self.cells, self.points, self.application = Cells(base), points, base.application
        self.cell_points: list[int | None] = [None] * len(self.cells.names)
        self.terms = Terms(self.cells, points, self.cell_points)
        self.readers = [(file, placed.read(file)) for file in base.files]
        self.kinds = {name: kind for _, reader in self.readers for name, kind in reader.kinds_of_errors.items()}
        self.texts = {item.name: item.texts for _, reader in self.readers for item in reader.declarations if item.kind in self.kinds.values()}
        self.formulas: dict[int, tuple[Read, int | None, set[int]]] = {}
        self.checks: list[tuple[Read, int, str, str]] = []
        for file, reader in self.readers:
            self.add_cells(file, reader)
        for file, reader in self.readers:
            for found in reader.placed_formulas:
                if base.application in found.item.applications and not found.item.is_chained:
                    self.add_formula(file.name, reader, found)
            self.add_checks(file.name, reader)
        self.order = ordered({cell: reads for cell, (_, _, reads) in self.formulas.items()})

    def add_cells(self, file: source.RuleFile, reader: placed.PlacedReader) -> None:
        """The points of the cells of tables, at their declarations."""
        for item in reader.declarations:
            for k in range(item.size or 0):
                point = Point(CELL, f"{item.name}[{k}]", file.name, item.byte, item.byte + len(item.name), "coverage.cell")
                self.cell_points[self.cells.number(item.name, k)] = self.points.add(point)

    def add_formula(self, path: str, reader: placed.PlacedReader, found: placed.Placed) -> None:
        item: Formula = found.item
        for letters in loops.instances(item.loops, ["".join(letter for header in item.loops for letter, _ in header)]):
            name = loops.replaced(item.target, letters)
            slots = range(self.cells.sizes[name]) if item.slot == "X" else [None if item.slot is None else int(item.slot)]
            for slot in slots:
                number, spelled = self.cells.number(name, slot), name if slot is None else f"{name}[{slot}]"
                if number in self.formulas:
                    continue
                owner = Owner(spelled, path, reader.parts, slot, {}, set())
                # (a cell counts where it is read, so its formula is no point of its own)
                point = self.points.add(Point(FORMULA, name, path, *found.span, "coverage.formula")) if slot is None else None
                self.formulas[number] = self.terms.of(item.term, letters, owner), point, owner.reads

    def add_checks(self, path: str, reader: placed.PlacedReader) -> None:
        for found in reader.placed_checks:
            if self.application not in found.item.applications:
                continue
            name = found.rule if found.number == 1 else f"{found.rule} si {found.number}"
            point = self.points.add(Point(VERIFICATION, name, path, *found.span, "coverage.verification"))
            owner = Owner(f"verif {name}", path, reader.parts, None, {}, set())
            self.checks.append((self.terms.of(found.item.condition, {}, owner), point, found.rule, found.item.error))

    def call(self, values: list[Value], notes: list[str]) -> list[Value]:
        """The values after a call of the rules; the notes of its verifications are added. Formulas whose value is never other than 0 aren't reached."""
        values, hits = list(values), self.points.hits
        for cell in self.order:
            read, point, reads = self.formulas[cell]
            value = values[cell] = read(values)
            if point is not None and (value or not reads):
                hits[point] += 1
        for read, point, number, error in self.checks:
            told = read(values)
            if told is OVER:
                raise Stopped(f"over verification {number} {error}")
            if told:
                hits[point] += 1
                if self.kinds[error] == "anomalie":
                    raise Stopped(f"failed {number} {error} anomalie")
                notes.append(f"{number} {error}")
        return values


def ordered(reads: dict[int, set[int]]) -> list[int]:
    """The formulas, each after those that it reads; the program has rejected cycles."""
    order: list[int] = []
    seen: set[int] = set()
    for root in reads:
        waiting = [(root, iter(sorted(reads[root])))] if root not in seen else []
        seen.add(root)
        while waiting:
            cell, rest = waiting[-1]
            below = next((other for other in rest if other in reads and other not in seen), None)
            if below is None:
                order.append(cell)
                waiting.pop()
            else:
                seen.add(below)
                waiting.append((below, iter(sorted(reads[below]))))
    return order
