"""Which cells and branches a formula took, by the values that a run gave: docs/AMOUNTS.md says what each operator does. What this computes is compared with
the run's value; if it differs nothing is shown."""
from __future__ import annotations

import itertools
import math
from collections.abc import Mapping
from fractions import Fraction
from typing import Any, Callable

from .loops import replaced, values_of
from .texts import said

MILLION = 1_000_000
MOST = 10_000_000_000_000


class Unknown(Exception):
    """A value that passes the greatest amount, or what isn't known here."""


def rounded(value: Fraction) -> Fraction:
    """A value to the millionth, halves away from zero."""
    size = Fraction(math.floor(abs(value) * MILLION + Fraction(1, 2)), MILLION)
    return -size if value < 0 else size


def number(value: str) -> Fraction | None:
    """A value as the program prints it."""
    if value == "over":
        raise Unknown
    return Fraction(value[2:]) if value.startswith("= ") else None


def literal(text: str) -> Fraction:
    """The amount of a number of rules, of however many digits: at the seventh decimal it is decided how it is rounded."""
    whole, _, decimals = text.partition(".")
    return rounded(Fraction(f"{whole.lstrip('0') or '0'}.{decimals[:7] or '0'}"))


class Taken:
    """Evaluates a term over the values of cells, and notes the cells that indexes came to and the branches that were taken."""

    def __init__(self, values: Mapping[str, str], sizes: Mapping[str, int], letters: dict[str, str], own: int | None):
        self.values, self.sizes, self.letters, self.own = values, sizes, letters, own
        self.notes: list[str] = []

    def value(self, term: Any) -> Fraction | None:
        kind, *parts = term
        if kind == "number":
            return literal(parts[0])
        if kind == "X":
            return Fraction(self.own or 0)
        if kind == "name":
            word = replaced(parts[0], self.letters)
            return literal(word) if word.isdigit() else self.cell(word)
        if kind == "read":
            return self.read(replaced(parts[0], self.letters), parts[1])
        if kind == "sum":
            return self.summed(*parts)
        return self.operator(parts[0], parts[1])

    def cell(self, cell: str) -> Fraction | None:
        if cell not in self.values:
            raise Unknown
        return number(self.values[cell])

    def read(self, table: str, index: Any) -> Fraction | None:
        at = self.value(index)
        if at is None:
            return None
        whole = math.trunc(at)
        is_plain = index[0] == "number" or index[0] == "name" and replaced(index[1], self.letters).isdigit()
        if not is_plain and index != ("X",):
            self.notes.append(f"{table}[{whole}]")
        if at < 0:
            return Fraction(0)
        return self.cell(f"{table}[{whole}]") if whole < self.sizes.get(table, 0) else None

    def summed(self, header: Any, term: Any) -> Fraction | None:
        total: Fraction | None = None
        kept = self.letters
        names = [letter for letter, _ in header]
        for chosen in itertools.product(*(values_of(values) for _, values in header)):
            self.letters = {**kept, **dict(zip(names, chosen))}
            one = self.value(term)
            total = one if total is None else total + (one or 0)
        self.letters = kept
        return total

    def operator(self, sign: str, parts: Any) -> Fraction | None:
        if sign == "si":
            return self.chosen(parts)
        values = [self.value(part) for part in parts]
        if sign == "present":
            return Fraction(values[0] is not None)
        if sign in ("+", "-", "ou", "max", "min"):
            if values == [None, None]:
                return None
            values = [value or Fraction(0) for value in values]
        if None in values or sign not in OPERATORS:
            if sign not in OPERATORS:
                raise Unknown
            return None
        found = rounded(Fraction(OPERATORS[sign](*values)))
        if abs(found) > MOST:
            raise Unknown
        return found

    def chosen(self, parts: Any) -> Fraction | None:
        condition = self.value(parts[0])
        if condition is None:
            self.notes.append(said("why.no_branch"))
            return None
        self.notes.append("alors" if condition else "sinon")
        if condition:
            return self.value(parts[1])
        return self.value(parts[2]) if len(parts) > 2 else None


OPERATORS: dict[str, Callable[..., Any]] = {
    "+": lambda a, b: a + b, "-": lambda a, b: a - b, "*": lambda a, b: a * b, "/": lambda a, b: a / b if b else 0, "neg": lambda a: -a,
    "=": lambda a, b: a == b, "!=": lambda a, b: a != b, "<": lambda a, b: a < b, "<=": lambda a, b: a <= b, ">": lambda a, b: a > b, ">=": lambda a, b: a >= b,
    "et": lambda a, b: bool(a and b), "ou": lambda a, b: bool(a or b), "non": lambda a: not a, "abs": abs, "positif": lambda a: a > 0,
    "positif_ou_nul": lambda a: a >= 0, "null": lambda a: a == 0, "max": max, "min": min, "inf": lambda a: math.floor(a + Fraction(1, MILLION)),
    "arr": lambda a: math.trunc(a + Fraction(50005, 100000)) if a >= 0 else -math.trunc(-a + Fraction(50005, 100000)),
}


def told(formula: Any, values: Mapping[str, str], sizes: Mapping[str, int], cell: str) -> list[str]:
    """The cells and the branches that the formula of a cell took, in the order in which it is read; nothing if the result is another value."""
    taken = Taken(values, sizes, formula.letters, formula.number)
    try:
        found = taken.value(formula.formula.term)
        return list(dict.fromkeys(taken.notes)) if found == number(values[cell]) else []
    except (Unknown, RecursionError, KeyError):
        return []
