"""What a change of rules does to a part of a table of households: the sums of the part, and a line for each household, column by column."""
from __future__ import annotations

import bisect
import collections
import functools
import itertools
import operator
from dataclasses import dataclass, field
from typing import Iterable, Mapping, Sequence

from . import records
from .amounts import UNIT, rounded
from .answers import LABEL
from .columns import INPUTS, MICROS, PLAIN, Reasons, inputs, numbers, sums, values, without
from .errors import Failed, Refused
from .expressions import Expression
from .groups import Group, Rows, by_label, merged
from .long_tables import Part, columns_of, is_plain, joined, shown
from .program import ENCODING
from .surveys import Survey, in_table, values_of
from .tenths import OrderedPart, ordered_part

GAINS = (50, 100, 200, 500, 1000)
"""Edges of the classes of gains, in whole units: a gain of 0 is in the class 6 of 13, of less than the first edge in 7, of the last or more in 12."""
RATES = (0, 5, 10, 15, 20, 25, 30, 35, 40, 45, 50, 60, 80, 100)
"""Edges of the classes of marginal rates, in per cent: below the first is the class 0."""
FORMULAS = frozenset("=+-@\t\r")
FIRST_LETTER = operator.itemgetter(slice(1))
Column = tuple[list[int], Reasons]
Values = dict[str, list[str]]


@dataclass
class Step:
    """So many millionths more of a code, for marginal rates."""

    code: str
    amount: int


@dataclass
class Request:
    """What is computed of a table: the sum that is compared, and the columns of the table by their numbers: the weight, the groups, and the numbers that order
    households into tenths (None for a requested value)."""

    of: Expression
    sign: int
    weight: int | None
    groups: list[tuple[str, int]]
    tenths: list[tuple[str, int | None]]
    step: Step | None
    with_inputs: bool


@dataclass
class Side:
    """The rules before or after: the program by them, the names of the values that it prints, and the columns of the table that are their codes."""

    survey: Survey
    names: list[str]
    columns: list[int]
    head: str


@dataclass
class Outcome:
    """The results of a part, or of all: the lines of the households, the sums, the weight of each class of gains, and of each class of marginal rates before
    and after, and for each number that orders households those that have it, in order, and the group of the others."""

    whole: Group
    groups: list[dict[str, Group]]
    lines: bytes = b""
    gains: list[int] = field(default_factory=lambda: [0] * (2 * len(GAINS) + 3))
    rates: list[list[int]] = field(default_factory=lambda: [[0] * (len(RATES) + 1) for _ in range(2)])
    ordered: list[tuple[OrderedPart, Group]] = field(default_factory=list)


class Comparer:
    """Compares the parts of a table. It is pickled for the workers."""

    def __init__(self, path: str, head: Sequence[str], sides: Sequence[Side], request: Request):
        self.path, self.head, self.sides, self.request = path, list(head), list(sides), request
        self.scale, self.gain_edges = request.of.scale, signed_edges(UNIT * request.of.scale)

    def empty(self, name: str) -> Group:
        """A group without households."""
        return Group(name, self.request.sign, self.scale)

    def outcome(self, part: Part) -> Outcome:
        """The results of a part."""
        table, request = columns_of(part.text, part.rows, self.head, self.path), self.request
        answers = self.answers(table, part)
        stepped = self.with_step(table, request.step)
        more = self.answers(stepped, part) if request.step else []
        before, after = (self.sum_of(answer, table) for answer in answers)
        reasons = {**after[1], **before[1]}
        rows = Rows(self.weights(table, part.rows), without(before[0], reasons), without(after[0], reasons), reasons)
        keys = [self.keys(name, at, table, answers[0]) for name, at in request.tenths]
        made = self.summed(table, rows)
        made.ordered = [ordered(name, column, rows, made.whole) for (name, _), column in zip(request.tenths, keys)]
        count(made.gains, self.gain_edges, map(operator.mul, itertools.repeat(request.sign), differences(rows.befores, rows.afters)), rows.weights, reasons)
        later = [self.sum_of(answer, stepped) for answer in more]
        for counts, first, second in zip(made.rates, (rows.befores, rows.afters), later):
            count(counts, self.rate_edges(), differences(first, second[0]), rows.weights, {**reasons, **second[1]})
        made.lines = self.lines(table, rows, keys[0] if keys else None, self.texts_of(answers, rows), later, is_plain(part.text))
        return made

    # ---- what the program computes

    def answers(self, table: Sequence[Sequence[str]], part: Part) -> list[Values]:
        """The values before and after the change. The table is written once where both have the same codes."""
        tables: dict[str, bytes] = {}
        found = []
        for side in self.sides:
            if side.head not in tables:
                tables[side.head] = side.head.encode(ENCODING) + joined([[LABEL] * part.rows, *(table[at] for at in side.columns)], is_plain(part.text))
            try:
                printed = side.survey.printed(tables[side.head])
            except Refused as refused:
                raise in_table(refused, part.before) from None
            found.append(values_of(printed, side.names, part.rows))
        return found

    def with_step(self, table: Sequence[Sequence[str]], step: Step | None) -> Sequence[Sequence[str]]:
        """The columns with so much more of one code."""
        if step is None:
            return table
        made, at = list(table), self.head.index(step.code)
        more = {text: PLAIN[INPUTS[text] + step.amount] for text in set(table[at])}
        made[at] = list(map(more.__getitem__, table[at]))
        return made

    # ---- columns

    def sum_of(self, answer: Values, table: Sequence[Sequence[str]]) -> Column:
        """The sum for each household, in parts of a millionth."""
        stops = answer["stop"]
        made, reasons = sums(self.request.of, len(stops), lambda name: self.column(name, answer, table))
        if stops.count("") < len(stops):
            reasons = {**reasons, **{at: "stopped" for at, stop in enumerate(stops) if stop}}
        return made, reasons

    def column(self, name: str, answer: Values, table: Sequence[Sequence[str]]) -> Column:
        """The amounts of a value, or of a code."""
        if name in answer:
            return values(answer[name])
        return inputs(table[self.head.index(name)]) if name in self.head else ([0] * len(answer["stop"]), {})

    def weights(self, table: Sequence[Sequence[str]], count: int) -> list[int]:
        """The weights in millionths."""
        if self.request.weight is None:
            return [UNIT] * count
        weights = self.numbers(table, self.request.weight, "the weight")
        if weights and min(weights) < 0:
            label = next(label for label, weight in zip(table[0], weights) if weight < 0)
            raise Refused(f"{self.path}: the weight of {shown(label)} is below 0")
        return weights

    def numbers(self, table: Sequence[Sequence[str]], at: int, what: str) -> list[int]:
        """The millionths of a column."""
        try:
            return numbers(table[at])
        except Failed:
            return [self.number(label, text, what) for label, text in zip(table[0], table[at])]

    def number(self, label: str, text: str, what: str) -> int:
        """The millionths of a field."""
        try:
            return MICROS[text]
        except Failed as fault:
            raise Refused(f"{self.path}: {what} of {shown(label)}: {fault}") from None

    def keys(self, name: str, at: int | None, table: Sequence[Sequence[str]], answer: Values) -> list[int | None]:
        """The numbers that order households, of a column or a value before the change; None where there is none."""
        if at is None:
            return keys_of(*values(answer[name]))
        if "" in table[at]:
            return [self.number(label, text, "what orders") if text else None for label, text in zip(table[0], table[at])]
        return [*self.numbers(table, at, "what orders")]

    # ---- sums

    def summed(self, table: Sequence[Sequence[str]], rows: Rows) -> Outcome:
        """The sums of all households, and of each group."""
        sign = self.request.sign
        groups = [by_label(name, table[at], rows, sign, self.scale) for name, at in self.request.groups]
        whole = merged("all", sign, self.scale, groups[0].values()) if groups else Group("all", sign, self.scale, rows)
        return Outcome(whole, groups)

    def rate_edges(self) -> list[int]:
        """The edges of the classes of marginal rates, for differences in parts of a millionth."""
        assert self.request.step is not None
        return [-(-edge * self.request.step.amount * self.scale // 100) for edge in RATES]

    # ---- lines

    def heads(self) -> list[str]:
        """The first line of the file of households."""
        marginal = ["marginal before", "marginal after"] if self.request.step else []
        codes = [self.head[at] for at in self.inputs()]
        return ["name", "weight", "by", "before", "after", "difference", *marginal, *(name for name, _ in self.request.groups), *codes]

    def inputs(self) -> list[int]:
        """The columns of the table that are codes, where they are requested."""
        return sorted({at for side in self.sides for at in side.columns}) if self.request.with_inputs else []

    def lines(
        self, table: Sequence[Sequence[str]], rows: Rows, keys: Sequence[int | None] | None, texts: Sequence[list[str]], later: Sequence[Column], plain: bool
    ) -> bytes:
        """The lines of households."""
        count = len(rows.weights)
        columns = [guarded(table[0]), list(map(PLAIN.__getitem__, rows.weights))]
        columns.append([""] * count if keys is None else plain_keys(keys))
        columns += [*texts, self.amounts(differences(rows.befores, rows.afters), rows.reasons)]
        for first, (second, reasons) in zip((rows.befores, rows.afters), later):
            columns.append(emptied(self.rates(differences(first, second)), rows.reasons.keys() | reasons.keys()))
        columns += [guarded(table[at]) for _, at in self.request.groups]
        return joined([*columns, *(table[at] for at in self.inputs())], plain)

    def texts_of(self, answers: Sequence[Values], rows: Rows) -> list[list[str]]:
        """The texts of the amounts before and after: those of a single value as they are printed."""
        name = self.request.of.single
        if name is not None and all(name in answer for answer in answers):
            return [emptied(answer[name], rows.reasons) for answer in answers]
        return [self.amounts(column, rows.reasons) for column in (rows.befores, rows.afters)]

    def amounts(self, numbers: Iterable[int], reasons: Iterable[int]) -> list[str]:
        """The texts of amounts in parts of a millionth; those of households without amounts are empty."""
        millionths = numbers if self.scale == 1 else map(functools.partial(rounded, parts=self.scale), numbers)
        return emptied(list(map(PLAIN.__getitem__, millionths)), reasons)

    def rates(self, changes: Iterable[int]) -> list[str]:
        """The marginal rates of changes, for each unit of the step."""
        assert self.request.step is not None
        changes, parts = list(changes), self.request.step.amount * self.scale
        known = {change: PLAIN[rounded(change * UNIT, parts)] for change in set(changes)}
        return list(map(known.__getitem__, changes))


def ordered(name: str, keys: Sequence[int | None], rows: Rows, whole: Group) -> tuple[OrderedPart, Group]:
    """The households that have a key, in order, and the group of the others."""
    without_key = [at for at, key in enumerate(keys) if key is None] if None in keys else []
    others = Group(f"no {name}", whole.sign, whole.scale, rows.chosen(without_key))
    if not without_key:
        return ordered_part([key for key in keys if key is not None], rows), others
    with_key = [at for at, key in enumerate(keys) if key is not None]
    return ordered_part([key for key in keys if key is not None], rows.chosen(with_key)), others


def differences(first: Sequence[int], second: Sequence[int]) -> Iterable[int]:
    """Each number of the second column less that of the first."""
    return map(operator.sub, second, first)


def signed_edges(unit: int) -> list[int]:
    """The edges of the classes of gains in parts of a millionth: `bisect_right` gives the class of a gain."""
    return [*(1 - edge * unit for edge in reversed(GAINS)), 0, 1, *(edge * unit for edge in GAINS)]


def count(counts: list[int], edges: Sequence[int], numbers: Iterable[int], weights: Sequence[int], left_out: Mapping[int, str]) -> None:
    """Adds the weights of households to the classes of their numbers, but for those that are left out."""
    weights = without(list(weights), left_out) if left_out else weights
    found: dict[int, int] = collections.defaultdict(int)
    for number, weight in zip(numbers, weights):
        found[number] += weight
    for number, weight in found.items():
        counts[bisect.bisect_right(edges, number)] += weight


def keys_of(numbers: list[int], missing: Reasons) -> list[int | None]:
    """The numbers that order households; None where there is none."""
    return [None if at in missing else number for at, number in enumerate(numbers)] if missing else [*numbers]


def emptied(texts: list[str], places: Iterable[int]) -> list[str]:
    """Texts of which those at these places are empty."""
    if places:
        texts = texts.copy()
        for at in places:
            texts[at] = ""
    return texts


def plain_keys(keys: Sequence[int | None]) -> list[str]:
    """The texts of numbers that order households."""
    known: dict[int | None, str] = {key: PLAIN[key] for key in set(keys) if key is not None}
    known[None] = ""
    return list(map(known.__getitem__, keys))


def guarded(texts: Sequence[str]) -> Sequence[str]:
    """Texts that a spreadsheet takes for no formula."""
    if FORMULAS.isdisjoint(map(FIRST_LETTER, texts)):
        return texts
    return [records.unlike_a_formula(text.encode(ENCODING)).decode(ENCODING) for text in texts]
