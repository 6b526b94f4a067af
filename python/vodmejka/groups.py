"""Sums of some households of a comparison in whole numbers, and the Gini coefficient."""
from __future__ import annotations

import itertools
import operator
from dataclasses import dataclass
from fractions import Fraction
from typing import Any, Iterable, Mapping, Sequence

from .expressions import UNIT
from .sweeps import exact

POSITIVE, NEGATIVE = (0).__lt__, (0).__gt__


@dataclass
class Rows:
    """Households as columns: weights in millionths, amounts before and after in millionths or parts of these, and by its place why a household has no amount:
    `stopped`, `undefined` or `over`. Its amounts are 0."""

    weights: Sequence[int]
    befores: Sequence[int]
    afters: Sequence[int]
    reasons: Mapping[int, str]

    def chosen(self, places: Sequence[int]) -> Rows:
        """The households at these places."""
        weights, befores, afters = (list(map(column.__getitem__, places)) for column in (self.weights, self.befores, self.afters))
        reasons = {at: self.reasons[place] for at, place in enumerate(places) if place in self.reasons} if self.reasons else {}
        return Rows(weights, befores, afters, reasons)

    def cut(self, begin: int, end: int) -> Rows:
        """The households from one place up to another."""
        weights, befores, afters = (column[begin:end] for column in (self.weights, self.befores, self.afters))
        return Rows(weights, befores, afters, {at - begin: why for at, why in self.reasons.items() if begin <= at < end})

    def numbered(self) -> Rows:
        """The households that have amounts."""
        if not self.reasons:
            return self
        are_numbers = [at not in self.reasons for at in range(len(self.weights))]
        weights, befores, afters = (list(itertools.compress(column, are_numbers)) for column in (self.weights, self.befores, self.afters))
        return Rows(weights, befores, afters, {})


class Group:
    """Sums of some households. Weights, winners and losers are in millionths; `before` and `after` are sums of amounts times weights, in millionths.

    Households that are stopped, or whose amounts are undefined or over, are counted apart, and in no sum. Amounts are added in parts of a millionth, of which
    one has `scale`.
    """

    def __init__(self, name: str, sign: int, scale: int = 1, rows: Rows | None = None):
        self.name, self.sign, self.scale = name, sign, scale
        self.households = self.weight = self.apart_weight = 0
        self.stopped = self.undefined = self.over = 0
        self.winners = self.losers = self.unchanged = 0
        self._sums = [0, 0, 0, 0]
        if rows is not None:
            self.add(rows)

    @property
    def before(self) -> Fraction:
        return self._sum(0)

    @property
    def after(self) -> Fraction:
        return self._sum(1)

    @property
    def gained(self) -> Fraction:
        """What winners gain, in millionths; `lost` is what losers lose."""
        return self._sum(2)

    @property
    def lost(self) -> Fraction:
        return self._sum(3)

    @property
    def mean_gain(self) -> Fraction:
        """The mean gain of a household, in whole units; 0 where there is none."""
        return (self.after - self.before) * self.sign / (self.weight or 1)

    @property
    def apart(self) -> int:
        """How many households are in no sum."""
        return self.stopped + self.undefined + self.over

    def add(self, rows: Rows) -> None:
        """Adds households."""
        self.households += len(rows.weights)
        for at, why in rows.reasons.items():
            setattr(self, why, getattr(self, why) + 1)
            self.apart_weight += rows.weights[at]
        numbered = rows.numbered()
        weights = numbered.weights
        changes = list(map(operator.sub, numbered.afters, numbered.befores))
        products = list(map(operator.mul, weights, changes))
        whole, before, change = sum(weights), sum(map(operator.mul, weights, numbered.befores)), sum(products)
        rise = sum(filter(POSITIVE, products))
        more, less = (sum(itertools.compress(weights, map(is_so, changes))) for is_so in (POSITIVE, NEGATIVE))
        winners, losers, gained, lost = (more, less, rise, rise - change) if self.sign > 0 else (less, more, rise - change, rise)
        self._count(whole, winners, losers, whole - winners - losers, (before, before + change, gained, lost))

    def merge(self, other: Group) -> None:
        """Adds the households of another group."""
        self.households += other.households
        self.apart_weight += other.apart_weight
        for why in ("stopped", "undefined", "over"):
            setattr(self, why, getattr(self, why) + getattr(other, why))
        self._count(other.weight, other.winners, other.losers, other.unchanged, other._sums)

    def _count(self, weight: int, winners: int, losers: int, unchanged: int, sums: Sequence[int]) -> None:
        self.weight += weight
        self.winners += winners
        self.losers += losers
        self.unchanged += unchanged
        self._sums = [first + second for first, second in zip(self._sums, sums)]

    def _sum(self, at: int) -> Fraction:
        return Fraction(self._sums[at]) / (UNIT * self.scale)


def by_label(name: str, texts: Iterable[str], rows: Rows, sign: int, scale: int) -> dict[str, Group]:
    """The groups of households that have the same text in a column of this name, in the order in which these occur first."""
    places: dict[str, list[int]] = {}
    for at, text in enumerate(texts):
        places.setdefault(text, []).append(at)
    return {f"{name} {text}": Group(f"{name} {text}", sign, scale, rows.chosen(found)) for text, found in places.items()}


def merge_into(groups: dict[str, Group], more: Mapping[str, Group]) -> None:
    """Adds groups to those of the same names."""
    for label, group in more.items():
        if label in groups:
            groups[label].merge(group)
        else:
            groups[label] = group


def merged(name: str, sign: int, scale: int, groups: Iterable[Group]) -> Group:
    """The households of several groups as one."""
    made = Group(name, sign, scale)
    for group in groups:
        made.merge(group)
    return made


def group_line(group: Group) -> dict[str, Any]:
    """The figures of a group by the names of the table's columns. A mean or a share of nothing is None."""
    change = group.after - group.before
    mean = None if not group.weight else exact(change * UNIT / group.weight)
    relative = None if not group.before else float(change / group.before)
    return {
        "group": group.name, "households": group.households, "weight": exact(Fraction(group.weight)),
        "before": exact(group.before), "after": exact(group.after), "change": exact(change), "mean change": mean, "relative change": relative,
        "winners": exact(Fraction(group.winners)), "losers": exact(Fraction(group.losers)), "unchanged": exact(Fraction(group.unchanged)),
        "gained": exact(group.gained), "lost": exact(group.lost), "stopped": group.stopped, "undefined": group.undefined, "over": group.over,
    }


def gini_of(weights: Sequence[int], amounts: Sequence[int]) -> Fraction | None:
    """The Gini coefficient of amounts with weights: one less twice the area under the Lorenz curve. None where the amounts have no sum above 0."""
    order = sorted(range(len(amounts)), key=amounts.__getitem__)
    ordered = list(map(weights.__getitem__, order))
    below = [0, *itertools.accumulate(map(operator.mul, ordered, map(amounts.__getitem__, order)))]
    if below[-1] <= 0:
        return None
    area = sum(map(operator.mul, ordered, map(operator.add, below, below[1:])))
    return 1 - Fraction(area, sum(weights) * below[-1])
