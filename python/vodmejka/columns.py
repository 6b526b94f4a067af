"""Columns of amounts: texts as whole numbers of millionths, and these as texts. Amounts recur in a table, so both are looked up in tables of a bounded size."""
from __future__ import annotations

import itertools
import operator
from decimal import ROUND_HALF_UP, Decimal
from typing import Callable, Mapping, Sequence

from . import amounts
from .amounts import UNIT
from .expressions import Expression
from .limits import AMOUNT

MOST = 100_000
SHORT = 13
OVER = "over"
MILLIONTH = Decimal(1).scaleb(-6)
Reasons = dict[int, str]
"""By the place of a household why it has no amount: `stopped`, `undefined` or `over`."""


class Micros(dict[str, int]):
    """Amounts in millionths by their texts, of at most six decimals; `Failed` for another text."""

    def __missing__(self, text: str) -> int:
        if len(self) > MOST:
            self.clear()
        made = self[text] = self.read(text)
        return made

    def read(self, text: str) -> int:
        if len(text) <= SHORT and text.isdecimal() and text.isascii():
            return int(text) * UNIT
        return amounts.amount(text)


class Inputs(Micros):
    """Amounts of inputs in millionths by their texts, which the program has accepted: an empty text is 0, and more decimals are rounded, halves away from 0."""

    def read(self, text: str) -> int:
        if len(text.partition(".")[2]) > 6:
            return int(Decimal(text).quantize(MILLIONTH, ROUND_HALF_UP).scaleb(6))
        return super().read(text) if text else 0


class Plain(dict[int, str]):
    """Texts of amounts by their millionths."""

    def __missing__(self, amount: int) -> str:
        if len(self) > MOST:
            self.clear()
        made = self[amount] = amounts.plain(amount)
        return made


MICROS, INPUTS, PLAIN = Micros(), Inputs(), Plain()


def whole(texts: Sequence[str]) -> list[int] | None:
    """Amounts without decimals in millionths; None where one has decimals or is none."""
    digits = "".join(texts).replace("-", "")
    if not digits.isdecimal() or not digits.isascii():
        return None
    try:
        numbers = list(map(int, texts))
    except ValueError:  # (empty, or a sign within)
        return None
    return [number * UNIT for number in numbers] if -AMOUNT <= min(numbers) and max(numbers) <= AMOUNT else None


def numbers(texts: Sequence[str]) -> list[int]:
    """Amounts in millionths; `Failed` where one is none."""
    made = whole(texts)
    return list(map(MICROS.__getitem__, texts)) if made is None else made


def values(texts: Sequence[str]) -> tuple[list[int], Reasons]:
    """Values as the program prints them, in millionths; those that are undefined or over are 0, with the reason."""
    made = whole(texts)
    if made is not None:
        return made, {}
    if "" not in texts and OVER not in texts:
        return list(map(MICROS.__getitem__, texts)), {}
    reasons = {at: text or "undefined" for at, text in enumerate(texts) if text in ("", OVER)}
    return [0 if text in ("", OVER) else MICROS[text] for text in texts], reasons


def inputs(texts: Sequence[str]) -> tuple[list[int], Reasons]:
    """Amounts of an input in millionths; an empty cell is 0."""
    made = whole(texts)
    return list(map(INPUTS.__getitem__, texts)) if made is None else made, {}


def sums(expression: Expression, count: int, column: Callable[[str], tuple[list[int], Reasons]]) -> tuple[list[int], Reasons]:
    """A sum for each of so many households, in parts of a millionth; undefined where one of its values is, else over where one is."""
    constant = int(expression.constant * expression.scale)
    terms = [(int(factor * expression.scale), *column(name)) for name, factor in expression.terms.items()]
    if len(terms) == 1 and (constant, terms[0][0]) == (0, 1):
        return terms[0][1], terms[0][2]
    made = [constant] * count
    reasons: Reasons = {}
    for factor, numbers, found in terms:
        made = list(map(operator.add, made, map(operator.mul, itertools.repeat(factor), numbers)))
        reasons.update((at, why) for at, why in found.items() if reasons.get(at) != "undefined")
    return made, reasons


def without(numbers: list[int], places: Mapping[int, str]) -> list[int]:
    """Numbers with 0 in these places."""
    if places:
        numbers = numbers.copy()
        for at in places:
            numbers[at] = 0
    return numbers
