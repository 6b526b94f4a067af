"""Sums of codes, values and numbers, as `1AJ + 1BJ - TOTAL` or `1AJ - 0.5 * TOTAL`, computed exactly in millionths."""
from __future__ import annotations

import math
import re
from fractions import Fraction
from typing import Callable, Union

from .answers import OVER, Over, Value
from .errors import Refused

UNIT = 1_000_000
Amount = Union[Fraction, None, Over]
"""A number of millionths, None where it is undefined, or OVER."""

TOKEN = re.compile(r"\s*(?:(?P<number>[0-9]+(?:\.[0-9]+)?)(?![0-9A-Za-z_\[.])|(?P<name>[0-9A-Za-z_]+(?:\[[0-9]+\])?)|(?P<sign>[-+*]))")


class Expression:
    """A sum of terms; each is a name, a number, or a number times a name. `names` has the names in order, each once, `single` the name where the sum is one
    value or code alone. Of whole millionths the sum is a whole number of parts, of which a millionth has `scale`."""

    def __init__(self, text: str):
        self.text = text
        self.constant, self.terms = Fraction(0), dict[str, Fraction]()
        tokens = list(self._tokens())
        at = 0
        while at < len(tokens):
            sign, at = self._sign(tokens, at, at == 0)
            factor, name, at = self._term(tokens, at)
            if name is None:
                self.constant += sign * factor * UNIT
            else:
                self.terms[name] = self.terms.get(name, Fraction(0)) + sign * factor
        if not self.terms:
            raise Refused(f"expression {text!r}: it has no code and no value")
        self.names = list(self.terms)
        self.single = self.names[0] if not self.constant and list(self.terms.values()) == [1] else None
        self.scale = math.lcm(*(number.denominator for number in (self.constant, *self.terms.values())))

    def __repr__(self) -> str:
        return f"Expression({self.text!r})"

    def value(self, amount_of: Callable[[str], Amount]) -> Amount:
        """Its value where each name has this amount: undefined where one is undefined, else over where one is over."""
        if self.single is not None:
            return amount_of(self.single)
        sum_, is_over = self.constant, False
        for name, factor in self.terms.items():
            amount = amount_of(name)
            if amount is None:
                return None
            if isinstance(amount, Over):
                is_over = True
            else:
                sum_ += factor * amount
        return OVER if is_over else sum_

    def _tokens(self) -> list[tuple[str, str]]:
        found, at = [], 0
        text = self.text.rstrip()
        while at < len(text):
            match = TOKEN.match(text, at)
            if match is None:
                raise Refused(f"expression {self.text!r}: byte {at}: a name, a number, + - or * stands here, and not {text[at:at + 10]!r}")
            found.append((str(match.lastgroup), match[match.lastgroup or 0]))
            at = match.end()
        return found

    def _sign(self, tokens: list[tuple[str, str]], at: int, is_first: bool) -> tuple[int, int]:
        """The sign before a term, which only the first may lack."""
        kind, text = tokens[at]
        if kind == "sign" and text in "+-":
            return (1 if text == "+" else -1), at + 1
        if is_first:
            return 1, at
        raise Refused(f"expression {self.text!r}: + or - stands between two terms, and not {text!r}")

    def _term(self, tokens: list[tuple[str, str]], at: int) -> tuple[Fraction, str | None, int]:
        """A term: its factor, its name if it has one, and the place after it."""
        factor, name = Fraction(1), None
        while True:
            if at == len(tokens) or tokens[at][0] == "sign":
                raise Refused(f"expression {self.text!r}: a name or a number is missing")
            kind, text = tokens[at]
            if kind == "number":
                factor *= Fraction(text)
            elif name is None:
                name = text
            else:
                raise Refused(f"expression {self.text!r}: {name} times {text} is no sum")
            at += 1
            if at == len(tokens) or tokens[at] != ("sign", "*"):
                return factor, name, at
            at += 1


def millionths(value: Value) -> Amount:
    """A value of an answer in millionths."""
    return value if value is None or isinstance(value, Over) else Fraction(int(value.scaleb(6)))
