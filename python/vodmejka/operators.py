"""The operators of rules and drivers on exact amounts: docs/AMOUNTS.md as a program, by the signs of M.

A value is a whole number of millionths, None where it is undefined, or OVER. Nothing here rests on the program's own operators; tests/tools/operators.py
compares the two.
"""
from __future__ import annotations

from typing import Callable, Union

from .answers import OVER, Over
from .limits import AMOUNT

UNIT = 1_000_000
MOST = AMOUNT * UNIT
TRUE, FALSE = UNIT, 0
JUST_ABOVE_HALF = 500_050  # what `arr` moves an amount by, away from zero
Value = Union[int, None, Over]


def bounded(number: int) -> Value:
    """A number of millionths, where it isn't beyond the greatest amount."""
    return number if -MOST <= number <= MOST else OVER


def truth(is_so: bool) -> int:
    return TRUE if is_so else FALSE


def quotient(number: int, divisor: int) -> int:
    """The nearest whole number to a quotient, halves away from zero."""
    size = (2 * abs(number) + abs(divisor)) // (2 * abs(divisor))
    return -size if (number < 0) != (divisor < 0) else size


def cut(amount: int) -> int:
    """The whole units of an amount, toward zero."""
    return -(-amount // UNIT) if amount < 0 else amount // UNIT


def nearest_unit(amount: int) -> int:
    """What `arr` gives."""
    size = (abs(amount) + JUST_ABOVE_HALF) // UNIT * UNIT
    return -size if amount < 0 else size


ONE: dict[str, Callable[[int], int]] = {
    "neg": lambda a: -a,
    "non": lambda a: truth(a == 0),
    "abs": abs,
    "positif": lambda a: truth(a > 0),
    "positif_ou_nul": lambda a: truth(a >= 0),
    "null": lambda a: truth(a == 0),
    "arr": nearest_unit,
    "inf": lambda a: (a + 1) // UNIT * UNIT,
}
TWO: dict[str, Callable[[int, int], int]] = {
    "+": lambda a, b: a + b,
    "-": lambda a, b: a - b,
    "*": lambda a, b: quotient(a * b, UNIT),
    "/": lambda a, b: quotient(a * UNIT, b) if b else 0,
    "=": lambda a, b: truth(a == b),
    "!=": lambda a, b: truth(a != b),
    "<": lambda a, b: truth(a < b),
    "<=": lambda a, b: truth(a <= b),
    ">": lambda a, b: truth(a > b),
    ">=": lambda a, b: truth(a >= b),
    "et": lambda a, b: truth(a != 0 and b != 0),
    "ou": lambda a, b: truth(a != 0 or b != 0),
    "max": max,
    "min": min,
    "at": lambda a, b: truth(cut(a) == cut(b)),
}
ONE_MAY_BE_UNDEFINED = frozenset(("+", "-", "ou", "max", "min"))


def of_one(sign: str, value: Value) -> Value:
    """What an operator of one argument gives."""
    if value is OVER:
        return OVER
    if sign == "present":
        return truth(value is not None)
    return None if value is None else bounded(ONE[sign](value))  # type: ignore[arg-type]


def of_two(sign: str, left: Value, right: Value) -> Value:
    """What an operator of two arguments gives."""
    if left is OVER or right is OVER:
        return OVER
    if left is None or right is None:
        if sign not in ONE_MAY_BE_UNDEFINED or left is right:
            return None
        left, right = left or 0, right or 0
    return bounded(TWO[sign](left, right))  # type: ignore[arg-type]


def chosen(condition: Value, first: Value, second: Value) -> Value:
    """What `si` gives: the other branch doesn't count."""
    if condition is None or condition is OVER:
        return condition
    return first if condition else second


def holds(value: Value) -> bool:
    """Whether a value is a number other than 0."""
    return value is not None and value is not OVER and value != 0


def read_amount(text: str) -> int:
    """The millionths of digits, with a minus and decimals perhaps: rounded at the sixth decimal, halves away from zero."""
    digits = text.removeprefix("-")
    whole, _, decimals = digits.partition(".")
    size = quotient(int(whole + decimals) * UNIT, 10 ** len(decimals))
    return -size if text.startswith("-") else size


def spelled(value: Value) -> str:
    """A value as the program prints it after a name and a blank."""
    if value is None or value is OVER:
        return "undefined" if value is None else "over"
    whole, rest = divmod(abs(value), UNIT)  # type: ignore[arg-type]
    return ("-" if value < 0 else "") + f"{whole}.{rest:06}".rstrip("0").rstrip(".")  # type: ignore[operator]
