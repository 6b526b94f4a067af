"""Amounts, the three kinds of value, and the operators.

An amount is a whole number of millionths. A value is an amount, `UNDEFINED` or `OVER`.
"""

import re

from .texts import decimal

UNIT = 1_000_000
GREATEST = 10_000_000_000_000 * UNIT
UNDEFINED = None
OVER = "over"

SPELLED = re.compile(rb"(-?)([0-9]+)(?:\.([0-9]+))?")


def read_amount(text):
    """The amount that a text spells, rounded at the sixth decimal, halves away from zero; `OVER` where it is too great,
    and `UNDEFINED` where the text is no amount."""
    match = SPELLED.fullmatch(text)
    if match is None:
        return UNDEFINED
    sign, whole, decimals = match.groups()
    whole = whole.lstrip(b"0")
    if len(whole) > 14:
        return OVER
    decimals = decimals or b""
    millionths = int(whole or b"0") * UNIT + int((decimals + b"000000")[:6])
    if decimals[6:7] >= b"5":
        millionths += 1
    return bounded(-millionths if sign else millionths)


def print_amount(amount):
    """The one form in which an amount is printed."""
    whole, decimals = divmod(abs(amount), UNIT)
    text = decimal(whole)
    if decimals:
        text += b"." + (b"%06d" % decimals).rstrip(b"0")
    return b"-" + text if amount < 0 else text


def bounded(number):
    """A number of millionths as a value: over where it is beyond the greatest amount."""
    return number if -GREATEST <= number <= GREATEST else OVER


def rounded(number, divisor):
    """The nearest whole number to a quotient, of two equally near the one farther from zero."""
    nearest = (2 * abs(number) + abs(divisor)) // (2 * abs(divisor))
    return nearest if (number < 0) == (divisor < 0) else -nearest


def cut(amount):
    """The whole units of an amount, cut toward zero."""
    return amount // UNIT if amount >= 0 else -(-amount // UNIT)


def truth(holds):
    """1 for a truth, and else 0."""
    return UNIT if holds else 0


def arr(amount):
    """Whole units: the amount is moved by 0.50005 away from zero, then cut."""
    return cut(amount + 500_050 if amount >= 0 else amount - 500_050) * UNIT


OPERATIONS = {
    "add": lambda a, b: a + b,
    "sub": lambda a, b: a - b,
    "mul": lambda a, b: rounded(a * b, UNIT),
    "div": lambda a, b: rounded(a * UNIT, b) if b != 0 else 0,
    "neg": lambda a: -a,
    "eq": lambda a, b: truth(a == b),
    "ne": lambda a, b: truth(a != b),
    "lt": lambda a, b: truth(a < b),
    "le": lambda a, b: truth(a <= b),
    "gt": lambda a, b: truth(a > b),
    "ge": lambda a, b: truth(a >= b),
    "and": lambda a, b: truth(a != 0 and b != 0),
    "or": lambda a, b: truth(a != 0 or b != 0),
    "not": lambda a: truth(a == 0),
    "present": lambda a: UNIT,
    "abs": abs,
    "positif": lambda a: truth(a > 0),
    "positif_ou_nul": lambda a: truth(a >= 0),
    "null": lambda a: truth(a == 0),
    "arr": arr,
    "inf": lambda a: (a + 1) // UNIT * UNIT,
    "max": max,
    "min": min,
    "at": lambda a, b: truth(cut(a) == cut(b)),
}
ONE_UNDEFINED_IS_ZERO = {"add", "sub", "or", "max", "min"}


def operate(operator, arguments):
    """What an operator gives for its arguments."""
    if operator == "choose":
        return chosen(*arguments)
    if operator == "truth":
        return truth(arguments[0] not in (UNDEFINED, OVER, 0))
    if OVER in arguments:
        return OVER
    if UNDEFINED in arguments:
        if operator == "present":
            return 0
        if operator not in ONE_UNDEFINED_IS_ZERO or arguments.count(UNDEFINED) == len(arguments):
            return UNDEFINED
        arguments = [0 if argument is UNDEFINED else argument for argument in arguments]
    return bounded(OPERATIONS[operator](*arguments))


def chosen(condition, first, second):
    """The branch that a condition takes: the first where it is a number other than 0, the second where it is 0."""
    if condition is UNDEFINED or condition is OVER:
        return condition
    return second if condition == 0 else first
