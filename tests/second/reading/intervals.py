"""Which values an operator may give, where it is known which its arguments may have.

A fact states whether a value may be undefined, whether it may be over, and between which numbers it is.
"""

import functools
from typing import NamedTuple, Optional, Tuple

from .amounts import GREATEST, OVER, UNDEFINED, UNIT, arr, cut, rounded, truth


class Fact(NamedTuple):
    """Which values are possible: undefined, over, and the numbers from the least to the greatest."""

    undefined: bool
    over: bool
    numbers: Optional[Tuple[int, int]]


UNDEFINED_ALONE = Fact(True, False, None)
OVER_ALONE = Fact(False, True, None)


def fact_of_value(value):
    """The fact of one value."""
    if value is UNDEFINED:
        return UNDEFINED_ALONE
    return OVER_ALONE if value is OVER else Fact(False, False, (value, value))


def is_one_value(fact):
    """Whether one value alone is possible."""
    if fact.numbers is None:
        return fact.undefined != fact.over
    return not fact.undefined and not fact.over and fact.numbers[0] == fact.numbers[1]


def holds(fact, value):
    """Whether a value is possible."""
    if value is UNDEFINED:
        return fact.undefined
    if value is OVER:
        return fact.over
    return fact.numbers is not None and fact.numbers[0] <= value <= fact.numbers[1]


def lies_within(fact, other):
    """Whether each value of a fact is one of another."""
    if (fact.undefined and not other.undefined) or (fact.over and not other.over):
        return False
    return fact.numbers is None or (
        other.numbers is not None and other.numbers[0] <= fact.numbers[0] and fact.numbers[1] <= other.numbers[1]
    )


# ---- operators


def hull(one, other):
    """The least interval round two, where they are there."""
    if one is None or other is None:
        return one or other
    return min(one[0], other[0]), max(one[1], other[1])


def tests(passes, fails):
    """The numbers of a test that may pass and may fail."""
    return truth(not fails), truth(passes)


def has_zero(numbers):
    """Whether 0 is among the numbers."""
    return numbers is not None and numbers[0] <= 0 <= numbers[1]


def has_other(numbers):
    """Whether a number other than 0 is among them."""
    return numbers is not None and (numbers[0] < 0 or numbers[1] > 0)


def compared(operator, a, b):
    """A comparison of two numbers of intervals."""
    less, more = a[0] < b[1], b[0] < a[1]
    at_most, at_least = a[0] <= b[1], b[0] <= a[1]
    equal, differ = at_most and at_least, less or more
    return tests(*{
        "eq": (equal, differ), "ne": (differ, equal), "lt": (less, at_least),
        "le": (at_most, more), "gt": (more, at_most), "ge": (at_least, less),
    }[operator])


def quotients(a, b):
    """Quotients: one by 0 is 0, and one by a divisor of a millionth is the greatest."""
    if has_zero(b):
        most = max(-a[0], a[1]) * UNIT
        return (-most, most) if has_other(b) else (0, 0)
    ends = [rounded(x * UNIT, y) for x in a for y in b]
    return min(ends), max(ends)


def products(a, b):
    """Products: the least and the greatest are of ends."""
    ends = [rounded(x * y, UNIT) for x in a for y in b]
    return min(ends), max(ends)


def cut_ends(numbers):
    """The ends of numbers, cut to whole units."""
    return tuple(cut(end) * UNIT for end in numbers)


# The numbers that an operator may give of numbers of one interval (the second doesn't count), or of two.
RESULTS = {
    "add": lambda a, b: (a[0] + b[0], a[1] + b[1]),
    "sub": lambda a, b: (a[0] - b[1], a[1] - b[0]),
    "mul": products,
    "div": quotients,
    "neg": lambda a, _: (-a[1], -a[0]),
    **{operator: functools.partial(compared, operator) for operator in ("eq", "ne", "lt", "le", "gt", "ge")},
    "and": lambda a, b: tests(has_other(a) and has_other(b), has_zero(a) or has_zero(b)),
    "or": lambda a, b: tests(has_other(a) or has_other(b), has_zero(a) and has_zero(b)),
    "not": lambda a, _: tests(has_zero(a), has_other(a)),
    "null": lambda a, _: tests(has_zero(a), has_other(a)),
    "abs": lambda a, _: (max(a[0], -a[1], 0), max(-a[0], a[1])),
    "positif": lambda a, _: tests(a[1] > 0, a[0] <= 0),
    "positif_ou_nul": lambda a, _: tests(a[1] >= 0, a[0] < 0),
    "arr": lambda a, _: (arr(a[0]), arr(a[1])),
    "inf": lambda a, _: tuple((end + 1) // UNIT * UNIT for end in a),
    "max": lambda a, b: (max(a[0], b[0]), max(a[1], b[1])),
    "min": lambda a, b: (min(a[0], b[0]), min(a[1], b[1])),
    "at": lambda a, b: compared("eq", cut_ends(a), cut_ends(b)),
}


def bounded(undefined, over, numbers):
    """Numbers as values: what is beyond the amounts is over."""
    over = over or numbers[0] < -GREATEST or numbers[1] > GREATEST
    if numbers[1] < -GREATEST or numbers[0] > GREATEST:
        return Fact(undefined, over, None)
    return Fact(undefined, over, (max(numbers[0], -GREATEST), min(numbers[1], GREATEST)))


def of_numbers(operator, undefined, over, a, b):
    """What an operator gives of numbers of two intervals, apart from undefined and over."""
    result = RESULTS[operator]
    if a is None or b is None:
        return Fact(undefined, over, None)
    return bounded(undefined, over, result(a, b))


def of_one(operator, a):
    """What an operator of one argument gives."""
    if operator == "present":
        numbers = (0, 0) if a.numbers is None else tests(True, a.undefined)
        return Fact(False, a.over, numbers)
    return of_numbers(operator, a.undefined, a.over, a.numbers, (0, 0))


def of_two(operator, a, b):
    """What an operator of two arguments gives; for some of them undefined counts as 0 if the other is a number."""
    over = a.over or b.over
    if operator not in ("add", "sub", "or", "max", "min"):
        return of_numbers(operator, a.undefined or b.undefined, over, a.numbers, b.numbers)
    if a.numbers is None and b.numbers is None:
        return Fact(a.undefined and b.undefined, over, None)
    widened = [hull((0, 0), fact.numbers) if fact.undefined else fact.numbers for fact in (a, b)]
    return of_numbers(operator, a.undefined and b.undefined, over, *widened)


def either(a, b):
    """The values of either."""
    return Fact(a.undefined or b.undefined, a.over or b.over, hull(a.numbers, b.numbers))


def truth_fact(a):
    """Whether a value is a number other than 0."""
    return Fact(False, False, tests(has_other(a.numbers), a.undefined or a.over or has_zero(a.numbers)))


def choice(condition, first, second):
    """A choice: the first where the condition may be a number other than 0, the second where it may be 0."""
    taken = [branch for branch, may in ((first, has_other(condition.numbers)), (second, has_zero(condition.numbers))) if may]
    under = Fact(condition.undefined, condition.over, None)
    for branch in taken:
        under = either(under, branch)
    return under
