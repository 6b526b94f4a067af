"""A household as the boxes of its forms, the law as far as examples/reform2023 changes it, and how amounts are rounded."""
from dataclasses import dataclass, field
from fractions import Fraction
from functools import cache
from math import floor


@dataclass(frozen=True)
class Law:
    """What the reforms change."""

    begin_of_30: int = 28797
    half_part: int = 1759
    for_each_child: int | None = None  # taken off the tax of each child, in place of the children's parts
    capital_by_scale: bool = False  # dividends and interest by the scale for all

    def scale(self):
        """197 I 1: thresholds for one part, each with the rate above it."""
        return [(11294, per_cent(11)), (self.begin_of_30, per_cent(30)), (82341, per_cent(41)), (177106, per_cent(45))]


@cache
def per_cent(number):
    return Fraction(str(number)) / 100


def once(function):
    """Computes a value of a household by a law once."""

    def known(household, law=OF_2023):
        key = (function, law)
        if key not in household.known:
            household.known[key] = function(household, law)
        return household.known[key]

    return known


OF_2023 = Law()
REDUCTIONS = ("7UD", "7UF", "7EA", "7EC", "7EF")
CREDITS = ("7AC", "7AE", "7GA", "7GB", "7GC", "7DB")


@dataclass
class Household:
    """The boxes that are filled in, each a number; the others are 0."""

    boxes: dict = field(default_factory=dict)
    known: dict = field(default_factory=dict, repr=False, compare=False)

    def __getitem__(self, code):
        return Fraction(self.boxes.get(code, 0))

    def without(self, codes):
        return Household({code: amount for code, amount in self.boxes.items() if code not in codes})


@dataclass(frozen=True)
class Person:
    """The boxes of one person."""

    wages: str
    unemployment: str
    expenses: str
    pensions: str
    sales: str
    services: str
    fees: str
    savings: str
    ceiling: str
    dues: str


PERSONS = (
    Person("1AJ", "1AP", "1AK", "1AS", "5KO", "5KP", "5HQ", "6NS", "6PS", "7AC"),
    Person("1BJ", "1BP", "1BK", "1BS", "5LO", "5LP", "5IQ", "6NT", "6PT", "7AE"),
)


def nearest(amount):
    """To the nearest unit, a half up (1657, 1724)."""
    return floor(amount + Fraction(1, 2))


def millionths(amount):
    """To the nearest millionth, halves away from zero."""
    return Fraction(nearest(abs(amount) * 1_000_000), 1_000_000) * (-1 if amount < 0 else 1)
