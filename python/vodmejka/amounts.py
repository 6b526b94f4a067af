"""Amounts as whole numbers of millionths."""
from __future__ import annotations

import re
from fractions import Fraction

from . import limits
from .errors import Failed

UNIT = 1_000_000
MOST = limits.AMOUNT * UNIT
AMOUNT = re.compile(r"(-?)([0-9]+)(?:\.([0-9]{1,6}))?")


def amount(text: str) -> int:
    """The millionths of an amount as the program prints it, or as a table has it."""
    match = AMOUNT.fullmatch(text)
    if match is None:
        raise Failed(f"no amount of at most six decimals: {text}")
    whole = match[2].lstrip("0")
    millionths = int(whole[:15] or 0) * UNIT + int((match[3] or "").ljust(6, "0"))
    if len(whole) > 14 or millionths > MOST:
        raise Failed(f"an amount is at most 10000000000000 above or below 0, and not {text[:40]}")
    return -millionths if match[1] else millionths


def rounded(number: int, parts: int) -> int:
    """The whole number nearest to a number of parts, halves away from zero."""
    size = (2 * abs(number) + parts) // (2 * parts)
    return size if number >= 0 else -size


def plain(value: int | Fraction) -> str:
    """An amount or a fraction of millionths in whole ones, halves away from zero."""
    size = abs(rounded(value.numerator, value.denominator))
    sign = "-" if value < 0 and size else ""
    return sign + (f"{size // UNIT}.{size % UNIT:06}".rstrip("0").rstrip("."))
