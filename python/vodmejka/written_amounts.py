"""Amounts as people write them in tables: with blanks between thousands, a comma or a point before the decimals, a euro sign. What may be two amounts is
refused, unless words say which sign is which."""
from __future__ import annotations

import re
from typing import NamedTuple

from .sheets import Plain
from .source import Refused

BLANK = "[ \u00a0\u202f\u2009]"
OTHER = {",": ".", ".": ","}


class Signs(NamedTuple):
    """What words say of the signs in amounts: the one before decimals, and the one between thousands."""

    decimal: str | None = None
    thousands: str | None = None


def form(signs: Signs) -> re.Pattern:
    """The form of an amount: a minus, the whole part, a sign and decimals."""
    between = BLANK if signs.thousands is None else f"(?:{BLANK}|{re.escape(signs.thousands)})"
    before = "[.,]" if signs.decimal is None else re.escape(signs.decimal)
    return re.compile(rf"([-\u2212]?){BLANK}?([0-9]{{1,3}}(?:{between}[0-9]{{3}})+|[0-9]+)(?:({before})([0-9]+))?(?:{BLANK}*\u20ac)?")


AMOUNT = form(Signs())


def is_amount(text: str) -> bool:
    """Whether a field of a table is an amount, whatever its signs mean."""
    return isinstance(text, Plain) or any(one.fullmatch(text) for one in (AMOUNT, *BY_THOUSANDS.values()))


BY_THOUSANDS = {sign: form(Signs(OTHER[sign], sign)) for sign in OTHER}


class Amounts:
    """Reads amounts, and holds them to one decimal sign in a file. `doubtful` has the signs that may separate thousands if no option decides that."""

    def __init__(self, doubtful: str, signs: Signs):
        self.doubtful, self.signs, self.form = "" if signs.decimal else doubtful, signs, form(signs)
        self.sign: tuple[str, str] | None = None  # the one of the first amount that has one, and its place

    def read(self, text: str, place: str) -> str:
        """An amount as the program reads it."""
        if isinstance(text, Plain):
            return text
        match = self.form.fullmatch(text)
        if match is None:
            raise Refused(f"{place}: {text} is no amount{self.what_helps(text)}")
        minus, whole, sign, decimals = match.groups()
        spelled = ("-" if minus else "") + re.sub("[^0-9]", "", whole)
        if sign is None:
            return spelled
        if sign in self.doubtful and len(decimals) == 3 and len(whole) <= 3 and whole[0] != "0":
            french = " (or --french)" if sign == "," else ""
            raise Refused(f"{place}: {text} may be {spelled}.{decimals} or {spelled}{decimals}: --decimal {sign}{french} or --thousands {sign} says which")
        if self.sign is not None and self.sign[0] != sign:
            raise Refused(f"{place}: {text} has a {sign}, and the amount of {self.sign[1]} a {self.sign[0]}")
        self.sign = self.sign or (sign, place)
        return f"{spelled}.{decimals}"

    def what_helps(self, text: str) -> str:
        """The word by which a text would be an amount, if there is one."""
        if self.signs.decimal is not None:
            sign = OTHER[self.signs.decimal]
            return f": {self.signs.decimal} stands before decimals, and {sign} may not stand in it" if self.signs.thousands is None and sign in text else ""
        found = [sign for sign, one in BY_THOUSANDS.items() if one.fullmatch(text)]
        return f"; --thousands {found[0]} reads it" if found else ""
