"""Tables of households, as the program reads them."""
from __future__ import annotations

import graphlib
import itertools
import re
from decimal import Decimal
from typing import BinaryIO, Iterable, Mapping, Sequence

from .answers import AMOUNTS, LABEL
from .program import ENCODING, Amount, csv_text, spelled

Household = Mapping[str, Amount]
MOST_FORMS = 1_000
FILLED = 1_000
FIRST = 64
PLAIN = {int, str, Decimal, type(None)}
WORDS = re.compile("[EeIN]")
CODE = re.compile("[0-9A-Za-z_]+")


class UnknownList(Exception):
    """A household has a list of codes without a form."""


class Tables:
    """Writes tables of some thousand households at a time, each labelled `~`.

    Most households are dicts with few different lists of codes. For each such list there is a form of its row, with a place for each amount, and some hundred
    rows are filled at once, by functions written in C. What is written of whole numbers, texts and None is an amount unchanged, and so is a
    decimal without an exponent: a row then has its label, a comma for each code, and otherwise only digits, points and signs. Where lists are many,
    or in no one order, or something isn't plain, columns are put together in their place.
    """

    def __init__(self) -> None:
        self._codes: list[str] = []
        self._forms: dict[tuple[str, ...], str] = {}
        self._empty_row = b""
        self._has_forms = True

    def write(self, households: Sequence[Household], out: BinaryIO) -> None:
        """Writes the table of some households to a file, from its begin on, and nothing else."""
        if self._has_forms:
            try:
                is_written = self._by_forms(households, out)
            except UnknownList:
                is_written = self._learnt(dict.fromkeys(tuple(one) for one in households if type(one) is dict)) and self._by_forms(households, out)
            if is_written:
                return
        out.seek(0)
        out.truncate()
        out.write(by_columns(households).encode(ENCODING))

    def _by_forms(self, households: Sequence[Household], out: BinaryIO) -> bool:
        """Writes it by forms of rows; False where something isn't plain."""
        out.seek(0)
        out.truncate()
        out.write(",".join(["name", *self._codes]).encode(ENCODING) + b"\n")
        for begin in range(0, len(households), FILLED):
            rows = self._filled(households[begin : begin + FILLED])
            if rows is None:
                return False
            out.write(rows)
        return True

    def _filled(self, households: Sequence[Household]) -> bytes | None:
        """Some rows; None where something isn't plain."""
        if set(map(type, households)) != {dict}:
            return None
        amounts: tuple[Amount, ...] = tuple(itertools.chain.from_iterable(map(dict.values, households)))  # type: ignore[arg-type]
        types: set[type] = {int} if are_whole(amounts) else set(map(type, amounts))
        if not types <= PLAIN:
            return None
        try:
            codes: Iterable[tuple[str, ...]] = map(tuple, households)
            forms = "".join(map(self._forms.__getitem__, codes))
        except KeyError:
            raise UnknownList from None
        text = forms % amounts
        if type(None) in types:
            if text.count("None") != amounts.count(None):
                return None
            text = text.replace("None", "")
        rows = text.encode(ENCODING)
        return rows if rows.translate(None, AMOUNTS) == self._empty_row * len(households) else None

    def _learnt(self, lists: Iterable[tuple[str, ...]]) -> bool:
        """Makes forms for more lists of codes, in an order of the codes in which all lists are; False where there is none."""
        lists = list(dict.fromkeys([*self._forms, *lists]))
        before: graphlib.TopologicalSorter[str] = graphlib.TopologicalSorter()
        for codes in lists:
            for first, second in zip((None, *codes), codes):
                before.add(second, *([first] if first is not None else []))
        try:
            self._codes = list(before.static_order())
            self._has_forms = len(lists) <= MOST_FORMS and all(isinstance(code, str) and CODE.fullmatch(code) for code in self._codes)
        except graphlib.CycleError:
            self._has_forms = False
        if self._has_forms:
            self._forms = {codes: self._form(set(codes)) for codes in lists}
            self._empty_row = LABEL.encode() + b"," * len(self._codes) + b"\n"
        return self._has_forms

    def _form(self, codes: set[str]) -> str:
        """A row with places for the amounts of some codes."""
        return ",".join([LABEL, *("%s" if code in codes else "" for code in self._codes)]) + "\n"


def are_whole(amounts: Sequence[Amount]) -> bool:
    """Whether amounts are whole numbers of the type int, or of a type below it: their sum is, which takes less time than to look at each type.

    A truth is one too, and any of these may have a text of its own, so the text has to be checked.
    """
    if set(map(type, amounts[:FIRST])) != {int}:
        return False
    try:
        return type(sum(amounts)) is int  # type: ignore[arg-type]
    except (TypeError, ArithmeticError):
        return False


def by_columns(households: Sequence[Household]) -> str:
    """The table where households, codes and amounts may be anything."""
    codes = list(dict.fromkeys(itertools.chain.from_iterable(households)))
    columns = [[household.get(code) for household in households] for code in codes]
    types: set[type] = set(itertools.chain.from_iterable(map(type, column) for column in columns))
    labels = [LABEL] * len(households)
    text = csv_text([["name", *codes], *zip(labels, *columns)]) if types <= PLAIN else None
    if text is None or Decimal in types and WORDS.search(text, text.index("\n")):
        exact = [[None if amount is None else spelled(code, amount) for amount in column] for code, column in zip(codes, columns)]
        text = csv_text([["name", *codes], *zip(labels, *exact)])
    return text
