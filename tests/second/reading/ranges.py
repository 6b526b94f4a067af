"""Ranges: what may be given of each input."""

from .amounts import GREATEST, OVER, UNDEFINED, UNIT, read_amount
from .faults import Refused
from .files import MOST_ROWS, is_of_type, records_of
from .intervals import UNDEFINED_ALONE, Fact
from .texts import decimal


def whole_range(kind):
    """The least and the greatest amount of a type."""
    return (0, UNIT) if kind == b"truth" else (-GREATEST, GREATEST)


def at_record(number, words):
    """The refusal of a record."""
    return Refused(b"refused ranges line " + decimal(number) + b": " + words)


def read_ranges(text, inputs, types):
    """The fact of each input by its code; without ranges, and of one that no record names, that of its type."""
    given = {code: Fact(True, False, whole_range(types[code])) for code in inputs}
    if text is None:
        return given
    records = records_of(text)
    if not records or records[0] != [b"code", b"given", b"least", b"greatest"]:
        raise Refused(b"refused ranges: bad header")
    named = set()
    for number, fields in enumerate(records[1:], 2):
        if len(named) == MOST_ROWS:
            raise Refused(b"refused ranges: too many rows")
        if len(fields) != 4:
            raise at_record(number, b"bad row")
        code, word, *bounds = fields
        if code not in inputs:
            raise at_record(number, b"unknown code")
        fact = fact_said(number, word, bounds, types[code])
        if fact.numbers and not all(is_of_type(amount, types[code]) for amount in fact.numbers):
            raise at_record(number, b"not of its type")
        if code in named:
            raise at_record(number, b"code twice")
        named.add(code)
        given[code] = fact
    return given


def fact_said(number, word, bounds, kind):
    """What a word and two bounds say."""
    if word == b"no" and bounds == [b"", b""]:
        return UNDEFINED_ALONE
    if word not in (b"yes", b"maybe"):
        raise at_record(number, b"bad amount")
    if bounds == [b"", b""]:
        return Fact(word == b"maybe", False, whole_range(kind))
    amounts = [read_amount(bound) for bound in bounds]
    if UNDEFINED in amounts or OVER in amounts or amounts[0] > amounts[1]:
        raise at_record(number, b"bad amount")
    return Fact(word == b"maybe", False, tuple(amounts))
