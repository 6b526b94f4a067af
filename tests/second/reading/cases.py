"""Tables of cases: households with the values that are expected, and what isn't met."""

from typing import Any, List, NamedTuple, Tuple

from .amounts import OVER, UNDEFINED, print_amount
from .faults import Refused
from .files import TableRow, amount_of, at_record, records_of, table_row
from .texts import decimal

STOP = "stop"
WORDS = {b"undefined": UNDEFINED, b"over": OVER, b"stop": STOP}


class Case(NamedTuple):
    """A household, and the numbers of outputs with what is expected of them."""

    row: TableRow
    expected: List[Tuple[int, Any]]


def read_cases(text, inputs, types, names):
    """The cases of a table, in order. `names` are those of the requests; a name denotes the first of its kind."""
    records = records_of(text)
    if not records or records[0][0] != b"name":
        raise Refused(b"refused household: bad header")
    seen = set()
    for field in records[0][1:]:
        if field.startswith(b"=") and field[1:] not in names:
            raise at_record(1, b"unknown output")
        if not field.startswith(b"=") and field not in inputs:
            raise at_record(1, b"unknown code")
        if field in seen:
            raise at_record(1, b"code twice")
        seen.add(field)
    return [read_case(number, records[0], fields, inputs, types, names) for number, fields in enumerate(records[1:], 2)]


def read_case(number, header, fields, inputs, types, names):
    """The case of a record."""
    row = table_row(number, header, fields, inputs, types)
    expected = []
    for code, field in zip(header[1:], fields[1:]):
        if field and code.startswith(b"="):
            value = WORDS[field] if field in WORDS else amount_of(number, field, b"bad expected")
            expected.append((names.index(code[1:]), value))
    return Case(row, expected)


def mismatches(case, values, names):
    """The lines of what a case doesn't meet. `values` are those of the outputs, and None where the run is stopped."""
    lines = []
    for output, wanted in case.expected:
        got = STOP if values is None else values[output]
        if got != wanted:
            words = [b"mismatch", case.row.label, names[output], b"expected", told(wanted), b"got", told(got)]
            lines.append(b" ".join(words) + b"\n")
    return lines


def told(value):
    """The text of a value, or of a stop."""
    if value is UNDEFINED:
        return b"undefined"
    return value.encode() if value in (OVER, STOP) else print_amount(value)


def last_line(cases, missed):
    """The line that counts the cases and what wasn't met."""
    return b"cases " + decimal(cases) + b" mismatches " + decimal(missed) + b"\n"
