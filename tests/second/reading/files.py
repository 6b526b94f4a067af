"""Files other than rules and drivers: the list, requests, households and tables."""

import re
from typing import List, NamedTuple, Tuple

from .amounts import OVER, UNDEFINED, UNIT, read_amount
from .faults import Refused
from .texts import decimal, is_utf8, is_word, lines_of

MOST_NAME_BYTES = 4_096
MOST_FILES = 1_024
MOST_REQUESTS = 100_000
MOST_ROWS = 100_000

# ---- the list


def read_list(text):
    """The application, and the names of the rule files."""
    lines = lines_of(text)
    if not lines or not is_word(lines[0]):
        raise Refused(b"refused list line 1")
    for number, line in enumerate(lines[1:], 2):
        if len(line) > MOST_NAME_BYTES or not is_utf8(line):
            raise Refused(b"refused list line " + decimal(number))
    names = [line for line in lines[1:] if line]
    if len(names) > MOST_FILES:
        raise Refused(b"refused too many files")
    return lines[0], names


# ---- requests


def read_requests(text, declared):
    """The requested cells: by the lines of a file, or without one all that are returned."""
    if text is None:
        cells = declared.returned_cells()
    else:
        cells = [requested_cell(number, line, declared) for number, line in enumerate(lines_of(text), 1) if line]
    if len(cells) > MOST_REQUESTS:
        raise Refused(b"refused too many requests")
    return cells


def requested_cell(number, line, declared):
    """The cell that a line names."""
    cell = cell_named(line, declared)
    if cell is None:
        raise Refused(b"refused requests line " + decimal(number))
    return cell


def cell_named(name, declared):
    """The cell of a name: a variable that is no table, or a table with the number of a cell; None where there is no such one."""
    match = re.fullmatch(rb"([^\[]*)(?:\[(0|[1-9][0-9]{0,3})\])?", name, re.DOTALL)
    variable = declared.by_name.get(match.group(1)) if match else None
    if variable is None or (match.group(2) is None) != (variable.size is None):
        return None
    index = int(match.group(2) or b"0")
    if index >= len(declared.cells_named(variable.name)):
        return None
    return declared.first_cells[variable.name] + index


# ---- records

QUOTED = re.compile(rb'"([^"]*(?:""[^"]*)*)"?')
PLAIN = re.compile(rb"[^,\r\n]*")


def records_of(text):
    """The records of a text, each a list of fields."""
    if text.startswith(b"\xef\xbb\xbf"):
        text = text[3:]
    records = []
    at = 0
    while at < len(text):
        if text[at:at + 1] in b"\r\n":
            at += 1
            continue
        fields = []
        separator = b","
        while separator == b",":
            field, at = field_at(text, at)
            fields.append(field)
            separator = text[at:at + 1]
            at += 1
        records.append(fields)
    return records


def field_at(text, at):
    """The field that begins at a place, and the place after it: a comma, the end of a line or of the text."""
    field = b""
    if text[at:at + 1] == b'"':
        match = QUOTED.match(text, at)
        field = match.group(1).replace(b'""', b'"')
        at = match.end()
    match = PLAIN.match(text, at)
    return field + match.group(), match.end()


# ---- households and tables


class TableRow(NamedTuple):
    """A household of a table: its label, and cells of inputs with their amounts."""

    label: bytes
    amounts: List[Tuple[int, int]]


def at_record(number, words):
    """The refusal of a record."""
    return Refused(b"refused household line " + decimal(number) + b": " + words)


def is_of_type(amount, kind):
    """Whether an amount is one of a type: of `truth` 0 and 1, of `whole` whole units, and of no type each."""
    if kind == b"truth":
        return amount in (0, UNIT)
    return kind != b"whole" or amount % UNIT == 0


def read_household(text, inputs, types):
    """Cells of inputs with their amounts. `inputs` has the cell of each code, and `types` its type."""
    records = records_of(text)
    if not records or records[0] != [b"code", b"amount"]:
        raise Refused(b"refused household: bad header")
    amounts = {}
    for number, fields in enumerate(records[1:], 2):
        if len(amounts) == MOST_ROWS:
            raise Refused(b"refused household: too many rows")
        if len(fields) != 2:
            raise at_record(number, b"bad row")
        if fields[0] not in inputs:
            raise at_record(number, b"unknown code")
        amount = amount_of(number, fields[1])
        if not is_of_type(amount, types[fields[0]]):
            raise at_record(number, b"not of its type")
        if inputs[fields[0]] in amounts:
            raise at_record(number, b"code twice")
        amounts[inputs[fields[0]]] = amount
    return list(amounts.items())


def amount_of(number, text, fault=b"bad amount"):
    """The amount of a field in the record with this number."""
    amount = read_amount(text)
    if amount is UNDEFINED or amount is OVER:
        raise at_record(number, fault)
    return amount


def read_table(text, inputs, types):
    """The households of a table, in order."""
    records = records_of(text)
    if not records or records[0][0] != b"name":
        raise Refused(b"refused household: bad header")
    columns = []
    for code in records[0][1:]:
        if code not in inputs:
            raise at_record(1, b"unknown code")
        if inputs[code] in columns:
            raise at_record(1, b"code twice")
        columns.append(inputs[code])
    return [table_row(number, records[0], fields, inputs, types) for number, fields in enumerate(records[1:], 2)]


def table_row(number, header, fields, inputs, types):
    """The household of a record, by the codes of the header; of fields that are expected values nothing is read."""
    if number - 2 >= MOST_ROWS:
        raise Refused(b"refused household: too many rows")
    label = fields[0]
    if len(fields) != len(header) or not label or min(label) < 32:
        raise at_record(number, b"bad row")
    given = [(code, field) for code, field in zip(header[1:], fields[1:]) if field and not code.startswith(b"=")]
    amounts = [(code, amount_of(number, field)) for code, field in given]
    if not all(is_of_type(amount, types[code]) for code, amount in amounts):
        raise at_record(number, b"not of its type")
    return TableRow(label, [(inputs[code], amount) for code, amount in amounts])
