"""Reads the sheet of a spreadsheet's file, .xlsx or .ods, as rows of texts. What may mean two things is refused with its place; what is hidden is noted."""
from __future__ import annotations

import decimal
import io
import math
import re
import struct
import xml.etree.ElementTree as xml
import zipfile
import zlib
from typing import Callable, NamedTuple

from .hidden import Hidden, column_name
from .source import Refused

MOST_BYTES = 1 << 29
MOST_ROWS = 200_000
MOST_COLUMNS = 16_384
MOST_FIELDS = 1 << 25
MOST_BLANKS = 1_000
NUMBER = re.compile(r"[-+]?(?:[0-9]+\.?[0-9]*|\.[0-9]+)(?:[eE][-+]?[0-9]+)?")
OLD = b"\xd0\xcf\x11\xe0"
DATE_FORMATS = {*range(14, 23), *range(27, 37), *range(45, 48), *range(50, 59)}
PERCENT_FORMATS = {9, 10}
ODD = {"list", "numbered-paragraph", "section", "table"}
BARE = "a formula without its value: open the file and save it"
ERROR = re.compile(r"Err:[0-9]*|#(?:N/A|REF!|VALUE!|VALEUR!|DIV/0!|NAME\?|NOM\?|NUM!|NOMBRE!|NULL!|NUL!)")
ESCAPE = re.compile("_x([0-9A-Fa-f]{4})_")


class Plain(str):
    """The number of a cell, spelled as the program reads amounts. `shown` is what the sheet shows of it, and None where that isn't known."""

    shown: str | None

    def __new__(cls, spelled, shown):
        made = super().__new__(cls, spelled)
        made.shown = shown
        return made


def spelled_number(text, place):
    """The spelling of a number of a file, of which 15 digits count, and whether it has no more."""
    number = float(text) if NUMBER.fullmatch(text) else math.inf
    if math.isinf(number):
        raise Refused(f"{place}: {text[:40]} is no number")
    rounded = decimal.Decimal(f"{number:.15g}")
    spelled = f"{rounded:f}"
    return spelled.rstrip("0").rstrip(".") if "." in spelled else spelled, rounded == decimal.Decimal(text)


def label_of(field, place):
    """A field as a label: of a number what the sheet shows."""
    if isinstance(field, Plain) and field.shown is None:
        raise Refused(f"{place}: the label {field} is a number that the sheet shows in another form: make it a text")
    return field.shown if isinstance(field, Plain) else field


class Sheet(NamedTuple):
    """A sheet of a file: its name, whether it is hidden, and what reads its rows and notes what is hidden of them."""

    name: str
    is_hidden: bool
    read: Callable[[Hidden], list]


class Read(NamedTuple):
    """The rows of a sheet that have something, each with its number, and what is hidden of it."""

    rows: list
    hidden: Hidden


def whole(text, least=0):
    """A whole number of a file: a position, or a count."""
    number = int(text) if re.fullmatch("[0-9]{1,9}", text) else -1
    if number < least:
        raise ValueError(text)
    return number


def name_of(element):
    """The name of an element, whatever its namespace is."""
    return element.tag.rsplit("}", 1)[-1]


def below(element, name):
    return [child for child in element if name_of(child) == name]


def told(element, name):
    """The attribute of an element, whatever its namespace is."""
    return next((value for key, value in element.attrib.items() if key.rsplit("}", 1)[-1] == name), None)


class Book:
    """A zip of a spreadsheet."""

    def __init__(self, content):
        try:
            self.zip = zipfile.ZipFile(io.BytesIO(content))
        except (zipfile.BadZipFile, NotImplementedError, ValueError, struct.error) as fault:
            raise Refused("the file is cut off or damaged") from fault
        self.names = set(self.zip.namelist())

    def tree(self, name):
        if name not in self.names:
            raise Refused(f"the file has no {name}, as a spreadsheet has")
        told_of_it = self.zip.getinfo(name)
        if told_of_it.file_size > MOST_BYTES:
            raise Refused(f"{name} of the file is too large: save the sheet as csv")
        if told_of_it.compress_type not in (zipfile.ZIP_STORED, zipfile.ZIP_DEFLATED):
            raise Refused(f"{name} of the file is packed as no spreadsheet packs it")
        try:
            content = self.zip.read(name)
            if b"<!DOCTYPE" in content[:4096] or b"<!ENTITY" in content[:4096]:
                raise Refused(f"{name} of the file isn't what a spreadsheet writes")
            return xml.fromstring(content)
        except (xml.ParseError, zipfile.BadZipFile, zlib.error, RuntimeError, EOFError) as fault:
            raise Refused(f"{name} of the file can't be read, as where it has a password") from fault


def read_sheet(sheet):
    """The rows of a sheet, and what is hidden of them."""
    hidden = Hidden()
    rows = sheet.read(hidden)
    width = max((len(fields) for _, fields in rows), default=0)
    full = {column for column in hidden.columns if column < width and any(column < len(fields) and fields[column] for _, fields in rows)}
    hidden.columns, hidden.sheet = full, sheet.name if sheet.is_hidden else None
    return Read(rows, hidden)


def chosen(sheets, wanted):
    """The sheet that is meant: the one that is named, or the only one that has something."""
    if wanted is not None:
        found = [sheet for sheet in sheets if sheet.name == wanted]
        if not found:
            raise Refused(f"no sheet has the name {wanted}; there are {', '.join(sheet.name for sheet in sheets)}")
        return read_sheet(found[0])
    full = [(sheet, found) for sheet, found in ((sheet, read_sheet(sheet)) for sheet in sheets) if found.rows]
    if len(full) > 1:
        raise Refused(f"several sheets have something: name one by --sheet, of {', '.join(sheet.name for sheet, _ in full)}")
    return full[0][1] if full else Read([], Hidden())


# ---- .xlsx


def unescaped(text):
    """A text in which `_x000D_` denotes the character with that number."""
    return ESCAPE.sub(lambda match: chr(int(match[1], 16)), text)


def xlsx_text(element):
    """The text of a cell: its pieces, without the reading aid of some."""
    pieces = [child for child in element if name_of(child) in ("t", "r")]
    return unescaped("".join((piece.text or "") if name_of(piece) == "t" else "".join(text.text or "" for text in below(piece, "t")) for piece in pieces))


def shown_number(spelled, is_whole, code):
    """What a number is shown as by a format's code; None where this isn't known, or more than 15 digits count."""
    if not is_whole:
        return None
    if code in ("General", "@") or code == "0" and "." not in spelled:
        return spelled
    return spelled.zfill(len(code)) if re.fullmatch("0+", code) and spelled.isdigit() else None


class Xlsx(Book):
    """The sheets of an .xlsx."""

    def __init__(self, content):
        super().__init__(content)
        self.shared = []
        if "xl/sharedStrings.xml" in self.names:
            self.shared = [xlsx_text(text) for text in below(self.tree("xl/sharedStrings.xml"), "si")]
        self.formats = self.kinds_of_formats() if "xl/styles.xml" in self.names else []
        workbook = self.tree("xl/workbook.xml")
        # (what computes formulas when the file is opened was no spreadsheet: no value of a formula is one)
        self.is_computed = all(told(one, "fullCalcOnLoad") not in ("1", "true") for one in below(workbook, "calcPr"))
        targets = {told(one, "Id"): told(one, "Target") for one in self.tree("xl/_rels/workbook.xml.rels")}
        self.sheets = []
        for sheet in (sheet for sheets in below(workbook, "sheets") for sheet in sheets):
            target = targets.get(sheet.attrib.get(next((key for key in sheet.attrib if key.endswith("}id")), ""), ""), "") or ""
            path = target.lstrip("/") if target.startswith("/") else "xl/" + target
            if "worksheets" in path:
                is_hidden = told(sheet, "state") in ("hidden", "veryHidden")
                self.sheets.append(Sheet(told(sheet, "name"), is_hidden, lambda hidden, path=path: self.rows(path, hidden)))

    def kinds_of_formats(self):
        """Of each format of cells whether it shows a date or a percentage, and its code where numbers are shown by it alone."""
        tree = self.tree("xl/styles.xml")
        codes = {told(form, "numFmtId"): told(form, "formatCode") for forms in below(tree, "numFmts") for form in forms}
        kinds = []
        for form in (form for forms in below(tree, "cellXfs") for form in forms):
            number = told(form, "numFmtId") or "0"
            # (the text in brackets is a colour or a condition, or hours, minutes or seconds of a time that passed)
            code = re.sub(r'"[^"]*"|\\.|\[(?![hms]+\])[^][]*\]', "", codes.get(number) or "", flags=re.IGNORECASE)
            is_date = int(number) in DATE_FORMATS or re.search("[ymdhs]", code, re.IGNORECASE) and "General" not in code
            is_percent = int(number) in PERCENT_FORMATS or "%" in code
            own = {"0": "General", "1": "0", "49": "@"}.get(number, codes.get(number) or "")
            kinds.append(("a date" if is_date else "a percentage" if is_percent else None, own))
        return kinds

    def rows(self, path, hidden):
        tree, rows, number, count = self.tree(path), [], 0, 0
        for column in (column for columns in below(tree, "cols") for column in columns if told(column, "hidden") in ("1", "true")):
            hidden.columns.update(range(whole(told(column, "min") or "", 1) - 1, min(whole(told(column, "max") or "", 1), MOST_COLUMNS)))
        if any(len(merged) for merged in below(tree, "mergeCells")):
            raise Refused("the sheet has merged cells: separate them")
        for row in (row for data in below(tree, "sheetData") for row in below(data, "row")):
            number = whole(told(row, "r") or str(number + 1), number + 1)
            fields = []
            for cell in below(row, "c"):
                column = self.column(cell, len(fields))
                fields += [""] * (column - len(fields)) + [self.field(cell, f"cell {column_name(column)}{number}")]
            while fields and not fields[-1]:
                fields.pop()
            count += len(fields)
            if count > MOST_FIELDS:
                raise Refused(f"row {number}: too many fields")
            if fields:
                rows.append((number, fields))
            if fields and told(row, "hidden") in ("1", "true"):
                hidden.rows.append(number)
        return rows

    @staticmethod
    def column(cell, next_one):
        if not told(cell, "r"):
            return next_one
        column = 0
        for letter in re.fullmatch("([A-Z]{1,3})[0-9]+", told(cell, "r"))[1]:
            column = column * 26 + ord(letter) - 64
        if not next_one < column <= MOST_COLUMNS:
            raise Refused("the cells of a row aren't in order")
        return column - 1

    def field(self, cell, place):
        kind, value = told(cell, "t") or "n", next((child.text or "" for child in below(cell, "v")), None)
        if kind == "inlineStr":
            return "".join(xlsx_text(text) for text in below(cell, "is"))
        if below(cell, "f") and (not self.is_computed or value is None or kind == "n" and not value):
            raise Refused(f"{place}: {BARE}")
        if value is None:
            return ""
        if kind == "e":
            raise Refused(f"{place}: the error {value[:40]}")
        if kind == "s":
            return self.shared[whole(value)]
        if kind == "b":
            raise Refused(f"{place}: a truth value")
        if kind == "n":
            style = whole(told(cell, "s") or "0")
            refused, code = self.formats[style] if style < len(self.formats) else (None, "General")
            if refused:
                raise Refused(f"{place}: {refused}")
            spelled, is_whole = spelled_number(value, place)
            return Plain(spelled, shown_number(spelled, is_whole, code))
        return unescaped(value)


# ---- .ods


def ods_text(element):
    """The text of a paragraph: blanks, tabs and line ends are elements."""
    text = element.text or ""
    for child in element:
        name = name_of(child)
        if name == "s":
            blanks = told(child, "c") or "1"
            if len(blanks) > 9 or int(blanks) > MOST_BLANKS:
                raise Refused(f"a text has {blanks[:40]} blanks")
            text += " " * whole(blanks)
        elif name in ("tab", "line-break"):
            text += " "
        elif name not in ("annotation", "note"):
            text += ods_text(child)
        text += child.tail or ""
    return text


class Ods(Book):
    """The sheets of an .ods."""

    def __init__(self, content):
        super().__init__(content)
        tree = self.tree("content.xml")
        books = [book for body in below(tree, "body") for book in below(body, "spreadsheet")]
        styles = [style for automatic in below(tree, "automatic-styles") for style in below(automatic, "style")]
        unseen = {told(style, "name") for style in styles for form in below(style, "table-properties") if told(form, "display") == "false"}
        self.sheets = [
            Sheet(told(table, "name"), told(table, "style-name") in unseen, lambda hidden, table=table: self.rows(table, hidden))
            for book in books for table in below(book, "table")
        ]

    def rows(self, table, hidden):
        rows, number, count, at = [], 1, 0, 0
        for column in (column for column in table.iter() if name_of(column) == "table-column"):
            times = whole(told(column, "number-columns-repeated") or "1", 1)
            if (told(column, "visibility") or "visible") != "visible":
                hidden.columns.update(range(at, min(at + times, MOST_COLUMNS)))
            at += times
        for row in (row for row in table.iter() if name_of(row) == "table-row"):
            times = whole(told(row, "number-rows-repeated") or "1", 1)
            fields = self.fields(row, number)
            if fields:
                count += times * len(fields)
                if times + len(rows) > MOST_ROWS or count > MOST_FIELDS:
                    raise Refused(f"row {number}: too many rows")
                rows += [(number + k, list(fields)) for k in range(times)]
            if fields and (told(row, "visibility") or "visible") != "visible":
                hidden.rows += range(number, number + times)
            number += times
        return rows

    def fields(self, row, number):
        """The fields of a row without the empty ones at its end."""
        fields, column = [], 0
        for cell in row:
            name, times = name_of(cell), whole(told(cell, "number-columns-repeated") or "1", 1)
            place = f"cell {column_name(column)}{number}"
            spans = (told(cell, "number-columns-spanned") or "1", told(cell, "number-rows-spanned") or "1")
            if name == "covered-table-cell" or spans != ("1", "1"):
                raise Refused(f"{place}: merged cells: separate them")
            if name != "table-cell":
                continue
            field = self.field(cell, place)
            if field != "":
                if column + times > MOST_COLUMNS:
                    raise Refused(f"{place}: too many columns")
                fields += [""] * (column - len(fields)) + [field] * times
            column += times
        return fields

    @staticmethod
    def field(cell, place):
        kinds = {value for key, value in cell.attrib.items() if key.rsplit("}", 1)[-1] == "value-type"}
        kind = next((one for one in ("float", "currency", "percentage", "date", "time", "boolean", "string") if one in kinds), None)
        shown, is_formula = " ".join(ods_text(text) for text in cell if name_of(text) in ("p", "h")), told(cell, "formula") is not None
        if "error" in kinds or ERROR.match(shown) or is_formula and shown.startswith(("#", "Err:")):
            raise Refused(f"{place}: the error {shown[:40]}")
        if kind in ("float", "currency"):
            if is_formula and not shown:
                raise Refused(f"{place}: {BARE}")
            spelled, is_whole = spelled_number(told(cell, "value") or "", place)
            return Plain(spelled, shown or (spelled if is_whole else None))
        if kind in ("percentage", "date", "time", "boolean"):
            raise Refused(f"{place}: a {kind}")
        if kind is None and is_formula:
            raise Refused(f"{place}: {BARE}")
        if any(name_of(child) in ODD for child in cell):
            raise Refused(f"{place}: a list, or what is no text otherwise")
        return shown or told(cell, "string-value") or ""


def sheet_of(content, wanted):
    """The sheet that is meant of a spreadsheet's file; nothing where the file is a text."""
    if content.startswith(OLD):
        raise Refused("an old .xls, or a file with a password: save it as .xlsx or .ods without one")
    if not content.startswith(b"PK"):
        return None
    book = Book(content)
    kind = Xlsx if "xl/workbook.xml" in book.names else Ods
    try:
        return chosen(kind(content).sheets, wanted)
    except (ValueError, IndexError, KeyError, TypeError, RecursionError) as fault:
        raise Refused("the file isn't what a spreadsheet writes") from fault
