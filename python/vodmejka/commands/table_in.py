"""Turns a table of Excel or LibreOffice, .xlsx, .ods or csv as French ones write it, into a table of households, or a household.

    table-in FILE > TABLE          `-` is the standard input
    table-in --list LIST FILE      each head must be a code of an input of LIST
    --leave HEAD                   leaves out the column with this head, which is no code; may be given several times
    --sheet NAME                   the sheet, where several have something
    --labels HEAD                  the first column, which has this head, is that of the labels, though it looks like one of amounts
    --decimal SIGN                 the sign before decimals, `,` or `.`; --french is --decimal ,
    --thousands SIGN               the sign between thousands, `,` or `.`; the other one is that before decimals
    --table, --household           what the file is, where it isn't clear

Read are of a csv: a byte order mark, carriage returns, `;`, tabs or commas between fields, fields in quotes, decimal commas, blanks between thousands
(narrow and hard ones too), a euro sign after an amount; UTF-8, UTF-16 with its mark, and else Windows' Latin-1. Of a spreadsheet hidden rows, columns and
sheets are read as the others are, and named on standard error.

The first line has the heads: the column of labels, whatever its head is but a code, and codes. A first column below a head in capital letters, or with
amounts alone, has labels only if its head is `name` or it is named by --labels. Where the first line has two and the first is `code`, the file is a
household, with a code and an amount in each line. Lines and columns without anything are left out, and a line of a household without an amount too.
Line ends within a label become blanks.

Refused with their place are heads that are no codes (`1aj`, `salaire`), a file without a column of labels or without households, a household whose first
line is a row already, what isn't an amount, as 12 34 or 1,5E+05, what may mean two amounts, as 45.000 in a file with `;`, "1,234" in one with commas, or
either in one with tabs or in a text of a sheet, amounts with a comma and others with a point in one file, a text that is neither UTF-8 nor Latin-1,
merged cells, dates, percentages, errors, and formulas that no spreadsheet has computed. Nothing is printed then. The status is 0, 1 where the file
is refused, 2 for wrong words, and 3 where a file can't be read.
"""
import collections
import csv
import io
import re
import sys

from .. import sheets, source
from ..endings import Wrong, ended
from ..limits import ROWS
from ..source import Refused
from ..written_amounts import Amounts, OTHER, Signs, is_amount

CODE = re.compile("(?![0-9]+$)[0-9A-Z_]+")
LIKE_A_BOX = re.compile("[0-9]+[A-Za-z][0-9A-Za-z]*")
WORDS = ("words: table-in [--list LIST] [--leave HEAD] [--labels HEAD] [--sheet NAME] [--french | --decimal SIGN | --thousands SIGN] "
         "[--table | --household] FILE; see --help")
FILE_BYTES = 1 << 28
OF_UTF_8 = re.compile(rb"[\xc2-\xdf][\x80-\xbf]|[\xe0-\xef][\x80-\xbf]{2}|[\xf0-\xf4][\x80-\xbf]{3}")
CONTROL = re.compile("[\0-\x08\x0b\x0c\x0e-\x1f\x7f]")


def decode(content):
    """The text of a file. Of one whose letters are partly UTF-8 and partly not nothing is sure."""
    if content[:2] in (b"\xff\xfe", b"\xfe\xff"):
        try:
            return content.decode("utf-16")
        except UnicodeDecodeError as fault:
            raise Refused("the file is cut off: it isn't whole UTF-16") from fault
    if b"\0" in content:
        raise Refused("the file is no text: save it as csv, .xlsx or .ods")
    try:
        return content.decode("utf-8-sig")
    except UnicodeDecodeError as fault:
        if OF_UTF_8.search(content) or content.startswith(source.MARK):
            number = len(re.findall(b"\r\n|\r|\n", content[: fault.start + len(source.MARK)])) + 1
            byte = fault.object[fault.start]
            raise Refused(f"line {number}: letters of the file are UTF-8, and the byte 0x{byte:02x} here isn't: save it as UTF-8") from fault
        return content.decode("cp1252", errors="surrogateescape")


def lines_of(text):
    return re.split("\r\n|\r|\n", text)


def delimiter_of(text):
    """The separator that occurs most often in the first line, outside of quotes; of equally frequent ones, `;` first."""
    head = re.sub(r'"[^"]*"', "", lines_of(text.lstrip("\r\n"))[0])
    return max(";\t,", key=head.count)


class Grid:
    """The rows of a file that have something, each with its number; `doubtful` are the signs that may separate thousands, and `hidden` lists what of it
    a spreadsheet hides."""

    def __init__(self, content, sheet):
        read = sheets.sheet_of(content, sheet)
        self.line, self.doubtful, self.hidden = "row", ",.", ""
        if read is None:
            if sheet is not None:
                raise Refused("the file has no sheets")
            self.line = "line"
            rows = self.rows_of_text(decode(content))
        else:
            rows, self.hidden = read.rows, read.hidden.told()
            self.look_for_controls(rows)
        bare = lambda field: field if isinstance(field, sheets.Plain) else field.strip(" \t\r\n\u00a0\u202f")
        stripped = ((number, [bare(field) for field in fields]) for number, fields in rows)
        self.rows = [(number, fields) for number, fields in stripped if any(fields)]
        if not self.rows:
            raise Refused(f"{self.line} 1: no heads")

    def look_for_controls(self, rows):
        """Refuses characters that nothing shows, as the one that ends files of DOS."""
        for number, fields in rows:
            found = next(filter(None, map(CONTROL.search, fields)), None)
            if found:
                raise Refused(f"{self.line} {number}: the control character 0x{ord(found[0]):02x}, which nothing shows: take it out")

    def rows_of_text(self, text):
        delimiter, ended = delimiter_of(text), text.endswith(("\r", "\n"))
        named = re.match(r'"?sep=([^"\r\n])"?(\r\n|\r|\n)', text)
        if named:
            delimiter, text = named[1], named[2] + text[named.end() :]
        self.doubtful = {",": ",", ";": "."}.get(delimiter, ",.")
        reader = csv.reader(io.StringIO(text, newline=""), delimiter=delimiter, strict=True)
        rows, number = [], 1
        try:
            for fields in reader:
                rows.append((number, fields))
                number = reader.line_num + 1
        except csv.Error as fault:
            raise Refused(f"line {number}: {fault}: a quote that isn't closed, or a text after one") from fault
        self.look_for_controls(rows)
        full = [fields for _, fields in rows if any(fields)]
        if not ended and len(full) > 1 and len(full[-1]) < len(full[0]):
            raise Refused(f"line {rows[-1][0]}: the file is cut off within its last line")
        return rows


class Codes:
    """Which heads are codes: those of a list, or without one words that have no small letters. `names` are the names of the list's variables."""

    def __init__(self, known, names=()):
        self.known, self.names = known, names

    def is_code(self, head):
        return head in self.known if self.known is not None else CODE.fullmatch(head) is not None

    def is_like_one(self, head):
        """Whether a head is meant as a code, perhaps in small letters."""
        if self.known is not None:
            return head.upper() in {code.upper() for code in self.known}
        return LIKE_A_BOX.fullmatch(head) is not None

    def is_of_amounts(self, head):
        """Whether a head may be that of a column of amounts."""
        return self.is_code(head) or head in self.names

    def why_not(self, head):
        if self.known is not None:
            return f"{head} is no code of the list"
        return f"{head} is no code: codes have capital letters and digits"


def household(grid, codes, signs):
    amounts, seen, (first, heads) = Amounts(grid.doubtful, signs), set(), grid.rows[0]
    is_row = len(heads) > 1 and codes.is_code(heads[0]) and heads[0] != "CODE" and is_amount(heads[1])
    if is_row or codes.is_like_one(heads[0]):
        raise Refused(f"{grid.line} {first}: the first line is that of the heads, and has {' and '.join(filter(None, heads[:2]))}: put heads above it")
    yield ["code", "amount"]
    for number, fields in grid.rows[1:]:
        place = f"{grid.line} {number}"
        if any(fields[2:]):
            raise Refused(f"{place}: more than a code and an amount")
        if not codes.is_code(fields[0]):
            raise Refused(f"{place}: {codes.why_not(fields[0])}" if fields[0] else f"{place}: an amount without a code")
        if fields[0] in seen:
            raise Refused(f"{place}: the code {fields[0]} stands twice")
        seen.add(fields[0])
        if len(fields) > 1 and fields[1]:
            yield [fields[0], amounts.read(fields[1], f"{place}, {fields[0]}")]


def look_at_labels(grid, codes, labels):
    """Rejects a first column that may be one of amounts, unless an option declares that it has the labels."""
    number, heads = grid.rows[0]
    place, what_helps = f"{grid.line} {number}", f"put one with labels before it, or say --labels '{heads[0]}'"
    if labels is not None:
        if heads[0] != labels:
            raise Refused(f"{place}: the first column has {heads[0] or 'nothing'} above it, and not {labels}")
    elif codes.is_like_one(heads[0]):
        raise Refused(f"{place}: the first column has the code {heads[0]} above it, and is that of the labels: put one with labels before it")
    elif codes.is_of_amounts(heads[0]):
        raise Refused(f"{place}: the first column has {heads[0]} above it, as a column of amounts has, and is that of the labels: {what_helps}")
    elif heads[0] != "name" and len(grid.rows) > 1 and all(fields[0] and is_amount(fields[0]) for _, fields in grid.rows[1:]):
        raise Refused(f"{place}: the first column has amounts alone, and is that of the labels: {what_helps}")


def kept_columns(grid, codes, left):
    """The columns of codes. Each other one is named by --leave, or has nothing in it."""
    number, heads = grid.rows[0]
    kept, full = [], {}
    for at, fields in grid.rows:
        for column, field in enumerate(fields):
            if field:
                full.setdefault(column, at)
    for column in sorted(full):
        head = heads[column] if column < len(heads) else ""
        if column == 0 or head in left and head:
            continue
        if head and not codes.is_code(head):
            raise Refused(f"{grid.line} {number}: {codes.why_not(head)}; --leave '{head}' leaves the column out")
        if not head:
            raise Refused(f"{grid.line} {full[column]}: column {column + 1} has no code above it")
        kept.append(column)
    if not kept:
        raise Refused(f"{grid.line} {number}: no column has a code above it; between fields stand `;`, tabs or commas")
    return kept


def table(grid, codes, options):
    look_at_labels(grid, codes, options["labels"])
    number, heads = grid.rows[0]
    kept, amounts = kept_columns(grid, codes, options["left"]), Amounts(grid.doubtful, options["signs"])
    names = [heads[column] for column in kept]
    twice = [code for code, times in collections.Counter(names).items() if times > 1]
    if twice:
        raise Refused(f"{grid.line} {number}: the code {twice[0]} stands twice")
    if len(names) * (len(grid.rows) - 1) > FILE_BYTES:
        raise Refused(f"{grid.line} {number}: {len(names):,} codes for {len(grid.rows) - 1:,} households are more than {FILE_BYTES:,} fields: cut the file")
    yield ["name", *names]
    for number, fields in grid.rows[1:]:
        label = re.sub("[\t\r\n]+", " ", sheets.label_of(fields[0], f"{grid.line} {number}"))
        if not label:
            raise Refused(f"{grid.line} {number}: no label in the first column")
        fields = fields + [""] * (kept[-1] + 1 - len(fields))
        yield [label, *(amounts.read(fields[column], f"{grid.line} {number}, {heads[column]}") if fields[column] else "" for column in kept)]


def written(content, options):
    """What is printed, and how many rows it has below the first."""
    grid, codes = Grid(content, options["sheet"]), Codes(options["known"], options["names"])
    heads = [head for head in grid.rows[0][1] if head]
    two = len(heads) == 2 and heads[0].lower() == "code" and not codes.is_like_one(heads[1])
    is_household = options["form"] == "--household" or options["form"] is None and two
    out, count = io.StringIO(), -1
    writer = csv.writer(out, lineterminator="\n")
    for row in household(grid, codes, options["signs"]) if is_household else table(grid, codes, options):
        writer.writerow(row)
        count += 1
    if len(grid.rows) == 1:
        raise Refused(f"{grid.line} {grid.rows[0][0]}: nothing stands below the heads")
    if grid.hidden:
        source.say(f"{options['name']} hidden, and read as what is shown: {grid.hidden}")
    return out.getvalue(), count


def signs_of(word, words):
    """What --french, --decimal and --thousands say."""
    sign = "," if word == "--french" else words.pop(0)
    return Signs(OTHER[sign], sign) if word == "--thousands" else Signs(sign)


def read_words(words):
    """The options, and the file; no file where the words are wrong."""
    options = {"form": None, "known": None, "names": (), "sheet": None, "labels": None, "left": set(), "signs": Signs()}
    while words and words[0].startswith("--"):
        word = words.pop(0)
        if word in ("--table", "--household") and options["form"] in (None, word):
            options["form"] = word
        elif word == "--list" and words:
            variables = source.RuleBase(words.pop(0)).variables
            options["known"], options["names"] = {variable.code for variable in variables if variable.code}, {variable.name for variable in variables}
        elif word == "--sheet" and words:
            options["sheet"] = words.pop(0)
        elif word == "--leave" and words:
            options["left"].add(words.pop(0))
        elif word == "--labels" and words:
            options["labels"] = words.pop(0)
        elif options["signs"] == Signs() and (word == "--french" or word in ("--decimal", "--thousands") and words and words[0] in OTHER):
            options["signs"] = signs_of(word, words)
        else:
            return options, None
    return options, words[0] if len(words) == 1 else None


def work(words):
    """Does what the words say."""
    options, name = read_words(words)
    if name is None:
        raise Wrong(WORDS, 2)
    content = source.taken(source.standard_input(), name, FILE_BYTES) if name == "-" else source.fetch(name, FILE_BYTES)
    options["name"] = name
    try:
        text, count = written(content, options)
    except Refused as fault:
        raise Wrong(f"{name} {fault}") from fault
    if count > ROWS:
        source.say(f"{count} rows, and a table has at most {ROWS:,}: tools/scale cuts it")
    sys.stdout.write(text)
    return 0


def main(words):
    """The command: see above."""
    return ended(words, __doc__, work)
