"""Makes a table of cases: households with the values that are expected of them, for the program's `cases`.

    cases-in TABLE ANSWERS > CASES            of a table of households, and of what `batch` printed for it, once a person has looked at it
    cases-in --book FILE --households SHEET --expected SHEET > CASES
                                              of a spreadsheet, .xlsx or .ods: a sheet of households as tools/table-in reads it, and a sheet of the same
                                              households with what is expected, below the names of variables
    --only NAME                               the values of this name alone; may be given several times
    --labels HEAD                             as of tools/table-in: the labels of the sheet of households are below this head, though they look like amounts

Of ANSWERS each value is expected as it was printed: an amount, `undefined` or `over`; of a household whose run stopped each value is `stop`. Of a sheet an
empty field expects nothing. Both parts must have the same households in the same order. Nothing is printed if a part is rejected. The status is 0, 1 where
a part is rejected, 2 for wrong words, 3 where a file can't be read, and 4 where the output is closed or full.
"""
import csv
import io
import os
import re
import subprocess
import sys

sys.dont_write_bytecode = True
from .. import records, sheets, source
from ..endings import Wrong, ended
from ..program import csv_text
from . import started
from ..source import Refused

EXPECTED = re.compile(r"-?[0-9]+(?:\.[0-9]+)?|undefined|over|stop|")
WORDS = "words: cases-in [--only NAME].. TABLE ANSWERS, or cases-in [--only NAME].. --book FILE --households SHEET --expected SHEET; see --help"
MOST, MOST_OF_BOOK = 1 << 30, 1 << 28


def text_of(content):
    """A text whose bytes come out as they are."""
    return content.decode("utf-8", "surrogateescape")


def table_of(text, name):
    """The records of a table of households."""
    entries = [record for record in csv.reader(io.StringIO(text, newline=""), strict=True) if record]
    if not entries or entries[0][0] != "name":
        raise Refused(f"{name} is no table of households: its first field is name")
    for number, record in enumerate(entries[1:], 2):
        if len(record) != len(entries[0]):
            raise Refused(f"{name} record {number} has {len(record)} fields, and the first one {len(entries[0])}")
    return entries


def expected_of_answers(content, name):
    """The names of the values of an output of `batch`, and for each household its label and what is expected below each name."""
    if content and not content.endswith(b"\n"):
        raise Refused(f"{name} is cut off: its last line has no end")
    try:
        found = list(records.answers(iter(io.BytesIO(content))))
    except records.Strange as fault:
        raise Refused(f"{name}: {fault}") from fault
    names = next(([value for value, _ in pairs] for _, _, pairs, stop in found if stop is None), None)
    if names is None:
        raise Refused(f"{name}: all households stopped, so nothing tells what is asked for" if found else f"{name} has no households")
    first, rows = {}, []
    for k, value in enumerate(names):
        first.setdefault(value, k)
    for label, _, pairs, stop in found:
        values = ["stop"] * len(first) if stop else [pairs[k][1].decode("ascii") for k in first.values()]
        rows.append((text_of(label), values))
    return [value.decode("ascii") for value in first], rows


def expected_of_sheet(content, path, sheet):
    """The same of a sheet of a file: labels in the first column, names of variables as heads."""
    read = sheets.sheet_of(content, sheet)
    if read is None:
        raise Refused(f"{path} is no spreadsheet")
    rows = read.rows
    if read.hidden.told():
        source.say(f"{path}: hidden, and read as what is shown: {read.hidden.told()}")
    if not rows:
        raise Refused(f"{sheet}: the sheet is empty")
    names = [head.strip().removeprefix("=") for head in rows[0][1][1:]]
    while names and not names[-1]:
        names.pop()
    for name in names:
        if not re.fullmatch(r"[A-Z0-9_]+(?:\[[0-9]{1,4}\])?", name):
            raise Refused(f"{sheet}: the head {name or 'of a column'} is no name of a variable")
    found = []
    for number, fields in rows[1:]:
        fields = [sheets.label_of(fields[0], f"{sheet} row {number}").strip(), *(field.strip() for field in fields[1:])]
        values = (fields[1:] + [""] * len(names))[: len(names)]
        for name, value in zip(names, values):
            if not EXPECTED.fullmatch(value):
                raise Refused(f"{sheet} row {number}, {name}: {value} is no amount, and not undefined, over or stop")
        if any(fields[len(names) + 1 :]):
            raise Refused(f"{sheet} row {number}: a field has no head")
        found.append((fields[0], values))
    return names, found


def table_of_sheet(content, path, sheet, labels):
    """The records of a sheet of households, as tools/table-in writes them."""
    words = ["--table", "--sheet", sheet, *(["--labels", labels] if labels is not None else []), "-"]
    done = subprocess.run([*started("table-in"), *words], input=content, capture_output=True, check=False)
    told = text_of(done.stderr).strip()
    if done.returncode != 0:
        raise Refused(path + told.split("\n")[-1].removeprefix("table-in: -"))
    if told:
        source.say(path + told.removeprefix("table-in: -"))
    return table_of(text_of(done.stdout), sheet)


def joined(table, names, expected, only):
    """The rows of the table of cases."""
    for name in only:
        if name not in names:
            raise Refused(f"no value has the name {name}; there are {', '.join(names)}")
    kept = [k for k, name in enumerate(names) if not only or name in only]
    if len(set(names[k] for k in kept)) != len(kept):
        raise Refused("a name stands twice among the values that are expected")
    if len(table) - 1 != len(expected):
        raise Refused(f"{len(table) - 1} households, and {len(expected)} of which something is expected")
    rows = [[*table[0], *("=" + names[k] for k in kept)]]
    for number, (record, (label, values)) in enumerate(zip(table[1:], expected), 2):
        if record[0] != label:
            raise Refused(f"record {number} is {record[0]}, and what is expected there is of {label}")
        rows.append([*record, *(values[k] for k in kept)])
    return rows


def read_words(words):
    """The options and the files; None where the words are wrong."""
    options, files = {"--only": [], "--book": None, "--households": None, "--expected": None, "--labels": None}, []
    while words:
        word = words.pop(0)
        if word in options and words:
            if word == "--only":
                options[word].append(words.pop(0))
            else:
                options[word] = words.pop(0)
        elif word.startswith("--"):
            return None
        else:
            files.append(word)
    chosen = [options[word] is not None for word in ("--book", "--households", "--expected")]
    return (options, files) if all(chosen) and not files or not any(chosen) and len(files) == 2 else None


def work(words):
    """Does what the words say."""
    said = read_words(words)
    if said is None:
        raise Wrong(WORDS, 2)
    options, files = said
    contents = [source.fetch(name, MOST) for name in files] or [source.fetch(options["--book"], MOST_OF_BOOK)]
    try:
        if files:
            table = table_of(text_of(contents[0].removeprefix(source.MARK)), files[0])
            names, expected = expected_of_answers(contents[1], files[1])
        else:
            table = table_of_sheet(contents[0], options["--book"], options["--households"], options["--labels"])
            names, expected = expected_of_sheet(contents[0], options["--book"], options["--expected"])
        rows = joined(table, names, expected, options["--only"])
    except (Refused, csv.Error) as fault:
        raise Wrong(str(fault)) from fault
    sys.stdout.write(csv_text(rows))
    return 0


def main(words):
    """The command: see above."""
    return ended(words, __doc__, work)
