"""Changed rows of m_survey: tables by a source or by a code file, and facts within ranges."""

from reading.amounts import read_amount

from .codes import Codes, change_code, code_row
from .drawing import AMOUNTS, SPOILT_AMOUNTS, chance
from .files import ENDS, change_field, change_lines, new_requests, new_table
from .naming import Names, Row
from .rows import changed

GIVEN = b"yes maybe maybe no".split()
SPOILT_RECORDS = [b"1AJ,yes,0", b"1AJ,yes,0,1,2", b"1AJ,perhaps,0,1", b"9ZZ,yes,0,1", b"1AJ,yes,2,1", b"1AJ,no,0,1", b"1AJ,yes,0,", b"1AJ,yes,,0", b"", b"1AJ"]
SPOILT_HEADERS = [b"code,given,least", b"code,amount", b"CODE,given,least,greatest", b"\xef\xbb\xbfcode,given,least,greatest", b"name,1AJ", b""]
WORDS = [[b"version"], [b"version", b"x"], [], [b"table"], [b"facts", b"l.txt", b"-", b"-"], [b"table", b"c.txt"], [b"run", b"l.txt", b"-", b"-", b"h.csv"]]


def new_ranges(random, names):
    """Ranges of some of the codes."""
    records = [b"code,given,least,greatest" if chance(random, 97) else random.choice(SPOILT_HEADERS)]
    for code in random.sample(names.codes, random.randrange(len(names.codes) + 1)):
        given = random.choice(GIVEN)
        ends = sorted(random.sample(AMOUNTS, 2) if chance(random, 80) else [random.choice(AMOUNTS)] * 2, key=read_amount)
        if given == b"no" or chance(random, 15):
            ends = [b"", b""]
        records.append(b",".join([code, given, *ends]))
    if chance(random, 15):
        records.insert(random.randrange(len(records) + 1), random.choice(SPOILT_RECORDS))
    return b"".join(record + random.choice(ENDS) for record in records)


def change_ranges(random, text):
    """Ranges with one change."""
    return change_lines(random, text) if chance(random, 30) else change_field(random, text, AMOUNTS + SPOILT_AMOUNTS + GIVEN)


def source_row(random, good, bad):
    """A changed row that has a source, with its list, driver and requests. Whether it has requests is drawn anew."""
    row = changed(random, good, bad)
    while len(row.words) != 5:
        row = changed(random, good, bad)
    if chance(random, 15):
        row = Row([*row.words[:3], b"r.txt", row.words[4]], {**row.files, b"r.txt": new_requests(random, Names(row), chance(random, 20))}, b"")
    return row


def facts_row(random, good, bad):
    """A row of `facts`."""
    row = source_row(random, good, bad)
    if chance(random, 15):
        return Row([b"facts", *row.words[1:4], b"-"], row.files, b"")
    ranges = new_ranges(random, Names(row))
    for _ in range(random.choice([0, 0, 0, 1])):
        ranges = change_ranges(random, ranges)
    return Row([b"facts", *row.words[1:4], b"g.csv"], {**row.files, b"g.csv": ranges}, b"")


def table_row(random, good, bad):
    """A row of `table` by a source."""
    row = source_row(random, good, bad)
    return Row([b"table", *row.words[1:4], b"t.csv"], {**row.files, b"t.csv": new_table(random, Names(row))}, b"")


def code_table_row(random, good):
    """A row of `table` by a code file."""
    row = code_row(random, good)
    text = row.files[b"c.txt"]
    return Row([b"table", b"c.txt", b"t.csv"], {b"c.txt": text, b"t.csv": new_table(random, Codes(text))}, b"")


def survey_row(number, random, good, bad, own):
    """The row of m_survey with this number: of eight three are tables by a source, two by a code file, and two facts, all by changed rows of m_tax
    (`good` and `bad`); and one is a worked row of m_survey (`own`)."""
    form = number % 8
    if form < 3:
        return table_row(random, good, bad)
    if form < 5:
        return code_table_row(random, good)
    if form < 7:
        return facts_row(random, good, bad)
    row = random.choice(own)
    if chance(random, 5):
        return Row(random.choice(WORDS), row.files, b"")
    if row.words[:1] == [b"table"] and len(row.words) == 3 and row.words[1] in row.files:
        return Row(row.words, {**row.files, row.words[1]: change_code(random, row.files[row.words[1]], chance(random, 35))}, b"")
    if row.words[:1] == [b"facts"] and row.words[-1] in row.files:
        return Row(row.words, {**row.files, row.words[-1]: change_ranges(random, row.files[row.words[-1]])}, b"")
    return row
