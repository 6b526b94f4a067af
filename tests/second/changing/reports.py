"""Reports of drawn bases, and changes of them: ten kinds that leave a report wrong, and three that leave it sound.

A wrong change comes with the line and the words of its refusal, which are worked out from what each cell reads: the lines above the place are as they
were, so each cell there has the value that the rules give. Where a change would not certainly be wrong, it isn't made.
"""

import re

from reading.amounts import print_amount, read_amount

from .bases import AMOUNTS
from .drawing import chance

NAMES_OF_NONE = [b"ZZ", b"v1", b"R0[0]", b"R", b"K99", b"", b"=", b"T1", b"R0 "]
FORM = re.compile(rb"([^ ]+) (?:= (-?[0-9]+(?:\.[0-9]+)?)|undefined|over)")

# ---- lines of a report


def name_of(line):
    """The name of a line."""
    return line.split(b" ", 1)[0]


def amount_of(line):
    """The amount of a line in millionths; None if it has another value."""
    return read_amount(line.split(b" = ", 1)[1]) if b" = " in line else None


def text_of(lines):
    """A report, without a point."""
    return b"".join(line + b"\n" for line in lines)


class Report:
    """A report as the program gave it: the cell, the number of the household, and the lines; and what was drawn with it."""

    def __init__(self, drawn, cell, household, lines):
        self.drawn, self.cell, self.household, self.lines = drawn, cell, household, lines

    def reads(self, at):
        """What the cell of a line reads."""
        return self.drawn.base.reads[name_of(self.lines[at])] or set()

    def numbers(self):
        """The places of lines with an amount."""
        return [at for at, line in enumerate(self.lines) if amount_of(line) is not None]

    def with_line(self, at, line):
        """The text with another line at a place."""
        return text_of(self.lines[:at] + [line] + self.lines[at + 1:])


class Change:
    """A wrong report: its text, and the line and the words of the refusal; and the amounts of the household, where these are others."""

    def __init__(self, text, at, words=b"not sound", amounts=None):
        self.text, self.amounts = text, amounts
        self.said = b"refused report line %d: %s\n" % (at + 1, words)


# ---- ten kinds of wrong changes, each of one report; None where it doesn't fit


def another_value(draw, report):
    """Another value of a cell that isn't an input's: an amount, or none for one, or one for none."""
    places = [at for at, line in enumerate(report.lines) if name_of(line) not in report.drawn.base.inputs]
    if not places:
        return None
    at = draw.choice(places)
    name, amount = name_of(report.lines[at]), amount_of(report.lines[at])
    others = [b"%s = %s" % (name, draw.choice(AMOUNTS)), name + b" over", name + b" = 0"]
    if amount:
        others += [b"%s = %s" % (name, print_amount(other)) for other in (-amount, amount // 10, amount - amount % 1_000_000)]
    line = draw.choice([other for other in others if (amount_of(other), other.endswith(b"over")) != (amount, report.lines[at].endswith(b"over"))])
    return Change(report.with_line(at, line), at)


def made_undefined(draw, report):
    """A cell with a value is stated to be undefined."""
    places = [at for at, line in enumerate(report.lines) if not line.endswith(b" undefined")]
    if not places:
        return None
    at = draw.choice(places)
    return Change(report.with_line(at, name_of(report.lines[at]) + b" undefined"), at)


def left_out(draw, report):
    """A line is left out that a later one reads: the first such one then no longer follows what it reads."""
    places = [at for at in range(len(report.lines)) if readers(report, at)]
    if not places:
        return None
    at = draw.choice(places)
    return Change(text_of(report.lines[:at] + report.lines[at + 1:]), readers(report, at)[0] - 1)


def readers(report, at):
    """The places of the lines that read the cell of a line."""
    return [later for later in range(at + 1, len(report.lines)) if name_of(report.lines[at]) in report.reads(later)]


def exchanged(draw, report):
    """A line changes places with one that reads it."""
    pairs = [(at, later) for at in range(len(report.lines)) for later in readers(report, at)]
    if not pairs:
        return None
    at, later = draw.choice(pairs)
    lines = list(report.lines)
    lines[at], lines[later] = lines[later], lines[at]
    return Change(text_of(lines), at)


def given_twice(draw, report):
    """A line occurs a second time, anywhere later."""
    first = draw.randrange(len(report.lines))
    at = draw.randrange(first + 1, len(report.lines) + 1)
    return Change(text_of(report.lines[:at] + [report.lines[first]] + report.lines[at:]), at)


def unknown_name(draw, report):
    """A line has a name of no cell, or one more line has."""
    at = draw.randrange(len(report.lines))
    name = draw.choice([name for name in NAMES_OF_NONE if name not in report.drawn.base.reads])
    rest = report.lines[at][len(name_of(report.lines[at])):]
    more = draw.choice([[], [report.lines[at]]])
    return Change(text_of(report.lines[:at] + [name + rest] + more + report.lines[at + 1:]), at, b"bad line")


def inputs_amount(draw, report):
    """An input has another amount, in the report or in the household."""
    base, amounts = report.drawn.base, report.drawn.households[report.household]
    places = [at for at, line in enumerate(report.lines) if name_of(line) in base.inputs]
    if not places:
        return None
    at = draw.choice(places)
    name, told = name_of(report.lines[at]), amount_of(report.lines[at])
    other = draw.choice([amount for amount in AMOUNTS if read_amount(amount) != told])
    if chance(draw, 50):
        return Change(report.with_line(at, b"%s = %s" % (name, other)), at)
    code = base.inputs[name]
    others = [amount for amount in base.amounts_of(code) if read_amount(amount) != told]
    return Change(text_of(report.lines), at, amounts={**amounts, code: draw.choice(others)})


def cut_short(draw, report):
    """The last line is cut, within it."""
    last = len(report.lines) - 1
    line = report.lines[last][:draw.randrange(1, len(report.lines[last]))]
    form = FORM.fullmatch(line)
    if form is None or form.group(1) != report.cell:
        return Change(text_of(report.lines[:last]) + line, last, b"bad line")
    return Change(text_of(report.lines[:last]) + line, last) if amount_of(line) != amount_of(report.lines[last]) else None


def wrong_index(draw, report):
    """A table's cell has the index of no cell, or of one with another value."""
    places = [at for at, line in enumerate(report.lines) if b"[" in name_of(line)]
    if not places:
        return None
    at = draw.choice(places)
    name, rest = report.lines[at].split(b" ", 1)
    table, size = name.split(b"[")[0], report.drawn.base.tables[name.split(b"[")[0]]
    others = [b"%s[%d]" % (table, k) for k in range(size)]
    differ = [other for other in others if report.drawn.value(other, report.household) not in (None, rest)]
    if differ and chance(draw, 60):
        return Change(report.with_line(at, draw.choice(differ) + b" " + rest), at)
    index = draw.choice([b"%d" % size, b"0%d" % (size - 1), b"1024", b"-1", b"", b"X", b"0.0"])
    return Change(report.with_line(at, b"%s[%s] %s" % (table, index, rest)), at, b"bad line")


def a_millionth(draw, report):
    """An amount is another by a millionth."""
    places = report.numbers()
    if not places:
        return None
    at = draw.choice(places)
    amount = amount_of(report.lines[at])
    other = amount + (draw.choice([1, -1]) if abs(amount) < 10**19 else 1 if amount < 0 else -1)
    return Change(report.with_line(at, b"%s = %s" % (name_of(report.lines[at]), print_amount(other))), at)


KINDS = {
    "another value": another_value,
    "a value made undefined": made_undefined,
    "a line left out that a later one reads": left_out,
    "two lines exchanged, of which one reads the other": exchanged,
    "a cell given twice": given_twice,
    "a name of no cell": unknown_name,
    "an input's amount, in the report or in the household": inputs_amount,
    "the last line cut": cut_short,
    "an index of no cell, or of another cell": wrong_index,
    "a number by a millionth": a_millionth,
}


# ---- sound ones that are no report of `why`


def spelled_otherwise(draw, report, _other):
    """Amounts have needless zeros, and a seventh decimal that is rounded off."""
    lines = list(report.lines)
    for at in report.numbers():
        whole, decimals = divmod(abs(amount_of(lines[at])), 1_000_000)
        sign = b"-" if amount_of(lines[at]) < 0 else draw.choice([b"", b"-"]) if lines[at].endswith(b" = 0") else b""
        lines[at] = b"%s = %s0%d.%06d%s" % (name_of(lines[at]), sign, whole, decimals, draw.choice([b"", b"0", b"4", b"499"]))
    return text_of(lines)


def another_order(draw, report, _other):
    """The lines are in an order that is drawn, each after all that it reads."""
    left, lines, seen = list(range(len(report.lines))), [], set()
    while left:
        at = draw.choice([at for at in left if report.reads(at) <= seen])
        left.remove(at)
        lines.append(report.lines[at])
        seen.add(name_of(report.lines[at]))
    return text_of(lines)


def two_in_one(_draw, report, other):
    """Two reports for one household are one, with each line once."""
    return text_of(dict.fromkeys(report.lines + other.lines))


SOUND_KINDS = {"amounts spelled otherwise": spelled_otherwise, "another order": another_order, "two reports in one": two_in_one}
