"""Reports: why a cell has its value, line by line, and whether that is sound."""

from typing import NamedTuple

from .amounts import OVER, UNDEFINED, print_amount, read_amount
from .faults import Refused
from .texts import decimal, exact_lines_of
from .values import reads_of, value_of


class ReportLine(NamedTuple):
    """A cell and the value that it has."""

    cell: int
    value: object


def value_line(name, value):
    """The line of a name and its value."""
    if value is UNDEFINED:
        return name + b" undefined\n"
    if value is OVER:
        return name + b" over\n"
    return name + b" = " + print_amount(value) + b"\n"


def read_report(text, declared):
    """The lines of a report, or the refusal of the first of another form. A last line with a point is skipped."""
    cells = {name: cell for cell, name in enumerate(declared.printed_names())}
    lines = exact_lines_of(text)
    if lines and lines[-1] == b".":
        lines.pop()
    return [report_line(number, line, cells) for number, line in enumerate(lines, 1)]


def report_line(number, line, cells):
    """The cell and the value of a line: `NAME = AMOUNT`, `NAME undefined` or `NAME over`."""
    name, blank, said = line.partition(b" ")
    if blank and name in cells:
        if said == b"undefined":
            return ReportLine(cells[name], UNDEFINED)
        if said == b"over":
            return ReportLine(cells[name], OVER)
        amount = read_amount(said[2:]) if said.startswith(b"= ") else UNDEFINED
        if amount is not UNDEFINED and amount is not OVER:
            return ReportLine(cells[name], amount)
    raise Refused(b"refused report line " + decimal(number) + b": bad line")


def cells_read(base, cell):
    """The cells that the definition of a cell reads; none without a definition."""
    found = set()
    if cell in base.terms:
        reads_of(base.terms[cell], found)
    return found


def first_unsound(base, environment, lines):
    """The number, from 1, of the first line that doesn't follow from those before it; None where each does."""
    values = {}
    for number, (cell, value) in enumerate(lines, 1):
        if cell in values or not cells_read(base, cell) <= values.keys():
            return number
        known = [values.get(other, UNDEFINED) for other in range(base.declared.cells)] if cell in base.terms else []
        if value != (value_of(base.terms[cell], known) if cell in base.terms else environment[cell]):
            return number
        values[cell] = value
    return None


# ---- why a cell has its value


class Reason:
    """The reason of a cell's value for a household: the lines of the cells that it needs, of which each comes after those that it
    reads. Where that leaves several orders, each is one."""

    def __init__(self, rules, environment, cell):
        self.rules, self.environment, self.cell = rules, environment, cell

    def lines(self):
        """The lines in one of the orders."""
        base, values = self.rules.base, {}
        waiting = [self.cell]
        while waiting:
            cell = waiting[-1]
            missing = [] if cell in values else sorted(cells_read(base, cell) - values.keys())
            if missing:
                waiting.append(missing[0])
                continue
            waiting.pop()
            if cell not in values:
                values[cell] = self.value(cell, values)
        return [ReportLine(*line) for line in values.items()]

    def value(self, cell, values):
        """The value of a cell, by those of the cells that it reads."""
        if cell not in self.rules.base.terms:
            return self.environment[cell]
        known = [values.get(other, UNDEFINED) for other in range(self.rules.declared.cells)]
        return value_of(self.rules.base.terms[cell], known)

    def text(self):
        """The lines, and then one with a point."""
        names = self.rules.declared.printed_names()
        return b"".join(value_line(names[line.cell], line.value) for line in self.lines()) + b".\n"

    def rest_of(self, text):
        """The text after a reason at its start, in whatever order its lines are; None if it doesn't begin with one."""
        report, point, rest = text.partition(b"\n.\n")
        try:
            said = read_report(report + b"\n", self.rules.declared)
        except Refused:
            return None
        known = said and said[-1].cell == self.cell and sorted(said, key=lambda line: line.cell) == sorted(self.lines(), key=lambda line: line.cell)
        sound = first_unsound(self.rules.base, self.environment, said) is None
        return rest if point and known and sound else None
