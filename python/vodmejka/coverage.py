"""What cases reach of a rule base and its driver: each household is computed by the functions of calculation.py, which count, and by the program. Where the
two differ in a value, a note or a stop, no coverage is reported."""
from __future__ import annotations

import os
from typing import NamedTuple, Union

from . import case_tables, laws, operators, records, runs, source, texts
from .calculation import Rules, Stopped
from .driving import Driver, OneCall
from .limits import REQUESTS
from .points import CELL, FORMULA, KINDS, Point, Points

VALUES = 2_000_000  # the most values of a batch, so that its answer has room in the memory


class Differs(Exception):
    """A household for which the program's answer differs from that of the functions that count."""


class Told(NamedTuple):
    """What the functions say of a household: its values, its notes, and what stopped it."""

    values: list[operators.Value]
    notes: list[str]
    stop: str | None


def percent_of(reached: int, of: int) -> str:
    """A percentage with one decimal at most, rounded down, so that 100 is all."""
    tenths = reached * 1000 // of if of else 1000
    whole, rest = divmod(tenths, 10)
    return f"{whole}{texts.decimal_sign()}{rest}" if rest else str(whole)


class Coverage:
    """The points of a source, and what the households of tables reach."""

    def __init__(self, list_name: str, driver: str, room: str):
        self.room, self.files = room, laws.Files([list_name, driver, "-"], room, None)
        self.files.compiled(*self.files.words)
        base = source.RuleBase(self.files.list)
        self.points = Points()
        self.rules = Rules(base, self.points)
        self.driver: Union[Driver, OneCall] = OneCall(self.rules)
        if self.files.driver is not None:
            self.driver = Driver(driver, self.files.driver, self.rules)
        self.contents = {file.name: file.bytes for file in base.files}
        self.paths = {file.name: self.files.names[file.name] for file in base.files}
        if self.files.driver is not None:
            self.contents[driver] = self.files.driver
            self.paths[driver] = driver
        self.lines = {path: source.Lines(content) for path, content in self.contents.items()}

    def follow(self, tables: list[case_tables.CaseTable]) -> int:
        """Computes all households; how many they are. With a driver the values of one call are compared first, so that each formula is."""
        if isinstance(self.driver, Driver):
            for table in tables:
                self.compare(table, OneCall(self.rules), "-")
        self.points.clear()
        for table in tables:
            self.compare(table, self.driver, self.files.words[1])
        return sum(len(table.rows) for table in tables)

    def compare(self, table: case_tables.CaseTable, driver: Union[Driver, OneCall], word: str) -> None:
        names = self.rules.cells.names
        at_once = max(1, VALUES // max(1, min(len(names), REQUESTS)))
        for begin in range(0, len(table.rows), at_once):
            rows = table.rows[begin : begin + at_once]
            path = self.files.put("table.csv", table.households(rows))
            texts = [self.answer(word, names[at : at + REQUESTS], path, table.name) for at in range(0, len(names), REQUESTS)]
            told = [self.told(table, row, driver) for row in rows]
            for number, text in enumerate(texts):
                self.compare_part(table, rows, told, number * REQUESTS, text)

    def answer(self, driver: str, names: list[str], table: str, shown: str) -> bytes:
        requests = self.files.put("requests.txt", "".join(name + "\n" for name in names).encode())
        text, status = runs.printed("batch", self.files.list, driver, requests, table)
        if status != 0:
            raise laws.Refusal(f"{shown}: {self.files.told(runs.fault_of(text, status))}", 3 if status == 3 else 1)
        return text

    def told(self, table: case_tables.CaseTable, row: case_tables.Row, driver: Union[Driver, OneCall]) -> Told:
        household = {code: operators.read_amount(field) for code, field in zip(table.codes, row.fields) if field}
        notes: list[str] = []
        try:
            return Told(driver.run(self.rules.cells.begun(household), notes), notes, None)
        except Stopped as stopped:
            return Told([], [], str(stopped))

    def compare_part(self, table: case_tables.CaseTable, rows: list[case_tables.Row], told: list[Told], first: int, text: bytes) -> None:
        """Checks that the program's answers for these households are equal, for the cells from one on."""
        answers = records.answers(iter(text.splitlines(keepends=True)))
        for row, own, (_, notes, pairs, stop) in zip(rows, told, answers, strict=True):
            where = f"{table.name} line {row.line}, {row.label}"
            said = stop and stop[0].decode("latin-1")
            if own.stop != said:
                raise Differs(f"{where}: the program says {said or 'values'}, and the rules as they are followed here {own.stop or 'values'}")
            if stop is None and own.notes != [note.decode("latin-1") for note, _ in notes]:
                raise Differs(f"{where}: the program notes other verifications than the rules as they are followed here")
            for (name, amount), value in zip(pairs, own.values[first:]):
                if amount != operators.spelled(value).encode():
                    raise Differs(f"{where}: {name.decode()} is {amount.decode()} by the program, and {operators.spelled(value)} as it is followed here")
        return None

    # ---- what was reached

    def place(self, point: Point) -> tuple[str, int]:
        return os.fsencode(self.paths[point.path]).decode("utf-8", "replace"), self.lines[point.path].number(point.begin)

    def counted(self) -> list[int]:
        """The numbers of the points that count, in the order of the files. Cells without a formula are the driver's or nobody's, and have no part in it."""
        computed = {name for name, number in zip(self.rules.cells.names, range(len(self.rules.cells.names))) if number in self.rules.formulas}
        order = {path: k for k, path in enumerate(self.contents)}
        numbers = [k for k, point in enumerate(self.points.all) if point.kind != CELL or point.name in computed]
        return sorted(numbers, key=lambda k: (order[self.points.all[k].path], self.points.all[k].begin, self.points.all[k].kind == FORMULA, k))

    def summary(self, excepted: set[str]) -> list[tuple[str, int, int]]:
        """For each kind how many points were reached and how many there are, without those that are excepted."""
        found = {kind: [0, 0] for kind in KINDS}
        for k in self.counted():
            point = self.points.all[k]
            if point.key not in excepted:
                found[point.kind][0] += self.points.hits[k] > 0
                found[point.kind][1] += 1
        return [(kind, reached, of) for kind, (reached, of) in found.items()]

    def missing(self, excepted: set[str]) -> list[Point]:
        return [self.points.all[k] for k in self.counted() if not self.points.hits[k] and self.points.all[k].key not in excepted]
