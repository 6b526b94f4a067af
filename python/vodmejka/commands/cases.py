"""Compares households with what is expected of them: as the program's `cases`, with tolerances, and with values by one call and by the driver in one table.

    cases LIST DRIVER TABLE.. [--tolerance COLUMN=AMOUNT].. [--here]

LIST and DRIVER are those of `m_tax run`, and each TABLE is a table of cases. Below a head `=NAME` stands what is expected of a variable or a cell at the end of
the driver, and below `=call_m:NAME` what is expected of it by one call of the rules, without the driver. No requests are needed: the heads say what is asked
for. What isn't met is printed, a line each, and then how many cases there are and how many values aren't met.

    --tolerance COLUMN=AMOUNT   an amount below this head (without its `=`) is met by one that differs by so much or less; `*=AMOUNT` is for all other heads
    --here                      the names in LIST count from its folder

The status is 0 where all is met, 6 where a value isn't, 1 where the program refuses, 2 for wrong words, and 3 where a file can't be read. The program is
./m_tax of this repository, or the one that M_TAX names.
"""
from __future__ import annotations

import re
import tempfile
from typing import NamedTuple

from .. import case_tables, here, laws, operators, records, runs
from ..endings import Wrong, ended
from ..options import read_options

WORDS = "words: cases LIST DRIVER TABLE.. [--tolerance COLUMN=AMOUNT].. [--here]; see --help"
CALL = "call_m:"
TOLERANCE = re.compile(r"(\*|(?:call_m:)?[A-Za-z0-9_]+(?:\[[0-9]+\])?)=([0-9]+(?:\.[0-9]{1,6})?)")


class Words(NamedTuple):
    """The arguments of the command."""

    said: list[str]
    tolerances: dict[str, int]
    is_here: bool


def words_of(words: list[str]) -> Words:
    read = read_options(words, [], ["--here"], ["--tolerance"])
    if read is None or len(read[0]) < 3:
        raise Wrong(WORDS, 2)
    tolerances = dict[str, int]()
    for text in read[1].get("--tolerance", []):
        match = TOLERANCE.fullmatch(text)
        if match is None or match[1] in tolerances:
            raise Wrong(f"--tolerance takes COLUMN=AMOUNT, a column once, and not {text}", 2)
        tolerances[match[1]] = operators.read_amount(match[2])
    return Words(read[0], tolerances, "--here" in read[1])


def is_met(expected: str, got: str, tolerance: int) -> bool:
    """Whether a value is what is expected; two amounts may differ by the tolerance."""
    if expected in ("undefined", "over", "stop") or got in ("undefined", "over", "stop"):
        return expected == got
    return abs(operators.read_amount(expected) - operators.read_amount(got)) <= tolerance


class Cases:
    """The tables of cases over one source."""

    def __init__(self, told: Words, room: str):
        self.told, self.room = told, room
        list_name = here.list_here(told.said[0], room) if told.is_here else told.said[0]
        self.files = laws.Files([list_name, told.said[1], "-"], tempfile.mkdtemp(dir=room), None)
        self.cases, self.mismatches = 0, 0

    def values(self, table: case_tables.CaseTable, names: list[str], driver: str) -> list[dict[str, str]]:
        """The answer of each household for these names; each is `stop` where the run stopped."""
        if not names or not table.rows:
            return [{} for _ in table.rows]
        requests = self.files.put("asked.txt", "".join(name + "\n" for name in names).encode("latin-1"))
        path = self.files.put("table.csv", table.households(table.rows))
        text, status = runs.printed("batch", self.files.list, driver, requests, path)
        if status != 0:
            fault = self.files.told(runs.fault_of(text, status))
            raise laws.Refusal(f"{table.name}: {self.explained(fault, table, names)}", 3 if status == 3 else 1)
        found = []
        for _, _, pairs, stop in records.answers(iter(text.splitlines(keepends=True))):
            found.append(dict.fromkeys(names, "stop") if stop else {name.decode(): amount.decode() for name, amount in pairs})
        return found

    @staticmethod
    def explained(fault: str, table: case_tables.CaseTable, names: list[str]) -> str:
        """A fault of the requests or of a household, by the heads or lines of the table."""
        asked, row = re.match("refused requests line ([0-9]+)", fault), re.match("refused household line ([0-9]+)", fault)
        if asked and int(asked[1]) <= len(names):
            return f"the head ={names[int(asked[1]) - 1]}: {fault}"
        if row and 2 <= int(row[1]) <= len(table.rows) + 1:
            return f"line {table.rows[int(row[1]) - 2].line}: {fault}"
        return fault

    def compare(self, table: case_tables.CaseTable) -> None:
        by_driver = [output for output in table.outputs if not output.startswith(CALL)]
        by_call = [output.removeprefix(CALL) for output in table.outputs if output.startswith(CALL)]
        driven = self.values(table, by_driver, self.files.words[1])
        called = self.values(table, by_call, "-")
        for row, own, other in zip(table.rows, driven, called, strict=True):
            self.cases += 1
            got = {**own, **{CALL + name: value for name, value in other.items()}}
            for output, expected in zip(table.outputs, row.expected):
                if expected:
                    self.look(row.label, output, expected, got[output])

    def look(self, label: str, output: str, expected: str, got: str) -> None:
        tolerance = self.told.tolerances.get(output, self.told.tolerances.get("*", 0))
        if not is_met(expected, got, tolerance):
            self.mismatches += 1
            within = f" within {operators.spelled(tolerance)}" if tolerance else ""
            print(f"mismatch {label.encode('latin-1').decode('utf-8', 'surrogateescape')} {output} expected {expected}{within} got {got}")


def compared(told: Words) -> int:
    tables = [case_tables.CaseTable(name) for name in told.said[2:]]
    heads = {output for table in tables for output in table.outputs}
    if not heads:
        raise Wrong("no table has a head that begins with =, so nothing is expected", 2)
    if unknown := [column for column in told.tolerances if column != "*" and column not in heads]:
        raise Wrong(f"--tolerance {unknown[0]}: no table has the head ={unknown[0]}", 2)
    with tempfile.TemporaryDirectory(prefix="cases-") as room:
        cases = Cases(told, room)
        for table in tables:
            cases.compare(table)
    print(f"cases {cases.cases} mismatches {cases.mismatches}")
    return 6 if cases.mismatches else 0


def work(words: list[str]) -> int:
    """Does what the words say."""
    try:
        return compared(words_of(words))
    except records.Strange as strange:
        raise Wrong(f"the program's answer is none: {strange}") from strange


def main(words: list[str]) -> int:
    """The command: see above."""
    return ended(words, __doc__, work)
