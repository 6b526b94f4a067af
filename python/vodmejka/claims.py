"""What a report proves of a value that is claimed, and what it doesn't: by `m_tax check`, a run without a driver and one with it."""
from __future__ import annotations

import re
from decimal import Decimal
from typing import NamedTuple

from . import drivers, runs
from .copies import Copies, Stopped
from .endings import Wrong
from .reasons import Rules

CLAIM = re.compile(r"\s*([A-Z0-9_]+(?:\[[0-9]{1,4}\])?)\s*(?:=\s*(-?[0-9]+(?:\.[0-9]+)?)|\s(undefined|over))\s*")
LINE = re.compile(r"([A-Z0-9_]+(?:\[[0-9]+\])?)(?: = (-?[0-9]+(?:\.[0-9]+)?)| (undefined|over))")
DECLARED_TWICE, READS, VALUE = "twice", "reads", "value"


class Claim(NamedTuple):
    """A cell and its value, `undefined` and `over` too."""

    cell: str
    value: str

    def said(self) -> str:
        return f"{self.cell} {self.value}" if self.value in ("undefined", "over") else f"{self.cell} = {self.value}"


def spelled(number: str) -> str:
    """The one spelling of an amount."""
    plain = f"{Decimal(number):f}"
    plain = plain.rstrip("0").rstrip(".") if "." in plain else plain
    return "0" if plain == "-0" else plain


def read_claim(text: str) -> Claim:
    """What a word of the command line claims."""
    match = CLAIM.fullmatch(text)
    if match is None:
        raise Wrong(f"a claim is NAME = AMOUNT, NAME undefined or NAME over, and not {text}", 2)
    return Claim(match[1], match[3] or spelled(match[2]))


def of_line(line: str) -> Claim | None:
    """The claim of a line of a report."""
    match = LINE.fullmatch(line.removesuffix("\r"))
    return None if match is None else Claim(match[1], match[3] or spelled(match[2]))


def of_value(cell: str, value: str) -> Claim:
    """A value as the program prints it."""
    return Claim(cell, spelled(value[2:]) if value.startswith("= ") else value)


def lines_of(report: bytes) -> list[str]:
    """The lines of a report, without the point that a session puts below it."""
    lines = report.decode("latin-1").split("\n")
    if lines[-1] == "":
        lines.pop()
    return lines[:-1] if lines and lines[-1] in (".", ".\r") else lines


class Verdict:
    """What is proved, computed and not proved, as lines; `holds` if all claims are met."""

    def __init__(self):
        self.lines, self.holds = [], True

    def say(self, what: str, text: str) -> None:
        self.lines.append(f"{what}: {text}")

    def deny(self, what: str, text: str) -> None:
        self.say(what, text)
        self.holds = False


def why_unsound(rules: Rules, copies: Copies, lines: list[str], number: int) -> str:
    """Which of the three reasons a line has that doesn't follow from those above it, which do."""
    line, above = of_line(lines[number - 1]), [of_line(one) for one in lines[: number - 1]]
    if line is None:
        return f"line {number}: {lines[number - 1]}"
    cells = [one.cell if one else "" for one in above]
    head = f"line {number}, {line.said()}"
    if line.cell in cells:
        return f"{head}: {line.cell} stands in line {cells.index(line.cell) + 1} already"
    formula = rules.formulas.get(line.cell)
    if formula is not None:
        absent = [cell for cell in formula.reads(rules.sizes) if cell not in cells]
        if absent:
            return f"{head}: its formula {formula.text} ({formula.place()}) reads {absent[0]}, and no line above has it"
    value = copies.value_unstopped(line.cell)
    if value is None:
        return f"{head}: no cell has this name"
    given = of_value(line.cell, value).value
    if formula is not None:
        return f"{head}: its formula {formula.text} ({formula.place()}) gives {given} by the lines above"
    return f"{head}: its value is {given} ({rules.role(line.cell)})"


def judge_report(verdict: Verdict, rules: Rules, copies: Copies, report: bytes, name: str) -> list[Claim]:
    """Has `check` look at a report; its lines, where they are sound."""
    text, status = copies.ask("check", copies.list, copies.household, copies.put("report.txt", report))
    line, lines = runs.fault_of(text, status) if status else "sound", lines_of(report)
    place = re.fullmatch("refused report line ([0-9]+): (bad line|not sound)", line)
    if place and place[2] == "not sound":
        verdict.deny("not sound", why_unsound(rules, copies, lines, int(place[1])))
    elif place:
        verdict.deny("not sound", f"line {place[1]} of {name} is no line of a report, which is NAME = AMOUNT, NAME undefined or NAME over")
    elif status != 0 or text != b"sound\n":
        raise Wrong(copies.told(line), 3 if status == 3 else 1)
    return [] if place else [found for found in map(of_line, lines) if found]


def judge_claim(verdict: Verdict, claim: Claim, found: list[Claim], name: str) -> None:
    """Judges whether a sound report has what is claimed."""
    own = [line for line in found if line.cell == claim.cell]
    if own and own[0] == claim:
        verdict.say("proved", f"{claim.said()} is what the rules give in one call at the start, for the amounts of the household: "
                              f"each of the {len(found)} lines of {name} follows")
    elif own:
        verdict.deny("not proved", f"{claim.said()}: {name} is sound and has {own[0].said()}")
    elif found:
        verdict.deny("not proved", f"{claim.said()}: {name} is sound, has no line of {claim.cell}, and ends in {found[-1].said()}")
    else:
        verdict.deny("not proved", f"{claim.said()}: {name} is empty, which is sound and proves nothing")


def judge_call(verdict: Verdict, claims: list[Claim], copies: Copies) -> None:
    """Judges whether a verification stops the call of the rules."""
    try:
        found = copies.values([claim.cell for claim in claims], driver="-")
    except Stopped as stop:
        verdict.deny("stopped", f"a verification stops that call, so no run by the rules alone gives a value: {stop}")
        return
    told = [of_value(cell, value) for cell, value in found.items()]
    verdict.say("computed", f"no verification stops that call, and a run by the rules alone gives {', '.join(claim.said() for claim in told)}")


def lines_that_set(content: bytes, cell: str) -> list[int]:
    """The lines of a driver that set, delete or receive a cell."""
    found = []
    for line, said in drivers.Driver(content).said:
        cells = said[1] if said and said[0] == "call" else [said[1]] if said and said[0] in ("set", "del") else []
        if cell in map(drivers.cell_name, cells):
            found.append(line.number)
    return found


def judge_driver(verdict: Verdict, claims: list[Claim], copies: Copies, name: str, content: bytes) -> None:
    """Judges the claim by a run with the driver."""
    try:
        values = copies.values([claim.cell for claim in claims])
    except Stopped as stop:
        verdict.deny("stopped", f"a run with the driver {name} has no values: {stop}")
        return
    for claim in claims:
        found = of_value(claim.cell, values[claim.cell])
        if found == claim:
            verdict.say("computed", f"a run with the driver {name} gives {found.said()} too")
            continue
        numbers = lines_that_set(content, claim.cell)
        where = f"lines of it that set {claim.cell}: {', '.join(map(str, numbers))}" if numbers else f"no line of it sets {claim.cell}"
        verdict.deny("differs", f"a run with the driver {name} gives {found.said()}; {where}")


def judged(rules: Rules, copies: Copies, report: bytes, name: str, claims: list[Claim], driver: str | None, content: bytes | None) -> Verdict:
    """All that is to say of claims and a report."""
    verdict = Verdict()
    found = judge_report(verdict, rules, copies, report, name)
    for claim in claims if verdict.holds else ():
        judge_claim(verdict, claim, found, name)
    if verdict.holds:
        judge_call(verdict, claims, copies)
    if content is None:
        verdict.say("not said", "what a driver makes of it: --driver DRIVER runs it")
    elif verdict.holds:
        judge_driver(verdict, claims, copies, driver or "", content)
    verdict.say("not said", "whether the rules are the law, and whether the amounts of the household are true")
    return verdict
