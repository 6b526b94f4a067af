"""The errors, each with the program's message."""
from __future__ import annotations

import re
from collections.abc import Mapping

from . import sentences

PLACED = re.compile(r"refused (.*) line ([0-9]+) byte ([0-9]+): (.*)", re.DOTALL)
LINED = re.compile(r"refused (driver|requests|household|list|code|report) line ([0-9]+)(?:: (.*))?", re.DOTALL)


class Failed(Exception):
    """A check of a command fails, or a batch that it started; `goes_on` where the same words may succeed later."""

    def __init__(self, why: str, goes_on: bool = True):
        super().__init__(why)
        self.goes_on = goes_on


class VodmejkaError(Exception):
    """All errors of this package."""


class Refused(VodmejkaError):
    """The program rejects an input.

    `line` is what it printed. Of a fault in a rule file `file`, `row` (from 1) and `byte` (from 0) are its place; of one in a driver, requests, a household, a
    list, a code file or a report `file` says which of these it is, and `row` its line. `hint` says what to correct, where there is a sentence for it.
    """

    def __init__(self, line: str):
        super().__init__(line)
        self.line = line
        self.file: str | None = None
        self.row: int | None = None
        self.byte: int | None = None
        self.hint = hint_of(line)
        if match := PLACED.fullmatch(line):
            self.file, self.row, self.byte = match[1], int(match[2]), int(match[3])
        elif match := LINED.fullmatch(line):
            self.file, self.row = match[1], int(match[2])

    def __str__(self) -> str:
        return f"{self.line}\n  {self.hint}" if self.hint else self.line


class Stopped(VodmejkaError):
    """A value is read of a household that a verification or a driver's condition stopped; `line` is the line that the program printed, and `message`, where it
    is given, the same with the household's name."""

    def __init__(self, line: str, message: str = ""):
        super().__init__(line, message)
        self.line, self.message = line, message

    def __str__(self) -> str:
        return self.message or self.line


class NotFound(VodmejkaError):
    """A file can't be read."""


class Interrupted(VodmejkaError):
    """The program ended before it had done its work: out of memory, an output that was closed, a signal."""


class Broken(VodmejkaError):
    """There is no program, or it was replaced, or its output has not its form."""


def hint_of(line: str) -> str | None:
    """What to correct, for a line of the program."""
    if match := PLACED.fullmatch(line):
        return next((text for what, text in sentences.RULES.items() if match[4] == what or match[4].startswith(what + " ")), None)
    if match := LINED.fullmatch(line):
        table: Mapping[str, str] = {"driver": sentences.DRIVER, "household": sentences.HOUSEHOLD}.get(match[1], {})
        if match[1] == "code":
            return sentences.code()
        found = next((text for what, text in table.items() if (match[3] or "").startswith(what)), None)
        if found:
            return found
    return next((text for form, text in sentences.OTHERS if re.fullmatch(form, line)), None)
