"""Tables of cases: households with expected values, of which the program prints those that aren't met."""
from __future__ import annotations

import re
from typing import Any, Iterable, NamedTuple, Union

from .answers import Value, value_of
from .errors import Broken

STOP = "stop"
LINE = re.compile(r"mismatch (.*) ([^ ]+) expected (\S+) got (\S+)")
LAST = re.compile(r"cases ([0-9]+) mismatches ([0-9]+)")
Expected = Union[Value, str]


class Mismatch(NamedTuple):
    """An expectation that isn't met: the household's label, the name of the value, what the table expects and what the rules give. Each of these is an amount,
    None where it is undefined, OVER, or the text "stop"."""

    household: str
    name: str
    expected: Expected
    got: Expected


class Mismatches(list[Mismatch]):
    """The mismatches of a table, in their order. `digests` are those of the source and of the program."""

    def __init__(self, found: Iterable[Mismatch], digests: tuple[str, str]):
        super().__init__(found)
        self.digests = digests

    def __reduce__(self) -> tuple[Any, ...]:
        return Mismatches, (list(self), self.digests)


def mismatches_of(lines: list[str], digests: tuple[str, str]) -> Mismatches:
    """The mismatches that the program printed."""
    *printed, last = lines or [""]
    count, found = LAST.fullmatch(last), [LINE.fullmatch(line) for line in printed]
    if count is None or int(count[2]) != len(printed):
        raise Broken(f"a last line of cases that is none: {last}")
    return Mismatches((Mismatch(*parts(one, line)) for one, line in zip(found, printed)), digests)


def parts(found: re.Match[str] | None, line: str) -> tuple[str, str, Expected, Expected]:
    """The parts of a line."""
    if found is None:
        raise Broken(f"a line of cases that is none: {line}")
    return found[1], found[2], expected_of(found[3]), expected_of(found[4])


def expected_of(text: str) -> Expected:
    return STOP if text == STOP else value_of(f"value {text}" if text in ("undefined", "over") else f"value = {text}")
