"""Facts about values for all households whose amounts are within ranges, as the command `facts` of m_survey finds them."""
from __future__ import annotations

import re
from decimal import Decimal
from typing import Iterator, Mapping, NamedTuple, Sequence, Union

from .errors import Broken, Refused
from .program import ENCODING, Amount, csv_text, spelled
from .shown import section, short, table

HEAD = ["code", "given", "least", "greatest"]
GIVEN = ("yes", "no", "maybe")
AMOUNT = r"-?[0-9]+(?:\.[0-9]+)?"
NEVER = re.compile(r"never stops ([^ ]+) ([^ ]+)")


class Range(NamedTuple):
    """The amounts that an input may have: from `least` to `greatest`, or all of its type where these are None. `given` is "yes" where it has an amount, "no"
    where it has none, and "maybe" where either may be."""

    least: Amount = None
    greatest: Amount = None
    given: str = "maybe"


Within = Union[Range, tuple[Amount, Amount], str]
"""The amounts of an input: a range, its ends, or "yes", "no" or "maybe" for all amounts of its type."""


class Fact(NamedTuple):
    """What a value may be: an amount from `least` to `greatest` where it has these, undefined, beyond the greatest amount; and the codes of the inputs on
    which it may depend."""

    least: Decimal | None
    greatest: Decimal | None
    undefined: bool
    over: bool
    depends: tuple[str, ...]

    def __str__(self) -> str:
        amounts = [] if self.least is None else [f"{self.least:f}" if self.least == self.greatest else f"{self.least:f} to {self.greatest:f}"]
        return " or ".join([*amounts, *(["undefined"] if self.undefined else []), *(["over"] if self.over else [])])


class Facts(Mapping[str, Fact]):
    """The facts of requested values by their names, in order.

    `never_stops` has the verifications that stop and note no household within the ranges, each with its number and its error. `digests` are those of the source
    and of the program.
    """

    def __init__(self, facts: Mapping[str, Fact], never_stops: Sequence[tuple[str, str]], digests: tuple[str, str]):
        self._facts, self.never_stops, self.digests = dict(facts), list(never_stops), digests

    def __getitem__(self, name: str) -> Fact:
        return self._facts[name]

    def __iter__(self) -> Iterator[str]:
        return iter(self._facts)

    def __len__(self) -> int:
        return len(self._facts)

    def __repr__(self) -> str:
        return f"<Facts of {len(self)} values, {len(self.never_stops)} verifications never stop; rules {short(self.digests[0])}>"

    def _repr_html_(self) -> str:
        rows = [[name, str(fact), " ".join(fact.depends)] for name, fact in self.items()]
        never = [f"never stops {number} {error}" for number, error in self.never_stops]
        return section([repr(self).strip("<>")], table(["value", "is", "depends on"], rows) + section(never or ["no verification is known to stop nobody"]))


def ranges_text(ranges: Mapping[str, Within]) -> bytes:
    """Ranges as the program reads them."""
    rows = []
    for code, within in ranges.items():
        made = Range(given=within) if isinstance(within, str) else Range(*within)
        if made.given not in GIVEN:
            raise ValueError(f'{code}: an input is given "yes", "no" or "maybe", and not {made.given!r}')
        rows.append([code, made.given, *("" if end is None else spelled(code, end) for end in (made.least, made.greatest))])
    return csv_text([HEAD, *rows]).encode(ENCODING)


def facts_of(text: str, digests: tuple[str, str]) -> Facts:
    """The facts in the lines of the program."""
    facts: dict[str, Fact] = {}
    depends: dict[str, tuple[str, ...]] = {}
    never = []
    for line in text.split("\n")[:-1]:
        words = line.split(" ")
        if words[0] == "depends" and len(words) > 1:
            depends[words[1]] = tuple(words[2:])
        elif found := NEVER.fullmatch(line):
            never.append((found[1], found[2]))
        else:
            name, fact = fact_of(line)
            facts[name] = fact
    if depends.keys() != facts.keys():
        raise Broken("the program's facts don't tell of each value on what it depends")
    return Facts({name: fact._replace(depends=depends[name]) for name, fact in facts.items()}, never, digests)


def fact_of(line: str) -> tuple[str, Fact]:
    """The fact in a line, as `IRN 0 to 9000 or undefined`."""
    name, _, rest = line.partition(" ")
    kinds = rest.split(" or ") if rest else []
    least = greatest = None
    if kinds and kinds[0] not in ("undefined", "over"):
        ends = kinds.pop(0).split(" to ")
        if not all(re.fullmatch(AMOUNT, end) for end in ends) or len(ends) > 2:
            raise Broken(f"a line of facts that is none: {line}")
        least, greatest = Decimal(ends[0]), Decimal(ends[-1])
    if not name or kinds not in ([], ["undefined"], ["over"], ["undefined", "over"]):
        raise Broken(f"a line of facts that is none: {line}")
    return name, Fact(least, greatest, "undefined" in kinds, "over" in kinds, ())


def without_facts(refused: Refused) -> Refused | Broken:
    """The error where the program has no such command."""
    return Broken("this m_survey has no command facts: a newer one has") if refused.line.startswith("usage: ") else refused
