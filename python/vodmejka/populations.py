"""The households of a comparison in parts: those of a frame, or of any iterable of mappings."""
from __future__ import annotations

import io
import itertools
from dataclasses import dataclass
from fractions import Fraction
from typing import TYPE_CHECKING, Any, Callable, Iterable, Iterator, Mapping, NamedTuple, Sequence

from .amounts import UNIT
from .cells import NoAmount
from .columns import numbers
from .errors import Failed, Refused
from .frames import Households, quoted
from .limits import FILE_BYTES, ROWS
from .long_tables import columns_of
from .program import spelled
from .surveys import in_table
from .tables import Tables

if TYPE_CHECKING:
    import pandas


class Names(NamedTuple):
    """The names of a comparison: the codes before and after, the column of weights, the columns of groups, and the columns to be ignored."""

    codes: tuple[set[str], set[str]]
    weight: str | None
    groups: list[str]
    keep: list[str]

    @property
    def columns(self) -> list[str]:
        """The columns that must be there: the weight and the groups."""
        return [*([self.weight] if self.weight is not None else []), *self.groups]


@dataclass
class Portion:
    """Some households: how many, their tables before and after, their weights in millionths, what each grouping has for them, the texts of the amounts of a
    code, and what the program refuses of them with its place among all."""

    count: int
    tables: tuple[bytes, bytes]
    weights: list[int]
    groups: list[list[Any]]
    amounts: Callable[[str], list[str]]
    refusal: Callable[[Refused], Refused]


def portions(households: Any, names: Names, rows: int) -> Iterator[Portion]:
    """The households in parts of at most so many."""
    if hasattr(households, "columns") and hasattr(households, "itertuples"):
        return Frame(households, names).portions(min(rows, ROWS))
    return Mappings(households, names).portions(min(rows, ROWS))


class Frame:
    """The rows of a frame, whose cells are amounts as `Rules.batch` takes them."""

    def __init__(self, frame: pandas.DataFrame, names: Names):
        self._frame, self._names = frame, names
        given, both = [str(column) for column in frame.columns], names.codes[0] | names.codes[1]
        missing = next((name for name in names.columns if name not in given), None)
        if missing is not None:
            raise Refused(f"the frame has no column {quoted(missing)}")
        others = [name for name in dict.fromkeys([*names.columns, *names.keep]) if name not in both and name in given]
        self._all = Households(frame, dict.fromkeys(both, ""), others)
        self._sides = []
        for own in names.codes:
            self._sides.append(Households(frame, dict.fromkeys(own, ""), [*others, *(name for name in self._all.codes if name not in own)]))

    def portions(self, rows: int) -> Iterator[Portion]:
        """The rows in parts."""
        left = [(begin, min(begin + rows, len(self._frame))) for begin in range(0, len(self._frame), rows)][::-1]
        while left:
            begin, end = left.pop()
            try:
                tables = self._tables(begin, end)
            except NoAmount as fault:
                raise Refused(fault.why) from None
            if max(map(len, tables)) > FILE_BYTES and end - begin > 1:
                left += [((begin + end) // 2, end), (begin, (begin + end) // 2)]
                continue
            groups = [list(self._all.columns[name].iloc[begin:end]) for name in self._names.groups]
            yield Portion(end - begin, tables, self._weights(begin, end), groups, self._texts(begin, end), lambda refused: self._sides[0].named(refused, begin))

    def _tables(self, begin: int, end: int) -> tuple[bytes, bytes]:
        first, second = self._sides
        table = first.table(begin, end)
        return table, table if second.codes == first.codes else second.table(begin, end)

    def _texts(self, begin: int, end: int) -> Callable[[str], list[str]]:
        """The texts of the amounts of a code in some rows."""
        return lambda name: self._column(name, begin, end) if name in self._all.codes else [""] * (end - begin)

    def _column(self, name: str, begin: int, end: int) -> list[str]:
        """The texts of a column of amounts."""
        column = Households(self._frame, {name: ""}, [other for other in self._all.columns if other != name])
        table = column.table(begin, end)
        return columns_of(table[table.index(b"\n") + 1 :], end - begin, ["name", name], "the frame")[1]

    def _weights(self, begin: int, end: int) -> list[int]:
        name = self._names.weight
        if name is None:
            return [UNIT] * (end - begin)
        column = self._all.columns[name].iloc[begin:end]
        try:
            texts = self._column(name, begin, end)
        except NoAmount as fault:
            raise Refused(f"{fault.why.partition(', code ')[0]}: the weight {name} is no number: {column.iloc[fault.row - begin]!r}") from None
        try:
            weights = numbers(texts)
        except Failed:
            weights = [-1]
        if min(weights) < 0:
            return [weight_of(self._all.label(row), name, text) for row, text in enumerate(texts, begin)]
        return weights


class Mappings:
    """Households as mappings of names to amounts and other things, which are read once."""

    def __init__(self, households: Iterable[Mapping[str, Any]], names: Names):
        self._names, self._given, self._number = names, iter(households), 0
        self._known = names.codes[0] | names.codes[1] | set(names.columns) | set(names.keep)
        self._is_stable = isinstance(households, (list, tuple))
        self._tables, self._weights = (Tables(), Tables()), dict[Any, int]()

    def portions(self, rows: int) -> Iterator[Portion]:
        """The households in parts."""
        # (an iterator may return one mapping again and again, changed each time)
        while part := [household if self._is_stable else dict(household) for household in itertools.islice(self._given, rows)]:
            for number, household in enumerate(part, self._number):
                self._check(number, household)
            yield self._portion(part)
            self._number += len(part)

    def _portion(self, part: Sequence[Mapping[str, Any]]) -> Portion:
        names, before = self._names, self._number
        written = []
        for own, tables in zip(names.codes, self._tables):
            file = io.BytesIO()
            tables.write([{name: amount for name, amount in household.items() if name in own} for household in part], file)
            written.append(file.getvalue())
        weights = [UNIT] * len(part) if names.weight is None else [self._weight(at, household) for at, household in enumerate(part, before)]
        groups = [[household[name] for household in part] for name in names.groups]
        texts: Callable[[str], list[str]] = lambda name: [text_of(name, household.get(name)) for household in part]
        return Portion(len(part), (written[0], written[1]), weights, groups, texts, lambda refused: in_table(refused, before))

    def _check(self, number: int, household: Mapping[str, Any]) -> None:
        """Refuses a household with a column that nobody needs, or without one that is needed."""
        if not self._known.issuperset(household):
            unknown = next(name for name in household if name not in self._known)
            raise Refused(f"household {number}: column {unknown!r} is no code of the rules: keep=[{unknown!r}]?")
        missing = [name for name in self._names.columns if name not in household]
        if missing:
            raise Refused(f"household {number}: there is no column {missing[0]!r}")

    def _weight(self, number: int, household: Mapping[str, Any]) -> int:
        """The weight of a household in millionths."""
        assert self._names.weight is not None
        given = household[self._names.weight]
        try:
            return self._weights[given]
        except (KeyError, TypeError):
            made = weight_of(f"household {number}", self._names.weight, given)
        if len(self._weights) < ROWS and isinstance(given, (int, float, str)):
            self._weights[given] = made
        return made


def text_of(code: str, amount: Any) -> str:
    """The text of an amount; nothing for none."""
    return "" if amount is None or isinstance(amount, str) and not amount else spelled(code, amount)


def weight_of(household: str, name: str, given: Any) -> int:
    """A weight in millionths."""
    try:
        weight = Fraction(str(given)) * UNIT
    except (ValueError, ZeroDivisionError):
        raise Refused(f"{household}: the weight {name} is no number: {given!r}") from None
    if weight < 0 or weight.denominator != 1:
        raise Refused(f"{household}: the weight {name} is below 0, or has more than six decimals: {given}")
    return int(weight)
