"""Frames of pandas: households as rows, whose columns are codes, and their answers as a frame.

Tables and answers are csv of the program m_survey: columns are written by numpy and read by the C parser of pandas, some ten thousand households at a time,
so that no object of Python is made for a household or a number.
"""
from __future__ import annotations

import decimal
import io
import re
from decimal import Decimal
from typing import TYPE_CHECKING, Any, Callable, Iterable, Iterator, Mapping, Sequence

from .answers import LABEL, OVER
from .cells import NoAmount, exact, narrow, rows_of
from .errors import Broken, Refused, Stopped
from .limits import AMOUNT, FILE_BYTES
from .program import ENCODING
from .surveys import FIRST, REFUSED, Run, Survey, body_of

if TYPE_CHECKING:
    import numpy
    import pandas

NUMBERS = ("float64", "micros", "decimal")
STOPS = ("raise", "keep")
MILLIONTH = Decimal(1).scaleb(-6)
EXACT = Decimal(2**53).scaleb(-6)  # below it floats of all millionths differ, except for parts of amounts from APART on
APART = 2**33
INT64 = 2**63
SURE = 2**30  # below it a float has its millionths, by a multiplication and rounding
OVERS = re.compile(rb",over(?=[,\n])")


class Households:
    """The rows of a frame as households. `types` are the types of the codes, and `keep` names the columns that are copied."""

    def __init__(self, frame: pandas.DataFrame, types: Mapping[str, str], keep: Sequence[str]):
        names = [str(column) for column in frame.columns]
        self.frame, self.types, self.keep = frame, types, list(keep)
        self.codes = [name for name in names if name in types]
        if len(set(names)) < len(names):
            raise Refused(f"column {quoted(next(name for name in names if names.count(name) > 1))} stands twice")
        unknown = [name for name in names if name not in types and name not in keep]
        if unknown:
            raise Refused(f"column {quoted(unknown[0])} is no code of the rules: keep=[{', '.join(map(quoted, unknown))}]?")
        missing = [name for name in keep if name not in names]
        if missing:
            raise Refused(f"keep: the frame has no column {quoted(missing[0])}")
        self.columns = {name: frame.iloc[:, at] for at, name in enumerate(names)}

    def label(self, row: int) -> str:
        """A row as messages name it: by its label in the index."""
        label = self.frame.index[row]
        return f"household {quoted(label) if isinstance(label, str) else label}"

    def table(self, begin: int, end: int) -> bytes:
        """Some rows as a table; NoAmount names the first row of the frame with a cell that is no amount."""
        head = ",".join(["name", *self.codes]).encode(ENCODING) + b"\n"
        label = LABEL.encode(ENCODING)
        if not self.codes:
            return head + (label + b"\n") * (end - begin)
        try:
            return head + rows_of(label, [self.columns[code].iloc[begin:end] for code in self.codes], self.codes)
        except NoAmount as fault:
            raise NoAmount(begin + fault.row, f"{self.label(begin + fault.row)}, {fault.why}") from None

    def runs(self, survey: Survey, rows: int) -> Iterator[tuple[int, int, Run]]:
        """The program on so many rows at a time, each started while the one before it is read. Where a cell is no amount, the rows before it come first."""
        left = [(begin, min(begin + rows, len(self.frame))) for begin in range(0, len(self.frame), rows)][::-1]
        waiting: list[tuple[int, int, Run]] = []
        try:
            while left:
                begin, end = left.pop()
                fault = None
                try:
                    table = self.table(begin, end)
                except NoAmount as wrong:
                    fault, left, end = Refused(wrong.why), [], wrong.row
                    table = self.table(begin, end)
                if len(table) > FILE_BYTES and end - begin > 1:
                    half = (begin + end) // 2
                    left += [(half, end), (begin, half)]
                    continue
                if begin < end:
                    waiting.append((begin, end, survey.begun(table)))
                yield from self._yielded(waiting, 0 if fault else 1)
                if fault is not None:
                    raise fault
            yield from self._yielded(waiting, 0)
        finally:
            for _, _, run in waiting:
                run.end()

    @staticmethod
    def _yielded(waiting: list[tuple[int, int, Run]], left: int) -> Iterator[tuple[int, int, Run]]:
        """Yields runs until so many are left."""
        while len(waiting) > left:
            yield waiting[0]
            waiting.pop(0)[2].end()

    def named(self, refused: Refused, begin: int) -> Refused:
        """A message of the program about rows from one on, with the label of the household, and the cell."""
        found = REFUSED.fullmatch(refused.line)
        if found is None or int(found[1]) < 2:
            return refused
        row = begin + int(found[1]) - 2
        return Refused(self._why(row) or f"{self.label(row)}: {refused.line}")

    def _why(self, row: int) -> str | None:
        """Which cell of a row the program refuses, and why."""
        for code in self.codes:
            value = self.columns[code].iloc[row]
            amount = None if missing_value(value) else exact(code, value, narrow(self.columns[code].dtype))
            fault = None if amount is None or amount == "" else fault_of(str(amount), self.types[code])
            if fault is not None:
                return f"{self.label(row)}, code {code}: {value} {fault}"
        return None


def quoted(text: object) -> str:
    return f'"{text}"'


def missing_value(value: Any) -> bool:
    import pandas

    return bool(pandas.isna(value))


def fault_of(text: str, type_: str) -> str | None:
    """What is wrong with an amount of a type; None where nothing is."""
    try:
        amount = Decimal(text)
    except decimal.InvalidOperation:
        return "is no amount"
    if not amount.is_finite() or "e" in text.lower() or "_" in text or text != text.strip():
        return "is no amount"
    if abs(amount) > AMOUNT:
        return "is beyond the greatest amount"
    amount = amount.quantize(MILLIONTH, decimal.ROUND_HALF_UP)
    if type_ == "truth" and amount not in (0, 1):
        return "is neither 0 nor 1"
    return "is not whole" if type_ == "whole" and amount != amount.to_integral_value() else None


# ---- answers


class FrameAnswers:
    """The answers to the households of a frame, as columns, which are filled some rows at a time."""

    def __init__(self, households: Households, names: Sequence[str], numbers: str, stops: str):
        import numpy

        if numbers not in NUMBERS:
            raise ValueError(f"numbers: one of {', '.join(NUMBERS)}, and not {numbers!r}")
        if stops not in STOPS:
            raise ValueError(f'stops: "raise" or "keep", and not {stops!r}')
        self.households, self.requested, self.names = households, list(names), list(dict.fromkeys(names))
        self.numbers, self.stops, count = numbers, stops, len(households.frame)
        self.heads = [*households.keep, *self.names, "over", "notes", *(["stop"] if stops == "keep" else [])]
        twice = [name for name in self.heads if self.heads.count(name) > 1]
        if twice:
            raise Refused(f"column {quoted(twice[0])} would stand twice in the answers: rename it in the frame")
        kind = {"float64": "float64", "micros": "int64", "decimal": "object"}[numbers]
        self.values = {name: numpy.empty(count, kind) for name in self.names}
        self.missing = {name: numpy.zeros(count, bool) for name in self.names if numbers == "micros"}
        self.over, self.notes, self.stop = (numpy.full(count, text, object) for text in ("", "", None))

    def add(self, begin: int, end: int, printed: bytes) -> None:
        """Adds the program's output for some rows."""
        texts = read(printed, self.requested, FIRST[1:], "category")
        if len(texts) != end - begin:
            raise Broken(f"{len(texts)} answers for {end - begin} households")
        self.stop[begin:end] = by_category(texts["stop"], lambda line: line, None)
        self.notes[begin:end] = by_category(texts["notes"], lambda line: " ".join(note.split(" ")[1] for note in line.split("; ")), "")
        if self.names and self.numbers == "decimal":
            self._decimals(begin, end, read(printed, self.requested, self.names, "str"))
        elif self.names:
            self._floats(begin, read(OVERS.sub(b",inf", printed) if b",over" in printed else printed, self.requested, self.names, "float64"), printed)

    def _decimals(self, begin: int, end: int, part: pandas.DataFrame) -> None:
        """Adds values as decimals."""
        known: dict[str, Any] = {"": None, "over": OVER}
        for name in self.names:
            column = part[name].tolist()
            known.update((text, Decimal(text)) for text in set(column) - known.keys())
            self.values[name][begin:end] = [known[text] for text in column]
            self._note_over(begin, name, (part[name] == "over").to_numpy())

    def _floats(self, begin: int, part: pandas.DataFrame, printed: bytes) -> None:
        """Adds values that were read as floats. Great amounts are checked by their texts."""
        import numpy

        end = begin + len(part)
        for name in self.names:
            column = part[name].to_numpy()
            is_over, size = numpy.isinf(column), numpy.abs(column)
            great = numpy.flatnonzero(~is_over & (size >= (APART if self.numbers == "float64" else SURE)))
            amounts = [Decimal(text) for text in read(printed, self.requested, [name], "str")[name].to_numpy()[great]] if len(great) else []
            self._check(begin, name, great, amounts)
            if self.numbers == "float64":
                self.values[name][begin:end] = column
            else:
                self.missing[name][begin:end] = missing = is_over | numpy.isnan(column)
                self.values[name][begin:end] = numpy.rint(numpy.where(missing, 0, column) * 1e6)
                self.values[name][begin + great] = [int(amount.scaleb(6)) for amount in amounts]
            self._note_over(begin, name, is_over)

    def _check(self, begin: int, name: str, rows: Iterable[int], amounts: Sequence[Decimal]) -> None:
        """Refuses amounts that the requested form of numbers doesn't distinguish from others."""
        for row, amount in zip(rows, amounts):
            if self.numbers == "float64" and (abs(amount) >= EXACT or amount != amount.to_integral_value()):
                self._refuse(begin + int(row), name, f'{amount} is not exact in float64: numbers="micros" or numbers="decimal"')
            if self.numbers == "micros" and not -INT64 <= int(amount.scaleb(6)) < INT64:
                self._refuse(begin + int(row), name, f'{amount} has more millionths than an Int64 holds: numbers="decimal"')

    def _refuse(self, row: int, name: str, why: str) -> None:
        raise Refused(f"{self.households.label(row)}, {name}: {why}")

    def _note_over(self, begin: int, name: str, is_over: numpy.ndarray[Any, Any]) -> None:
        """Names a value where it overflowed."""
        for row in is_over.nonzero()[0].tolist():
            self.over[begin + row] = f"{self.over[begin + row]} {name}".strip()

    def frame(self) -> pandas.DataFrame:
        """All rows. Stopped households are an error, unless they are kept."""
        import pandas

        stopped = [row for row, line in enumerate(self.stop) if line is not None] if self.stops == "raise" else []
        if stopped:
            line, count = str(self.stop[stopped[0]]), f"{len(stopped)} of {len(self.stop)} households are stopped"
            raise Stopped(line, f'{self.households.label(stopped[0])}: {line}; {count}: stops="keep" keeps them')
        made: dict[str, Any] = {name: self.households.columns[name].array for name in self.households.keep}
        made.update(self.values)
        made.update((name, pandas.arrays.IntegerArray(self.values[name], missing)) for name, missing in self.missing.items())
        made.update(over=self.over, notes=self.notes)
        if self.stops == "keep":
            made["stop"] = self.stop
        return pandas.DataFrame(made, index=self.households.frame.index, copy=False)


def read(printed: bytes, names: Sequence[str], columns: Sequence[str], kind: str) -> pandas.DataFrame:
    """Some columns of the csv that the program printed for the values of names, by the C parser; nothing but an empty field is missing, and of texts none.
    A float is the one that is nearest to an amount of less than 2^53 millionths."""
    import pandas

    heads = [*FIRST, *names]
    places = [heads.index(column) for column in columns]
    dtypes: Any = {at: kind for at in places}
    kept = {"keep_default_na": False, "na_values": [""]} if kind != "str" else {"na_filter": False}
    words = {"header": None, "skiprows": 1, "usecols": places, "dtype": dtypes, "engine": "c", "encoding": ENCODING, "float_precision": "high", **kept}
    part: pandas.DataFrame = pandas.read_csv(io.BytesIO(printed), low_memory=False, names=range(len(heads)), **words)
    return part.rename(columns=dict(zip(places, columns)))


def by_category(column: pandas.Series[Any], convert: Callable[[str], Any], missing: Any) -> Any:
    """Each text of a column, converted; an empty one is missing."""
    import numpy

    known = [convert(text) for text in column.cat.categories]
    made = numpy.empty(len(known) + 1, object)
    made[:] = [*known, missing]
    return made[column.cat.codes.to_numpy()]


def frame_of(
    survey: Survey, households: Households, names: Sequence[str], numbers: str, stops: str, rows: int
) -> pandas.DataFrame:
    """The answers to the households of a frame, so many rows at a time."""
    answers = FrameAnswers(households, names, numbers, stops)
    for begin, end, run in households.runs(survey, rows):
        try:
            printed = run.printed()
        except Refused as refused:
            raise households.named(refused, begin) from None
        answers.add(begin, end, body_of(printed, names)[:])
    return answers.frame()
