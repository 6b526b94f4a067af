"""Columns of frames as the bytes of a table, by numpy: no object is made for a number."""
from __future__ import annotations

import decimal
import re
from typing import TYPE_CHECKING, Any, Sequence

from .limits import AMOUNT
from .program import Amount, spelled

if TYPE_CHECKING:
    import numpy
    import pandas

    Bytes = numpy.ndarray[Any, numpy.dtype[numpy.uint8]]
    Numbers = numpy.ndarray[Any, Any]

MILLION = 1_000_000
FIFTEEN_DIGITS = 10**9  # below it an amount has at most fifteen digits, so that a float shows one alone
LONGEST = 400
PLAIN = re.compile(r"[-+0-9.]+")
ZERO, MINUS, POINT, COMMA, LINE = b"0-.,\n"


class NoAmount(Exception):
    """A cell is no amount: the number of its row, and which it is and why."""

    def __init__(self, row: int, why: str):
        super().__init__(why)
        self.row, self.why = row, why


def rows_of(label: bytes, columns: Sequence[pandas.Series[Any]], codes: Sequence[str]) -> bytes:
    """The rows of a table, each with the same label. NoAmount names the first row with a cell that is none, from 0."""
    import numpy

    count = len(columns[0])
    pieces: list[Bytes] = [numpy.broadcast_to(numpy.frombuffer(label, numpy.uint8), (count, len(label)))]
    comma = numpy.full((count, 1), COMMA, numpy.uint8)
    faults = []
    for code, column in zip(codes, columns):
        try:
            pieces += [comma, *cells_of(code, column)]
        except NoAmount as fault:
            faults.append(NoAmount(fault.row, f"code {code}: {fault.why}"))
    if faults:
        raise min(faults, key=lambda fault: fault.row)
    pieces.append(numpy.full((count, 1), LINE, numpy.uint8))
    return numpy.concatenate(pieces, axis=1).tobytes().translate(None, b"\0")


def cells_of(code: str, column: pandas.Series[Any]) -> list[Bytes]:
    """The cells of a column, as bytes side by side, among which are zeros that are left out of the table."""
    dtype = getattr(column.dtype, "numpy_dtype", column.dtype)
    kind = getattr(dtype, "kind", "O")
    missing = column.isna().to_numpy()
    if kind not in "biuf" or getattr(dtype, "itemsize", 8) > 8:
        return [texts(code, column, missing)]
    values: Numbers = column.to_numpy() if dtype is column.dtype else column.to_numpy(dtype=dtype, na_value=0)
    if kind == "b":
        values = values.astype("int64")
    beyond = ~((values <= AMOUNT) & (values >= -AMOUNT)) & ~missing
    if beyond.any():
        row = int(beyond.argmax())
        raise NoAmount(row, f"{values[row]} is {'beyond the greatest amount' if abs(values[row]) < float('inf') else 'no amount'}")
    return floats(code, values, missing) if kind == "f" else whole(values.astype("int64"), missing)


def whole(values: Numbers, missing: Numbers) -> list[Bytes]:
    """Whole numbers: their signs, where one is below 0, and their digits."""
    import numpy

    made = digits(numpy.abs(values), 1)
    made[missing] = 0
    if not (values < 0).any():
        return [made]
    return [numpy.where((values < 0) & ~missing, MINUS, 0).astype(numpy.uint8)[:, None], made]


def digits(values: Numbers, least: int) -> Bytes:
    """The digits of whole numbers of 0 or more, with at least `least`; zeros precede them."""
    import numpy

    greatest = int(values.max()) if len(values) else 0
    width = max(least, len(str(greatest)))
    left = values.astype(numpy.uint32 if greatest < 1 << 32 else numpy.uint64)
    made = numpy.empty((len(values), width), numpy.uint8)
    for at in range(width - 1, -1, -1):
        rest = left // 10
        made[:, at] = left - rest * 10 + ZERO
        if at < width - least:
            made[:, at] *= left != 0
        left = rest
    return made


def floats(code: str, values: Numbers, missing: Numbers) -> list[Bytes]:
    """Floats: whole ones, those of a few decimals, and others as they are shown."""
    import numpy

    values = numpy.where(missing, 0, values)
    size = numpy.abs(values).astype("float64")
    units = numpy.floor(size)
    parts = numpy.rint((size - units) * MILLION)
    is_plain = size == units
    if is_plain.all():
        return whole(values.astype("int64"), missing)
    if values.dtype == numpy.float64:
        is_plain |= (size < FIFTEEN_DIGITS) & ((units * MILLION + parts) / MILLION == size)
    has_part = is_plain & (parts > 0)
    pieces = [numpy.where((values < 0) & is_plain, MINUS, 0).astype(numpy.uint8)[:, None]]
    point = numpy.full((len(values), 1), POINT, numpy.uint8)
    decimals = numpy.concatenate([point, digits(numpy.where(has_part, parts, 0).astype("int64"), 6)], axis=1)
    pieces += [digits(units.astype("int64"), 1) * (is_plain & ~missing)[:, None].astype(numpy.uint8), decimals * has_part[:, None].astype(numpy.uint8)]
    if not is_plain.all():
        others = numpy.flatnonzero(~is_plain)
        shown = narrow(values.dtype)
        distinct, which = numpy.unique(values[others], return_inverse=True)
        spelling = bytes_of([str(exact(code, value, shown)) for value in distinct.tolist()])
        made = numpy.zeros((len(values), spelling.shape[1]), numpy.uint8)
        made[others] = spelling[which]
        pieces.append(made)
    return pieces


def texts(code: str, column: pandas.Series[Any], missing: Numbers) -> Bytes:
    """Decimals, texts and what else is an amount of its own, one by one."""
    made = []
    for row, value in enumerate(column):
        try:
            text = "" if missing[row] else str(exact(code, value))
        except (TypeError, ValueError, OverflowError):
            raise NoAmount(row, f"{value} is no amount") from None
        if text and (len(text) > LONGEST or not PLAIN.fullmatch(text)):
            raise NoAmount(row, f"{text[:LONGEST]} is no amount")
        made.append(text)
    return bytes_of(made)


def bytes_of(rows: Sequence[str]) -> Bytes:
    """Texts of ASCII, each with zeros after it."""
    import numpy

    made = numpy.array([row.encode("ascii") for row in rows], dtype="S")
    return made.view(numpy.uint8).reshape(len(rows), made.dtype.itemsize)


# ---- amounts


def narrow(dtype: Any) -> Any:
    """The type of the values of a column of short floats, which pandas hands out as long ones that show other digits; None of another column."""
    dtype = getattr(dtype, "numpy_dtype", dtype)
    return dtype.type if getattr(dtype, "kind", "") == "f" and dtype.itemsize < 8 else None


def exact(code: str, value: Any, shown: Any = None) -> Amount:
    """A value of a frame as an amount: whole numbers of any kind, decimals and texts. A float is taken where it is whole, and else as it is shown, as of the
    type that is given."""
    if hasattr(value, "item"):
        value = value.item()
    if isinstance(value, bool):
        return int(value)
    if isinstance(value, float):
        return int(value) if value.is_integer() else f"{decimal.Decimal(repr(value) if shown is None else str(shown(value))):f}"
    spelled(code, value)
    return value  # type: ignore[no-any-return]
