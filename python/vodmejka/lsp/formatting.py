"""The layout of a text as edits."""
from __future__ import annotations

from typing import Any

from .. import source
from .context import Context, pieces_in, range_of, read_text
from .layout import joined, laid_out, rows_of
from .pieces import RuleText
from .protocol import REQUEST_FAILED, ResponseError
from .texts import Text
from .workspace import DriverText


def formatting(context: Context, params: dict[str, Any]) -> list[dict[str, Any]]:
    """The edits that bring a text into the layout. A text with faults of tokens or grammar is left as it is, and the fault reported."""
    text = read_text(context, params)
    try:
        made = laid_out(text.content, isinstance(text, DriverText))
    except source.Refused as fault:
        raise ResponseError(REQUEST_FAILED, f"not laid out: {fault}") from fault
    return edits(text, 0, len(text.content), made)


def range_formatting(context: Context, params: dict[str, Any]) -> list[dict[str, Any]]:
    """The same of the pieces of a range, each whole; a range of a driver is the driver."""
    text = read_text(context, params)
    if not isinstance(text, RuleText):
        return formatting(context, params)
    pieces = [text.pieces[number] for number in pieces_in(text, *range_of(text, params))]
    faulty = next((piece for piece in pieces if piece.faults), None)
    if faulty is not None:
        raise ResponseError(REQUEST_FAILED, f"not laid out: line {text.line_of(faulty.begin + faulty.faults[0].byte) + 1}: {faulty.faults[0].what}")
    begin, end = pieces[0].begin, pieces[-1].end
    made = joined(rows_of(pieces), text.content)
    if begin > 0:
        # (the piece before stays as it is: its comment, the end of its line and a blank line)
        gap = text.content[begin:end]
        feed = gap.find(b"\n")
        kept = gap[: feed + 1] if feed >= 0 and not gap[:feed].strip(b" \t\r") else b""
        begin += len(kept)
        made = made if kept else b"\n" + made
    return edits(text, begin, end, made.removesuffix(b"\n").removesuffix(b"\r") if end < len(text.content) else made)


def edits(text: Text, begin: int, end: int, made: bytes) -> list[dict[str, Any]]:
    """One edit of the lines that differ; none where they are equal."""
    old = text.content[begin:end]
    if old == made:
        return []
    first = old.rfind(b"\n", 0, common(old, made)) + 1
    last = common(old[first:][::-1], made[first:][::-1])
    feed = old.find(b"\n", len(old) - last)
    last = len(old) - feed - 1 if last and feed >= 0 else 0
    piece = made[first : len(made) - last]
    return [{"range": text.range(begin + first, end - last), "newText": text.decoded(piece)}]


def common(one: bytes, other: bytes) -> int:
    """How many bytes two pieces have in common at their begin."""
    low, high = 0, min(len(one), len(other))
    while low < high:
        middle = (low + high + 1) // 2
        if one[low:middle] == other[low:middle]:
            low = middle
        else:
            high = middle - 1
    return low
