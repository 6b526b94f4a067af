"""The values of a household, shown at the formulas: those that the program computed of the files as they are."""
from __future__ import annotations

from typing import Any

from .base import names_of
from .context import Context, pieces_in, range_of, read_text
from .pieces import Formula, Piece, RuleText

MOST = 4


def inlay_hints(context: Context, params: dict[str, Any]) -> list[dict[str, Any]]:
    """A hint after each formula of a range. None are given where a file was changed since the program computed."""
    text = read_text(context, params)
    begin, end = range_of(text, params)
    if not isinstance(text, RuleText):
        return []
    base = next((base for base in context.workspace.bases_of(text) if context.runs.is_current(base)), None)
    outcome = context.runs.values(base) if base is not None else None
    if base is None or outcome is None or outcome.stop:
        return []
    found = []
    for number in pieces_in(text, begin, end):
        piece = text.pieces[number]
        if isinstance(piece.item, Formula) and base.counts(piece):
            label = label_of(piece, outcome.values)
            if label and begin <= piece.end <= end:
                found.append({"position": text.position(piece.end), "label": label, "paddingLeft": True})
    return found


def label_of(piece: Piece, values: dict[str, str]) -> str:
    """The values of what a formula sets."""
    item, shown = piece.item, []
    names = names_of(item.target, item.loops)
    cells = [name if item.slot is None else f"{name}[{item.slot}]" for name in names]
    if item.slot == "X":
        cells = [f"{name}[{number}]" for name in names for number in range(MOST + 1)]
    for cell in cells:
        if cell in values:
            shown.append(values[cell] if len(cells) == 1 else f"{cell} {values[cell]}")
    return ", ".join(shown[:MOST]) + (" .." if len(shown) > MOST else "")
