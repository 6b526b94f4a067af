"""What notebooks show: short pieces of HTML, in which all texts are escaped."""
from __future__ import annotations

import html
from typing import Iterable, Sequence

MOST_ROWS = 30
LONGEST = 200


def cell(value: object) -> str:
    """A value as a text; a long one is cut."""
    text = "" if value is None else str(value)
    return html.escape(text if len(text) <= LONGEST else text[:LONGEST] + " ..")


def table(heads: Sequence[str], rows: Sequence[Sequence[object]]) -> str:
    """A table of some rows, and how many more there are."""
    lines = ["".join(f"<th>{cell(head)}</th>" for head in heads), *("".join(f"<td>{cell(value)}</td>" for value in row) for row in rows[:MOST_ROWS])]
    more = f"<p>and {len(rows) - MOST_ROWS} more</p>" if len(rows) > MOST_ROWS else ""
    return f"<table>{''.join(f'<tr>{line}</tr>' for line in lines)}</table>{more}"


def section(lines: Iterable[object], inner: str = "") -> str:
    """Lines of text, the first of them bold, and what is below them."""
    first, *rest = [cell(line) for line in lines if line not in (None, "")]
    return f"<div><b>{first}</b>{''.join(f'<br>{line}' for line in rest)}{inner}</div>"


def short(digest: str) -> str:
    """As many letters of a digest as distinguish two for a person."""
    return digest[:12]
