"""What a file consists of: its rules, verifications, declarations; names in all files; and what can be folded."""
from __future__ import annotations

from collections.abc import Iterator
from typing import Any

from .. import items
from .context import Context, read_text
from .hover import text_of as text_without_quotes
from .pieces import Check, Formula, Head, Piece, RuleText
from .protocol import INVALID_PARAMS, ResponseError
from .texts import Text
from .workspace import DriverText

MOST_SYMBOLS = 200
VARIABLE, CONSTANT, FIELD, ENUM_MEMBER, FUNCTION, ARRAY, EVENT = 13, 14, 8, 22, 12, 18, 24

Symbol = dict[str, Any]


def document_symbols(context: Context, params: dict[str, Any]) -> list[Symbol]:
    text = read_text(context, params)
    if isinstance(text, DriverText):
        return symbols_of_driver(text)
    found: list[Symbol] = []
    inside: Symbol | None = None
    for piece in text.pieces if isinstance(text, RuleText) else []:
        context.tick()
        if isinstance(piece.item, (Head, items.Declaration)):
            inside = None
        one = symbol_of(piece)
        if one is None:
            continue
        if inside is not None:
            inside["children"].append(one)
            inside["range"]["end"] = one["range"]["end"]
        else:
            found.append(one)
        if isinstance(piece.item, Head):
            inside = one
    return found


def symbol_of(piece: Piece) -> Symbol | None:
    """A piece as a symbol of the protocol."""
    item, text = piece.item, piece.text
    if item is None:
        return None
    name, kind, detail, length = described(piece)
    begin = piece.begin + item.byte
    made = {"name": name, "detail": detail, "kind": kind, "range": text.range(begin, piece.end), "selectionRange": text.range(begin, begin + length)}
    return {**made, "children": []} if isinstance(item, Head) else made


def described(piece: Piece) -> tuple[str, int, str, int]:
    """The name, the kind and the detail of a piece, and the length of what is selected."""
    item = piece.item
    if isinstance(item, Head):
        return f"{item.kind} {item.number}", FUNCTION if item.kind == "regle" else EVENT, "", len(item.kind)
    if isinstance(item, Formula):
        slot = "" if item.slot is None else f"[{item.slot}]"
        return item.target + slot, FIELD, "", len(item.target)
    if isinstance(item, Check):
        return item.error, FIELD, "", len("si")
    texts = [text_without_quotes(piece, text) for text in item.texts]
    kind = ENUM_MEMBER if item.kind in items.KINDS_OF_ERRORS else CONSTANT if item.kind == "const" else ARRAY if item.size is not None else VARIABLE
    detail = item.number or ":".join(texts)
    return item.name, kind, f"{item.code} {detail}" if item.code else detail, len(item.name)


def symbols_of_driver(text: DriverText) -> list[Symbol]:
    functions = text.driver.functions
    found = []
    for (name, line), after in zip(functions, [*functions[1:], None]):
        last = after[1] - 2 if after is not None else len(text.starts) - 1
        begin = text.starts[line - 1]
        end = text.starts[last] + len(text.line(last))
        found.append({"name": name, "kind": FUNCTION, "range": text.range(begin, end), "selectionRange": text.range(begin, begin + len(name))})
    return found


def workspace_symbols(context: Context, params: dict[str, Any]) -> list[Symbol]:
    """Variables, codes and errors that have the letters of a query, those first that begin with them; then those whose description has them."""
    query = params.get("query")
    if not isinstance(query, str):
        raise ResponseError(INVALID_PARAMS, "a query is a text")
    context.workspace.finish(None, context.tick)
    wanted = query.lower()
    ranked: dict[Piece, tuple[int, str, str, int]] = {}
    for base in context.workspace.bases.values():
        for place in (base.variables, base.errors):
            for pieces in place.pieces.values():
                for piece in pieces:
                    rank = rank_of(piece, wanted)
                    if rank is not None:
                        ranked[piece] = (rank, piece.item.name, piece.text.uri, piece.begin)
        context.tick()
    best = sorted(ranked, key=lambda piece: ranked[piece])[:MOST_SYMBOLS]
    return [workspace_symbol(piece) for piece in best]


def rank_of(piece: Piece, wanted: str) -> int | None:
    name, code = piece.item.name.lower(), (piece.item.code or "").lower()
    if name.startswith(wanted) or code == wanted:
        return 0
    if wanted in name or wanted and wanted in code:
        return 1
    return 2 if len(wanted) > 2 and any(wanted in text_without_quotes(piece, text).lower() for text in piece.item.texts) else None


def workspace_symbol(piece: Piece) -> Symbol:
    name, kind, detail, length = described(piece)
    begin = piece.begin + piece.item.byte
    return {"name": name, "kind": kind, "containerName": detail, "location": {"uri": piece.text.uri, "range": piece.text.range(begin, begin + length)}}


# ---- folding


def folding_ranges(context: Context, params: dict[str, Any]) -> list[dict[str, Any]]:
    """Rules and verifications, pieces of several lines, runs of comments; of drivers blocks."""
    text = read_text(context, params)
    if isinstance(text, DriverText):
        found = list(blocks(text))
    else:
        found = [*comments(text), *(rules(text) if isinstance(text, RuleText) else [])]
    context.tick()
    return [{"startLine": first, "endLine": last, **({"kind": kind} if kind else {})} for first, last, kind in sorted(found) if last > first]


def rules(text: RuleText) -> Iterator[tuple[int, int, str]]:
    head: int | None = None
    last = 0
    for piece in text.pieces:
        if piece.item is None:
            continue
        if not isinstance(piece.item, (Formula, Check)) and head is not None:
            yield head, last, ""
            head = None
        first = text.line_of(piece.begin + piece.item.byte)
        last = text.line_of(max(piece.begin, piece.end - 1))
        if isinstance(piece.item, Head):
            head = first
        elif last > first:
            yield first, last, ""
    if head is not None:
        yield head, last, ""


def comments(text: Text) -> Iterator[tuple[int, int, str]]:
    """Runs of lines that are comments alone."""
    first: int | None = None
    number = -1
    for number, line in enumerate(text.content.split(b"\n")):
        is_comment = line.lstrip(b" \t").startswith(b"#")
        if is_comment and first is None:
            first = number
        elif not is_comment and first is not None:
            yield first, number - 1, "comment"
            first = None
    if first is not None:
        yield first, number, "comment"


def blocks(text: DriverText) -> Iterator[tuple[int, int, str]]:
    """Each line with the lines below it that have more indentation."""
    open_lines: list[tuple[int, int]] = []
    last = 0
    for line, _ in text.driver.said:
        while open_lines and open_lines[-1][0] >= line.indent:
            yield open_lines.pop()[1], last, ""
        open_lines.append((line.indent, line.number - 1))
        last = line.number - 1
    for _, first in open_lines:
        yield first, last, ""
