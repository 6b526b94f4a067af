"""What a request is answered from, and what its parameters name."""
from __future__ import annotations

from collections.abc import Callable
from typing import TYPE_CHECKING, Any, NamedTuple

from .occurrences import Symbol, symbol_at
from .pieces import RuleText
from .protocol import INVALID_PARAMS, ResponseError
from .texts import Text
from .workspace import Workspace

if TYPE_CHECKING:
    from .saved import Runs


class Context(NamedTuple):
    """What is known, a call that ends cancelled work, and the program's results."""

    workspace: Workspace
    tick: Callable[[], None]
    runs: Runs


def text_of(workspace: Workspace, params: dict[str, Any]) -> Text:
    """The text that the parameters name."""
    document = params.get("textDocument")
    uri = document.get("uri") if isinstance(document, dict) else None
    if not isinstance(uri, str):
        raise ResponseError(INVALID_PARAMS, "textDocument has a uri")
    text = workspace.text(uri)
    if text is None:
        raise ResponseError(INVALID_PARAMS, f"{uri} isn't open, and no list that is known names it")
    return text


def read_text(context: Context, params: dict[str, Any]) -> Text:
    """The text that the parameters name, read to its end."""
    text = text_of(context.workspace, params)
    context.workspace.finish(text, context.tick)
    return text


def byte_of(text: Text, params: dict[str, Any]) -> int:
    return text.byte(params.get("position"))


def symbol(context: Context, params: dict[str, Any]) -> Symbol | None:
    """The symbol at the place that the parameters name; all files are read before."""
    text = text_of(context.workspace, params)
    context.workspace.finish(None, context.tick)
    return symbol_at(text, byte_of(text, params))


def range_of(text: Text, params: dict[str, Any]) -> tuple[int, int]:
    where = params.get("range")
    if not isinstance(where, dict):
        raise ResponseError(INVALID_PARAMS, "a range has a start and an end")
    begin, end = sorted((text.byte(where.get("start")), text.byte(where.get("end"))))
    return begin, end


def pieces_in(text: RuleText, begin: int, end: int) -> range:
    """The numbers of the pieces that have bytes of a range."""
    first = max(0, text.at(begin))
    last = max(first, text.at(end))
    return range(first, min(last + 1, len(text.pieces)))
