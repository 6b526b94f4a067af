"""Edits that fix a diagnostic: a sign that is missing, a comma for a decimal point, a name that is nearly another."""
from __future__ import annotations

import re
from collections.abc import Iterator
from typing import Any

from .. import items, source
from ..drivers import RESERVED as OF_DRIVERS
from ..grammar import RESERVED, meant
from . import diagnostics
from .context import Context, range_of, read_text
from .near import near
from .occurrences import bases_at
from .pieces import RuleText
from .texts import Text
from .workspace import DriverText

Edit = tuple[int, int, str]
Diagnostic = dict[str, Any]


def code_actions(context: Context, params: dict[str, Any]) -> list[dict[str, Any]]:
    """The quick fixes of the diagnostics that touch a range."""
    text = read_text(context, params)
    begin, end = range_of(text, params)
    context.workspace.look_at_text(text, context.tick)
    found = []
    for reported in diagnostics.of_text(context.workspace, text):
        if "data" in reported and text.byte(reported["range"]["start"]) <= end and text.byte(reported["range"]["end"]) >= begin:
            context.tick()
            for title, edits in mended(context, text, reported):
                changes = [{"range": text.range(first, last), "newText": new} for first, last, new in edits]
                shown = {name: value for name, value in reported.items() if name != "data"}
                found.append({"title": title, "kind": "quickfix", "diagnostics": [shown], "edit": {"changes": {text.uri: changes}}})
    return found


def mended(context: Context, text: Text, reported: Diagnostic) -> Iterator[tuple[str, list[Edit]]]:
    """What mends a diagnostic: a title with edits, the likeliest first."""
    data, begin, end = reported["data"], text.byte(reported["range"]["start"]), text.byte(reported["range"]["end"])
    what = data["what"]
    if what.startswith(("unknown name ", "unknown error ", "unknown ")):
        yield from other_names(context, text, data, begin, end)
    elif what.startswith("restituee = "):
        number = re.compile(rb"\s*=\s*-?\s*[0-9.]+").match(text.content, end)
        if number:
            yield "write restituee alone", [(number.start(), number.end(), "")]
    elif what.startswith("the attribute "):
        yield "did you mean restituee?", [(begin, end, "restituee")]
    elif what == "syntax" and isinstance(text, DriverText):
        yield from in_driver(text, data, begin, end)
    elif what == "syntax" and isinstance(text, RuleText):
        yield from in_rules(text, data, begin, end)
    elif what == "bad byte" and data["found"] in items.SIGNS:
        sign = items.SIGNS[data["found"]]
        yield f"write {sign}", [(begin, end, sign)]
    elif what == "bad byte" and data["found"].strip(items.BLANKS) == "":
        yield "write a blank", [(begin, end, " ")]
    elif what == "bad byte" and data["found"] == "a byte order mark":
        yield "leave the byte order mark out", [(0, len(source.MARK), "")]
    elif what == "bad token" and data["found"] == "\t":
        yield "write spaces for the tab", [(begin, begin + 1, "  ")]


def other_names(context: Context, text: Text, data: dict[str, Any], begin: int, end: int) -> Iterator[tuple[str, list[Edit]]]:
    """Names that are nearly the one that nothing declares."""
    word, name = data["token"], data["what"].split(" ")[-1].split("[")[0]
    if word != name:
        return  # (a word with letters of loops)
    for base in bases_at(context.workspace, text):
        for other in near(name, base.errors if data["what"].startswith("unknown error") else base.variables):
            yield f"did you mean {other}?", [(begin, end, other)]
        if isinstance(text, DriverText):
            for other in near(name, [function for function, _ in text.driver.functions] + ["call_m"]):
                yield f"did you mean {other}?", [(begin, end, other)]


# ---- rule files


def in_rules(text: RuleText, data: dict[str, Any], begin: int, end: int) -> Iterator[tuple[str, list[Edit]]]:
    """The fixes of a fault of grammar, by the tokens round it and by the expected ones."""
    before, after = tokens_round(text, begin)
    wanted, found = data["wanted"], data["found"]
    yield from third_argument(text, found, before, after, begin)
    last = before[-1] if before else None
    if found == "," and last and last.kind == "number" and after and after[0].kind == "number":
        yield f"write a point: {last.text}.{after[0].text}", [(last.byte + len(last.text), after[0].byte, ".")]
    if last is not None:
        at = last.byte + len(last.text)
        begins = found == "the end of the file" or found in ("regle", "verif", "si", "pour") or bool(after) and after[0].text in ("=", ":", "[")
        if ";" in wanted and begins:
            yield "put ; in", [(at, at, " ;")]
        if ":" in wanted and (begins or len(wanted) == 1):
            yield "put : in", [(at, at, " :")]
        if ")" in wanted and found in (";", "alors", "sinon", "finsi"):
            yield "put ) in", [(at, at, ")")]
        if "finsi" in wanted and found in (";", ")"):
            yield "put finsi in", [(at, at, " finsi")]
    word = meant(last.text) if last is not None and last.kind == "word" and last.text not in RESERVED else None
    if last is not None and word and (found == "(" or word in ("si", "non", "somme")):
        yield f"write {word}", [(last.byte, last.byte + len(last.text), word)]
    if found == "=" and last and last.text in ("=", "<", ">", "!=", "<=", ">="):
        yield "leave the second = out", [(last.byte + len(last.text), end, "")]
    if re.fullmatch("[A-Za-z0-9_]+", found) and found not in RESERVED:
        if word := meant(found):
            yield f"write {word}", [(begin, end, word)]
        for word in near(found, [word for word in wanted if word in RESERVED]):
            yield f"did you mean {word}?", [(begin, end, word)]
        if found.upper() != found and any(what.startswith(("a declaration", "a name in capital")) for what in wanted):
            yield f"did you mean {found.upper()}?", [(begin, end, found.upper())]


def tokens_round(text: RuleText, begin: int) -> tuple[list[source.Token], list[source.Token]]:
    """The tokens before a byte, from the piece before its own on, and those after the token at it, to the end of the next piece."""
    number = text.at(begin)
    first, last = max(0, number - 1), min(len(text.pieces) - 1, number + 1)
    tokens: list[source.Token] = []
    start = text.pieces[first].begin
    items.take_tokens(text.content[: text.pieces[last].end], start, tokens, [], is_cut=text.is_cut)
    return [token for token in tokens if token.byte < begin], [token for token in tokens if token.byte > begin]


def third_argument(text: RuleText, found: str, before: list[source.Token], after: list[source.Token], begin: int) -> Iterator[tuple[str, list[Edit]]]:
    """`max(a, b, c)` as `max(a, max(b, c))`."""
    if found != ",":
        return
    depth, comma = 0, None
    for number in range(len(before) - 1, 0, -1):
        token = before[number]
        depth += (token.text in (")", "]")) - (token.text in ("(", "["))
        if depth == 0 and token.text == ",":
            comma = comma or token
        if depth < 0:
            called = before[number - 1].text
            close = closing(after)
            if called in ("max", "min") and comma is not None and close is not None:
                second = next(other for other in before if other.byte > comma.byte)
                yield f"write {called}(a, {called}(b, c))", [(second.byte, second.byte, f"{called}("), (close.byte, close.byte, ")")]
            return


def closing(after: list[source.Token]) -> source.Token | None:
    """The bracket that closes what is open before these tokens, unless a comma or the end of the piece comes before it."""
    depth = 0
    for token in after:
        if depth == 0 and token.text in (")", ",", ";"):
            return token if token.text == ")" else None
        depth += (token.text in ("(", "[")) - (token.text in (")", "]"))
    return None


# ---- drivers


def in_driver(text: DriverText, data: dict[str, Any], begin: int, end: int) -> Iterator[tuple[str, list[Edit]]]:
    number = text.line_of(begin)
    line, wanted, found = text.line(number), data["wanted"], data["found"]
    code = line.split(b"#")[0].rstrip()
    stop = text.starts[number] + len(code)
    if ":" in wanted and found == "the end of the line":
        yield "put : in", [(stop, stop, ":")]
    if found == "=" and ":" in wanted:
        yield "write == to compare", [(begin, end, "==")]
    if found == "<" and "<-" in wanted:
        minus = re.compile(rb"< +-").match(text.content, begin)
        if minus:
            yield "write <- without a blank", [(begin, minus.end(), "<-")]
    decimal = re.search(rb"([0-9]+) *, *([0-9]+)", code)
    if found == "," and decimal and text.starts[number] + decimal.start() <= begin <= text.starts[number] + decimal.end():
        first, last = text.starts[number] + decimal.end(1), text.starts[number] + decimal.start(2)
        yield f"write a point: {decimal[1].decode()}.{decimal[2].decode()}", [(first, last, ".")]
    if ")" in wanted:
        yield "put ) in", [(begin, begin, ")")]
    if re.fullmatch("[A-Za-z0-9_]+", found):
        for word in near(found, [word for word in wanted if word in OF_DRIVERS]):
            yield f"did you mean {word}?", [(begin, end, word)]
