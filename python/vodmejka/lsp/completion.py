"""What may come at a place: by the grammar, and for names by the base."""
from __future__ import annotations

import heapq
import re
from collections.abc import Iterable, Iterator
from typing import Any

from .. import drivers, grammar
from .base import Base
from .context import Context, byte_of, text_of
from .hover import text_of as text_without_quotes
from .occurrences import bases_at
from .pieces import START, Piece, PieceReader, RuleText
from .workspace import DriverText

MOST = 200
KEYWORD, VARIABLE, CONSTANT, FUNCTION, ENUM_MEMBER, PROPERTY, MODULE, OPERATOR = 14, 6, 21, 3, 20, 10, 9, 24
FUNCTIONS = [*grammar.OF_ONE, *grammar.OF_TWO, "somme"]
WORDS_OF = {
    grammar.VALUE: [*FUNCTIONS, "si", "X"],
    grammar.OPERATORS: ["et", "ou", "dans", "non"],
    drivers.VALUE: ["present", "cast", "exists"],
    drivers.OPERATORS: ["and", "or"],
    "a command (A = .., A <- f(), if, partition, del)": ["if", "partition", "del", "else"],
    "a kind (taxbenefit, or avfisc = 1, 2)": ["taxbenefit"],
}

Item = dict[str, Any]


def completion(context: Context, params: dict[str, Any]) -> dict[str, Any]:
    """At most MOST items that begin as the word at the place does; if there are more, the client requests again."""
    text = text_of(context.workspace, params)
    context.workspace.finish(None, context.tick)
    byte = byte_of(text, params)
    match = re.compile(rb"[A-Za-z0-9_]*\Z").search(text.content[max(0, byte - 100) : byte])
    prefix = match[0].decode() if match else ""
    begin = byte - len(prefix)
    bases = bases_at(context.workspace, text)
    wanted: list[str] = []
    if isinstance(text, RuleText):
        wanted = wanted_in_rules(text, begin)
    elif isinstance(text, DriverText):
        wanted = wanted_in_driver(text, begin)
    found = list(items_for(wanted, bases[0] if bases else None, text, prefix))
    where = text.range(begin, byte)
    best = heapq.nsmallest(MOST, found, key=lambda item: (item["sortText"], item["label"]))
    for item in best:
        if (piece := item.pop("piece", None)) is not None:
            item["detail"] = piece.item.number or " : ".join(text_without_quotes(piece, text) for text in piece.item.texts[-1:])
        item["textEdit"] = {"range": where, "newText": item.pop("insert", item["label"])}
    return {"isIncomplete": len(found) > MOST, "items": best}


# ---- what may come at a place


def wanted_in_rules(text: RuleText, begin: int) -> list[str]:
    """What the grammar expects after the tokens of the piece that end before a byte. Within texts and comments it expects nothing."""
    number = max(0, text.at(max(0, begin - 1)) - 1)
    start, state = (text.pieces[number].begin, text.pieces[number].state) if text.pieces else (0, START)
    if is_within(text, start, begin):
        return []
    cut = RuleText(text.path)
    cut.content, cut.is_cut = text.content[:begin], True
    reader = PieceReader(cut, start, state)
    while not reader.is_done:
        reader.next()
        if reader.faults and reader.faults[-1].found == "the end of the file":
            last = reader.tokens[-1].text if reader.tokens else ""
            return [*reader.faults[-1].wanted, *(["an attribute"] if last in ("saisie", "calculee") else [])]
    return at_begin(reader)


def at_begin(reader: PieceReader) -> list[str]:
    """What may come where a piece begins."""
    found = ["regle", "verif", "application", "enchaineur", "a declaration (NAME :)"]
    if reader.inside == "regle":
        found += ["pour", "a name, whose formula follows"]
    return found + (["si"] if reader.inside == "verif" else [])


def is_within(text: RuleText, start: int, begin: int) -> bool:
    """Whether a byte is within a text or a comment."""
    rest = text.content[start:begin]
    at = 0
    for match in re.finditer(rb'"[^"\n]*"?|#[^\n]*', rest):
        at = match.end()
        is_open = match[0].startswith(b"#") or not (len(match[0]) > 1 and match[0].endswith(b'"'))
        if at == len(rest) and is_open:
            return True
    return False


def wanted_in_driver(text: DriverText, begin: int) -> list[str]:
    line = text.content[text.starts[text.line_of(begin)] : begin]
    if b"#" in line:
        return []
    driver = drivers.Driver(b"f():\n  A = 1\n" + (b" " if line[:1] == b" " else b"") + line)
    return next((list(fault.wanted) for fault in driver.faults if fault.line == 3 and fault.what == "syntax"), []) or (
        ["a command (A = .., A <- f(), if, partition, del)"] if not line.strip() else []
    )


# ---- items


def items_for(wanted: list[str], base: Base | None, text: Any, prefix: str) -> Iterator[Item]:
    """The items that may come at a place and begin with a prefix, in any case of letters."""
    lowered = prefix.lower()
    words: dict[str, None] = {}
    for what in wanted:
        words.update(dict.fromkeys(WORDS_OF.get(what, [what] if re.fullmatch("[A-Za-z_]+", what) else [])))
    for word in words:
        if word.lower().startswith(lowered):
            yield item(word, FUNCTION if word in FUNCTIONS else KEYWORD, "", "2")
    if base is None:
        return
    if any(what in wanted for what in (grammar.VALUE, drivers.VALUE, "a name", "a command (A = .., A <- f(), if, partition, del)")):
        yield from variables(base, text, lowered)
    if "a name, whose formula follows" in wanted:
        yield from targets(base, lowered)
    if "the name of an error" in wanted:
        first = [piece for pieces in base.errors.pieces.values() if (piece := base.first(pieces)) is not None]
        yield from (described(piece, ENUM_MEMBER, "1") for piece in first if starts(piece, lowered))
    if "the name of an application" in wanted or "a word" in wanted and "application" not in words:
        yield from (item(name, MODULE, "", "1") for name in applications(base) if name.lower().startswith(lowered))
    if "an attribute" in wanted:
        yield from (item(name, PROPERTY, "", "1") for name in attributes(base) if name.lower().startswith(lowered))
    if "the name of a function, or call_m" in wanted and isinstance(text, DriverText):
        for name in ["call_m", *(name for name, _ in text.driver.functions)]:
            if name.lower().startswith(lowered):
                yield {**item(name, FUNCTION, "", "1"), "insert": f"{name}()"}


def variables(base: Base, text: Any, lowered: str) -> Iterator[Item]:
    """Variables, those of the same file first, and inputs by their codes."""
    for pieces in base.variables.pieces.values():
        piece = base.first(pieces) or pieces[0]
        if starts(piece, lowered):
            yield described(piece, CONSTANT if piece.item.kind == "const" else VARIABLE, "0" if piece.text is text else "1")
        if piece.item.code is not None and piece.item.code.lower().startswith(lowered):
            code = described(piece, VARIABLE, "3")
            yield {**code, "label": f"{piece.item.code} {piece.item.name}", "filterText": piece.item.code, "insert": piece.item.name}


def targets(base: Base, lowered: str) -> Iterator[Item]:
    """Computed variables, those first that no formula sets."""
    for name, pieces in base.variables.pieces.items():
        piece = base.first(pieces) or pieces[0]
        if piece.item.kind == "calculee" and starts(piece, lowered):
            yield described(piece, VARIABLE, "1" if name in base.targets else "0")


def starts(piece: Piece, lowered: str) -> bool:
    return bool(piece.item.name.lower().startswith(lowered))


def described(piece: Piece, kind: int, sort: str) -> Item:
    """The item of a declaration, with its piece: only of those that are shown the text is read."""
    return {"label": piece.item.name, "kind": kind, "sortText": sort, "piece": piece}


def item(label: str, kind: int, detail: str, sort: str) -> Item:
    return {"label": label, "kind": kind, "sortText": sort, **({"detail": detail} if detail else {})}


def applications(base: Base) -> Iterable[str]:
    found = {base.application: None} if base.application else {}
    for pieces in base.setters.pieces.values():
        for piece in pieces:
            found.update(dict.fromkeys(piece.state.applications))
    return found


def attributes(base: Base) -> Iterable[str]:
    found = {"restituee": None}
    for pieces in base.variables.pieces.values():
        for piece in pieces:
            found.update((word, None) for word, _ in piece.item.attributes)
    return found
