"""From a word to where it is declared, set and read, and another name for it."""
from __future__ import annotations

import re
from typing import Any

from ..drivers import RESERVED as OF_DRIVERS
from ..grammar import RESERVED, is_name
from .context import Context, symbol
from .occurrences import (
    CODE, ERROR, FUNCTION, LETTER, VARIABLE, Occurrence, Symbol, bases_at, declarations, everywhere, in_driver, is_function_line, letters_of, settings_of,
    tokens_in,
)
from .protocol import INVALID_PARAMS, REQUEST_FAILED, ResponseError
from .texts import Text
from .workspace import DriverText, on_disk

Params = dict[str, Any]


def location(place: Occurrence) -> dict[str, Any]:
    return {"uri": place.text.uri, "range": place.text.range(place.begin, place.end)}


def declaration(context: Context, params: Params) -> Any:
    """The declarations of all names that a word denotes."""
    found = symbol(context, params)
    return [location(place) for place in declared(context, found)] if found else None


def declared(context: Context, found: Symbol) -> list[Occurrence]:
    if found.kind == LETTER:
        return letters_of(found)[:1]
    if found.kind == FUNCTION and isinstance(found.text, DriverText):
        return [place for place in in_driver(found.text, found.word, True) if is_function_line(place)]
    kind = ERROR if found.kind == ERROR else CODE if found.kind == CODE else VARIABLE
    places = [place for base in bases_at(context.workspace, found.text) for name in found.names for place in declarations(base, kind, name)]
    return list(dict.fromkeys(places))


def definition(context: Context, params: Params) -> Any:
    """The declarations; at a declaration itself the formulas that set the variable."""
    found = symbol(context, params)
    if found is None:
        return None
    places = declared(context, found)
    if any(place.text is found.text and place.begin == found.begin for place in places):
        places = set_by(context, found) or places
    return [location(place) for place in places]


def set_by(context: Context, found: Symbol) -> list[Occurrence]:
    if found.kind not in (VARIABLE, CODE):
        return []
    return [place for base in bases_at(context.workspace, found.text) for name in found.names for place in settings_of(base, name)]


def implementation(context: Context, params: Params) -> Any:
    """The formulas that set a variable."""
    found = symbol(context, params)
    return [location(place) for place in set_by(context, found)] if found else None


def references(context: Context, params: Params) -> Any:
    found = symbol(context, params)
    if found is None:
        return None
    about = params.get("context")
    with_declarations = not isinstance(about, dict) or about.get("includeDeclaration") is not False
    places = everywhere(context.workspace, found, with_declarations)
    context.tick()
    return [location(place) for place in places]


def highlights(context: Context, params: Params) -> Any:
    found = symbol(context, params)
    if found is None:
        return None
    places = [place for place in everywhere(context.workspace, found, True) if place.text is found.text]
    written = {(place.begin, place.end) for place in set_by(context, found)}
    return [{"range": place.text.range(place.begin, place.end), "kind": 3 if (place.begin, place.end) in written else 2} for place in places]


# ---- another name


def prepare_rename(context: Context, params: Params) -> Any:
    found = renamed(context, params)
    return {"range": found.text.range(found.begin, found.end), "placeholder": found.word}


def renamed(context: Context, params: Params) -> Symbol:
    """What can have another name, at the place of the parameters."""
    found = symbol(context, params)
    if found is None or found.kind not in (VARIABLE, ERROR, LETTER, FUNCTION) or found.word == "call_m":
        what = "codes stand in households, too: change them by hand" if found is not None and found.kind == CODE else "no name stands here"
        raise ResponseError(REQUEST_FAILED, what)
    if found.kind in (VARIABLE, ERROR) and not declared(context, found):
        raise ResponseError(REQUEST_FAILED, f"nothing declares {found.word}")
    if found.kind in (VARIABLE, ERROR) and [found.word] != found.names:
        names = ", ".join(found.names[:5]) + (" .." if len(found.names) > 5 else "")
        raise ResponseError(REQUEST_FAILED, f"{found.word} stands for {names}: rename each by itself")
    return found


def rename(context: Context, params: Params) -> Any:
    """The edits that rename a symbol. If words with letters of loops denote it, nothing is changed."""
    found, new = renamed(context, params), params.get("newName")
    if not isinstance(new, str):
        raise ResponseError(INVALID_PARAMS, "newName is a text")
    look_at_name(context, found, new)
    places = everywhere(context.workspace, found, True)
    if found.kind != LETTER and (inexact := next((place for place in places if not place.is_exact), None)) is not None:
        word = inexact.text.decoded(inexact.text.content[inexact.begin : inexact.end])
        line = inexact.text.line_of(inexact.begin) + 1
        raise ResponseError(REQUEST_FAILED, f"{inexact.text.path} line {line}: {word} stands for {found.word} in a loop: write that formula out before")
    edits: dict[str, list[dict[str, Any]]] = {}
    for place in sorted(places, key=lambda place: place.begin):
        context.tick()
        edits.setdefault(place.text.uri, []).append({"range": place.text.range(place.begin, place.end), "newText": new})
    if found.kind == VARIABLE:
        edits.update(edits_of_requests(context, found.word, new))
    return {"changes": edits}


def look_at_name(context: Context, found: Symbol, new: str) -> None:
    """Rejects a name that can't be one, or that something has."""
    if found.kind == LETTER:
        if not re.fullmatch("[a-z]", new) or any(new in word for word in words_of(found)):
            raise ResponseError(REQUEST_FAILED, f"a letter of a loop is one from a to z that its formula doesn't have, and {new} isn't")
        return
    is_word = re.fullmatch("[A-Za-z0-9_]+", new) is not None and not new.isdigit()
    if not is_word or new in RESERVED | OF_DRIVERS or found.kind != FUNCTION and not is_name(new):
        raise ResponseError(REQUEST_FAILED, f"{new} is no name: capital letters, digits and _, no digits alone, no reserved word")
    for base in bases_at(context.workspace, found.text):
        if new != found.word and new in (base.errors if found.kind == ERROR else base.variables):
            raise ResponseError(REQUEST_FAILED, f"{new} is declared already")
    if found.kind == FUNCTION and isinstance(found.text, DriverText) and (new == "call_m" or any(in_driver(found.text, new, True))):
        raise ResponseError(REQUEST_FAILED, f"{new} is a function already")


def words_of(found: Symbol) -> list[str]:
    return [token.text for token in tokens_in(found.piece) if token.kind == "word" and token.text not in RESERVED] if found.piece else []


def edits_of_requests(context: Context, name: str, new: str) -> dict[str, list[dict[str, Any]]]:
    """The edits of the request file that a setting names."""
    requests = context.workspace.settings.requests
    if not requests:
        return {}
    path = context.workspace.path(requests)
    content = on_disk(path)
    if content is None:
        return {}
    text = Text(path)
    text.set(content, "latin-1")
    found = [match.span(1) for match in re.finditer(rb"^(%s)(?=\[|\r?$)" % name.encode(), content, re.MULTILINE)]
    return {text.uri: [{"range": text.range(*span), "newText": new} for span in found]} if found else {}
