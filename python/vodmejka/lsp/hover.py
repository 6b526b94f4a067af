"""What is shown of a word: its declaration, the formulas that set it with the letters of loops filled in, what reads it, and its value for a household."""
from __future__ import annotations

import os
from typing import Any

from .. import items, loops
from .base import Base
from .context import Context, symbol
from .occurrences import CODE, ERROR, LETTER, VARIABLE, Symbol, bases_at, tokens_in
from .pieces import Check, Formula, Piece
from .saved import head_of

MOST_NAMES = 3
MOST_FORMULAS = 4
MOST_READERS = 10
MOST_CELLS = 8
LONGEST = 600


def hover(context: Context, params: dict[str, Any]) -> Any:
    found = symbol(context, params)
    if found is None:
        return None
    pieces = []
    if found.kind == LETTER:
        pieces = letter(found)
    for base in bases_at(context.workspace, found.text)[:1]:
        if found.kind == ERROR:
            pieces = [error(base, found.word)]
        elif found.kind in (VARIABLE, CODE):
            names = [piece.item.name for code in found.names for piece in base.codes.of(code)] if found.kind == CODE else found.names
            pieces = [variable(context, base, name) for name in names[:MOST_NAMES]]
            if len(names) > MOST_NAMES:
                pieces.insert(0, f"{found.word} stands for {len(names)} variables: {', '.join(names[:12])}{' ..' if len(names) > 12 else ''}")
    contents = "\n\n---\n\n".join(piece for piece in pieces if piece)
    return {"contents": {"kind": "markdown", "value": contents}, "range": found.text.range(found.begin, found.end)} if contents else None


def letter(found: Symbol) -> list[str]:
    values = [value for header in found.headers for name, pairs in header if name == found.word for value in loops.values_of(pairs)]
    return [f"`{found.word}`: {', '.join(values[:20])}{' ..' if len(values) > 20 else ''}"] if values else []


def error(base: Base, name: str) -> str:
    piece = base.first(base.errors.of(name))
    if piece is None:
        return ""
    numbers = [head.item.number for raiser in sorted(base.raisers.of(name), key=base.order) if (head := head_of(raiser)) is not None]
    lines = [f"**{name}** {piece.item.kind}", plain(":".join(text_of(piece, text) for text in piece.item.texts)), f"*{place(base, piece)}*"]
    return "\n\n".join([*lines, f"raised by verif {', '.join(dict.fromkeys(numbers))}" if numbers else "no verification raises it"])


def variable(context: Context, base: Base, name: str) -> str:
    """What is known of a variable, as Markdown."""
    piece = base.first(base.variables.of(name))
    if piece is None:
        return f"**{name}** isn't declared"
    item = piece.item
    head = f"**{name}** {f'tableau[{item.size}] ' if item.size is not None else ''}{item.kind}"
    lines = [f"{head} = {item.number}" if item.number is not None else head, *(plain(text_of(piece, text)) for text in item.texts)]
    facts = [f"code {item.code}"] if item.code else []
    facts += [f"type {item.type}"] if item.type else []
    facts += [word if number is None else f"{word} = {number}" for word, number in item.attributes]
    lines += [" · ".join(facts)] if facts else []
    lines.append(f"*{place(base, piece)}*")
    context.tick()
    lines += formulas(base, name)
    lines += values(context, base, item)
    lines += facts_within(context, base, item)
    lines += readers(base, name)
    return "\n\n".join(lines)


def formulas(base: Base, name: str) -> list[str]:
    """The formulas that set a variable, those that count first."""
    pieces = sorted(base.targets.of(name), key=lambda piece: (not base.counts(piece), base.order(piece)))
    lines = []
    for piece in pieces[:MOST_FORMULAS]:
        letters: dict[str, str] = next((one for one in all_letters(piece) if loops.replaced(piece.item.target, one) == name), {})
        head = head_of(piece)
        of = "" if base.counts(piece) else ", which isn't of this list's application" if not piece.state.is_chained else ", which is chained and never counts"
        lines.append(f"```m\n{formula_text(piece, letters)}\n```\n*{place(base, piece)}, rule {head.item.number if head else '?'}{of}*")
    if len(pieces) > MOST_FORMULAS:
        lines.append(f"and {len(pieces) - MOST_FORMULAS} formulas more")
    return lines


def all_letters(piece: Piece) -> list[dict[str, str]]:
    """The letters of each instance of a formula."""
    return list(loops.instances(piece.item.loops, ["".join(letter for header in piece.item.loops for letter, _ in header)]))


def formula_text(piece: Piece, letters: dict[str, str]) -> str:
    """A formula in one line, without comments and `pour`, with the values of its letters in the place of these."""
    inner = {byte: {letter for header in round_it[len(piece.item.loops) :] for letter, _ in header} for _, _, byte, round_it in piece.reads}
    written, end = "", None
    for token in tokens_in(piece):
        if token.byte >= piece.item.byte:
            written += " " if end is not None and token.byte > end else ""
            is_read = token.byte in inner or token.byte == piece.item.byte
            bound = inner.get(token.byte, set())
            written += "".join(letters.get(one, one) if one not in bound else one for one in token.text) if is_read else token.text
            end = token.byte + len(token.text)
    text = piece.text.decoded(written.encode("latin-1"))
    return text if len(text) <= LONGEST else text[:LONGEST] + " .."


def values(context: Context, base: Base, item: items.Declaration) -> list[str]:
    """What the program computed of a variable for the household of the settings."""
    outcome, household = context.runs.values(base), context.workspace.settings.household
    if outcome is None or not household:
        return []
    when = "" if context.runs.is_current(base) else ", before the changes that were made since"
    if outcome.stop:
        return [f"{os.path.basename(household)}{when}: {plain(outcome.stop)}"]
    names = [item.name] if item.size is None else [f"{item.name}[{cell}]" for cell in range(min(item.size, MOST_CELLS))]
    found = [f"{name} {outcome.values[name]}" for name in names if name in outcome.values]
    more = " .." if item.size is not None and item.size > MOST_CELLS else ""
    return [f"`{', '.join(found)}{more}` for {os.path.basename(household)}{when}"] if found else []


def facts_within(context: Context, base: Base, item: items.Declaration) -> list[str]:
    """What holds of a variable for all households within the ranges of the settings."""
    found, ranges = context.runs.facts(base), context.workspace.settings.ranges
    if found is None or not ranges:
        return []
    when = "" if context.runs.is_current(base, "facts") else ", before the changes that were made since"
    names = [item.name] if item.size is None else [f"{item.name}[{cell}]" for cell in range(min(item.size, MOST_CELLS))]
    facts = [f"{name}: {found[name]}" for name in names if name in found]
    return [f"`{', '.join(facts)}` for households within {os.path.basename(ranges)}{when}"] if facts else []


def readers(base: Base, name: str) -> list[str]:
    """What reads a variable: the targets of formulas, and verifications."""
    pieces = sorted(base.readers.of(name), key=base.order)
    found = dict.fromkeys(reader_name(piece) for piece in pieces[: 10 * MOST_READERS])
    shown = ", ".join(list(found)[:MOST_READERS])
    return [f"read by {shown}{f' .. ({len(pieces)} in all)' if len(found) > MOST_READERS else ''}"] if found else ["nothing reads it"]


def reader_name(piece: Piece) -> str:
    if isinstance(piece.item, Formula):
        return piece.item.target
    head = head_of(piece)
    return f"verif {head.item.number}" if isinstance(piece.item, Check) and head is not None else "?"


def place(base: Base, piece: Piece) -> str:
    name = base.names.get(piece.text, piece.text.path)
    return f"{plain(name)} line {piece.text.line_of(piece.begin + piece.item.byte) + 1}"


def text_of(piece: Piece, text: str) -> str:
    """A text of a file without its quotes, in one line."""
    return " ".join(piece.text.decoded(text[1:-1].encode("latin-1")).split())


def plain(text: str) -> str:
    """A text as Markdown shows it as it is."""
    return "".join("\\" + letter if letter in "\\`*_[]<>#|~" else letter for letter in text)
