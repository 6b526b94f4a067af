"""The rule base of a list: what its files declare, set and read, by name. What a piece adds is kept under the names, so that an edit costs what it changes."""
from __future__ import annotations

from collections.abc import Iterable, Iterator
from typing import Any

from .. import items, loops
from .pieces import Check, Formula, Head, Piece, RuleText
from .texts import uri_of

Cell = tuple[str, Any]  # a name with nothing, the number of a cell, or `X` for all cells of a table


class Place:
    """The pieces under each name, in no order."""

    def __init__(self) -> None:
        self.pieces: dict[Any, list[Piece]] = {}

    def add(self, name: Any, piece: Piece) -> None:
        self.pieces.setdefault(name, []).append(piece)

    def remove(self, name: Any, piece: Piece) -> None:
        found = self.pieces[name]
        found.remove(piece)
        if not found:
            del self.pieces[name]

    def of(self, name: Any) -> list[Piece]:
        return self.pieces.get(name, [])

    def __contains__(self, name: Any) -> bool:
        return name in self.pieces

    def __iter__(self) -> Iterator[Any]:
        return iter(self.pieces)

    def __len__(self) -> int:
        return len(self.pieces)


class Base:
    """A list with its files; `is_alone` is a file that no list names, by itself. `fault` is why the list can't be read, and `missing` are the files that
    can't; `todo` are the pieces still to be checked for faults of names, and those in `now` come first."""

    def __init__(self, path: str, is_alone: bool = False) -> None:
        self.path, self.uri, self.is_alone = path, uri_of(path), is_alone
        self.application, self.fault = "", ""
        self.texts: dict[RuleText, int] = {}
        self.names: dict[RuleText, str] = {}
        self.missing: list[tuple[int, str]] = []
        self.folder = ""
        self.signature: tuple[int, ...] | None = None
        self.variables, self.errors, self.codes, self.setters, self.targets = Place(), Place(), Place(), Place(), Place()
        self.readers, self.raisers, self.maybe, self.heads = Place(), Place(), Place(), Place()
        self.counted = self.returned = 0
        self.is_other = True  # whether what is declared may be other than a driver was looked at with
        self.todo: dict[Piece, None] = {}
        self.now: dict[Piece, None] = {}
        self.found: dict[Piece, Any] = {}

    def counts(self, piece: Piece) -> bool:
        """Whether the rule or verification of a formula or check is of the list's application and isn't chained."""
        return self.application in piece.state.applications and not piece.state.is_chained

    def order(self, piece: Piece) -> tuple[int, int]:
        return self.texts[piece.text], piece.begin

    def first(self, pieces: list[Piece]) -> Piece | None:
        return min(pieces, key=self.order) if len(pieces) > 1 else pieces[0] if pieces else None

    def declared(self, name: str) -> items.Declaration | None:
        """The first declaration of a variable."""
        piece = self.first(self.variables.of(name))
        return piece.item if piece else None

    # ---- what a piece adds

    def entries(self, piece: Piece) -> Iterator[tuple[Place, Any]]:
        """The indexes and names under which a piece is kept."""
        item = piece.item
        if isinstance(item, items.Declaration):
            yield (self.errors if item.kind in items.KINDS_OF_ERRORS else self.variables), item.name
            if item.code is not None:
                yield self.codes, item.code
        elif isinstance(item, Formula):
            for name in targets_of(item):
                yield self.targets, name
                yield self.setters, (name, slot_of(item))
        elif isinstance(item, Check):
            yield self.raisers, item.error
        elif isinstance(item, Head):
            yield self.heads, number_of(item)
        for name in names_read(piece):
            yield self.readers, name
        for name in set(piece.maybe):
            yield self.maybe, name

    def add(self, pieces: Iterable[Piece]) -> None:
        self.is_other = True
        for piece in pieces:
            for place, name in self.entries(piece):
                place.add(name, piece)
            self.count(piece, 1)
            self.todo[piece] = None

    def remove(self, pieces: Iterable[Piece]) -> None:
        for piece in pieces:
            for place, name in self.entries(piece):
                place.remove(name, piece)
            self.count(piece, -1)
            self.todo.pop(piece, None)
            self.now.pop(piece, None)
            self.found.pop(piece, None)

    def count(self, piece: Piece, one: int) -> None:
        item = piece.item
        if isinstance(item, Formula) and self.counts(piece):
            self.counted += one
        elif isinstance(item, items.Declaration) and any(word == "restituee" and number is None for word, number in item.attributes):
            self.returned += one

    def replace(self, old: list[Piece], new: list[Piece]) -> None:
        """Takes other pieces in the place of some, and notes what has to be looked at again."""
        before, after, was_other = self.facts(old), self.facts(new), self.is_other
        tables = {name for piece in old for name in names_read(piece) if self.is_table(name)}
        self.remove(old)
        self.add(new)
        self.is_other = was_other or any(kind in ("variable", "maybe") for kind, *_ in before ^ after)
        again = [piece for kind, name, *_ in before ^ after for piece in self.resting_on(kind, name)]
        tables.update(name for piece in new for name in names_read(piece) if self.is_table(name))
        again += [piece for name in tables for piece in self.variables.of(name)]
        self.todo.update(dict.fromkeys(again))
        self.now.update(dict.fromkeys(new))

    def next(self) -> Piece:
        """Takes the piece to check next."""
        piece = next(iter(self.now or self.todo))
        self.now.pop(piece, None)
        self.todo.pop(piece, None)
        return piece

    def look_at_all(self) -> None:
        self.todo.update((piece, None) for text in self.texts for piece in text.pieces if piece.item is not None)

    def resting_on(self, kind: str, name: str) -> list[Piece]:
        """The pieces whose faults may change with the declaration of a name."""
        if kind == "code":
            return self.codes.of(name)
        if kind == "error":
            return [*self.raisers.of(name), *self.errors.of(name)]
        if kind == "read":
            return self.variables.of(name)
        if kind == "raised":
            return self.errors.of(name)
        if kind == "head":
            return self.heads.of(name)
        again = [*self.variables.of(name), *self.targets.of(name)]
        if kind in ("variable", "maybe"):
            again += self.readers.of(name)
        return again + ([*self.raisers.of(name), *self.errors.of(name)] if kind == "maybe" else [])

    def facts(self, pieces: list[Piece]) -> set[tuple[Any, ...]]:
        """What the faults of other pieces may rest on."""
        found: set[tuple[Any, ...]] = set()
        for piece in pieces:
            item = piece.item
            if isinstance(item, items.Declaration):
                is_error = item.kind in items.KINDS_OF_ERRORS
                found.add(("error" if is_error else "variable", item.name, item.kind, item.size, item.attributes))
                if item.code is not None:
                    found.add(("code", item.code))
            elif isinstance(item, Formula):
                found.update(("set", name, item.slot, self.counts(piece)) for name in targets_of(item))
            elif isinstance(item, Check):
                found.add(("raised", item.error))
            elif isinstance(item, Head):
                found.add(("head", number_of(item), piece.text.content[piece.begin : piece.end]))
            found.update(("maybe", name) for name in piece.maybe)
            found.update(("read", name, self.counts(piece)) for name in names_read(piece))
        return found

    def is_table(self, name: str) -> bool:
        declared = self.declared(name)
        return declared is not None and declared.size is not None


def slot_of(formula: Formula) -> Any:
    return formula.slot if formula.slot is None or formula.slot == "X" else loops.whole(formula.slot)


def number_of(head: Head) -> tuple[str, int]:
    """What no other rule or verification of an application has."""
    return head.kind, int(head.number)


def targets_of(formula: Formula) -> list[str]:
    """The names that a formula sets, each once."""
    if not formula.loops:
        return [formula.target]
    return list(dict.fromkeys(loops.replaced(formula.target, letters) for letters in loops.instances(formula.loops, [formula.target])))


def names_of(word: str, round_it: list[Any]) -> list[str]:
    """The names that a word in loops denotes, each once."""
    if not round_it or word.isupper():
        return [word]
    return list(dict.fromkeys(loops.replaced(word, letters) for letters in loops.instances(round_it, [word])))


def names_read(piece: Piece) -> set[str]:
    found: set[str] = set()
    for word, index, _, round_it in piece.reads:
        found.update(names_of(word, round_it))
    return {name for name in found if not loops.is_number(name)}
