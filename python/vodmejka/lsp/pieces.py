"""Rule files piece by piece: a head of a rule, a formula, a check or a declaration, each with what precedes it. After an edit only the pieces that it can
change are read again.

The pieces of a file lie end to end. How a piece is read depends on its bytes, on a few tokens after it, and on the state of the reader at its begin.
"""
from __future__ import annotations

import re
import sys
from bisect import bisect_right
from typing import Any, NamedTuple

from .. import items, loops, source
from ..limits import BRACKET_DEPTH
from .texts import Text

BLOCK = 1_000  # how many tokens are taken in at once
AHEAD = 4  # how many tokens after a piece may decide how it is read
BEHIND = 4  # how many pieces before an edit it may change
RECURSION = 20_000  # calls within calls, for brackets within brackets
AT_ONCE = 2_000  # how many pieces are read again before an edit is answered; the others follow
QUOTE_OR_COMMENT = re.compile(rb'"[^"]*"|#[^\n]*|"')
DEEPER = {"(": 1, "[": 1, "si": 1, ")": -1, "]": -1, "finsi": -1, "erreur": -1}


class State(NamedTuple):
    """The state of a reader between two pieces: within a rule or a verification of which applications, and whether a formula or check is due. (That brackets
    of earlier pieces are open is left out: then these have a fault of their own.)"""

    inside: str | None = None
    applications: tuple[str, ...] = ()
    is_chained: bool = False
    due: bool = False


NONE: list[Any] = []
START = State()
STATES = {START: START}


class Head(NamedTuple):
    """The head of a rule or a verification: the word that it begins with, its number, its byte."""

    kind: str
    number: str
    byte: int


class Formula(NamedTuple):
    """What a formula sets: its target with an index (`X`, a number, or none), the loops round it, the byte of the target."""

    target: str
    slot: str | None
    loops: list[Any]
    byte: int


class Check(NamedTuple):
    """A check: its error with its byte, and the byte of `si`."""

    error: str
    error_byte: int
    byte: int


class Piece:
    """A piece of a file. Bytes in it count from its own begin. `faults` are those of its bytes and tokens, `reads` what its term reads, `maybe` the names
    that a piece with faults seems to declare, `loose` where X is no cell's number; `is_odd` means that a text in it goes over a line's end or is cut
    there."""

    __slots__ = ("text", "begin", "size", "state", "item", "reads", "faults", "maybe", "loose", "has_bad_header", "is_odd")

    def __init__(self, text: RuleText, begin: int, size: int, state: State) -> None:
        self.text, self.begin, self.size, self.state = text, begin, size, state
        self.item: Any = None
        self.reads: tuple[Any, ...] = ()
        self.faults: tuple[items.Fault, ...] = ()
        self.maybe: tuple[str, ...] = ()
        self.loose: tuple[int, ...] = ()
        self.has_bad_header = self.is_odd = False

    @property
    def end(self) -> int:
        return self.begin + self.size


class PieceReader(items.RuleReader):
    """Reads a file from a piece on, some tokens at a time."""

    tokens: list[source.Token]

    def __init__(self, text: RuleText, begin: int, state: State) -> None:
        super().__init__([])
        sys.setrecursionlimit(max(sys.getrecursionlimit(), RECURSION))
        self.text, self.begin = text, begin
        self.byte, self.block, self.is_last, self.is_done = begin, BLOCK, False, False
        self.byte_faults: list[items.Fault] = []
        self.cell_numbers: list[int] = []
        self.has_bad_header = False
        self.depths: list[int] = []  # how many brackets of the piece are open before each token
        self.restore(state)
        if begin == 0 and text.content.startswith(source.MARK):
            self.byte_faults = items.tokens_of(source.MARK)[1]
            self.byte = len(source.MARK)
        self.fill()

    def fill(self) -> None:
        """Takes more tokens in, and drops those that were read."""
        del self.tokens[: self.at], self.depths[: self.at]
        self.at, known = 0, len(self.tokens)
        self.byte = items.take_tokens(self.text.content, self.byte, self.tokens, self.byte_faults, known + self.block, self.text.is_cut)
        self.is_last = self.byte >= len(self.text.content)
        self.look_for_depth(known)
        last = self.tokens[-1] if self.tokens else None
        self.end = source.Token("end", "", last.byte + len(last.text) if last else self.begin)

    def look_for_depth(self, first: int) -> None:
        """Counts the brackets that are open from a token on; where there are too many the token is one that no rule takes."""
        depth = 0
        if first:
            depth = max(0, self.depths[first - 1] + DEEPER.get(self.tokens[first - 1].text, 0))
        del self.depths[first:]
        for token in self.tokens[first:]:
            self.depths.append(depth)
            if token.text in DEEPER:
                depth = max(0, depth + DEEPER[token.text])
                token.kind = "deep" if depth > BRACKET_DEPTH else "word" if token.text.isalpha() else "sign"
            elif token.text in ("regle", "verif"):
                depth = 0

    def state(self) -> State:
        return State(self.inside, tuple(self.applications), self.is_chained, self.due)

    def restore(self, state: State) -> None:
        self.inside, self.applications, self.is_chained, self.due = state.inside, list(state.applications), state.is_chained, state.due

    def forget(self) -> None:
        lists: tuple[list[Any], ...] = (self.formulas, self.checks, self.declarations, self.errors, self.faults)
        for found in lists:
            found.clear()
        self.kinds_of_errors.clear()
        self.cell_numbers.clear()
        self.has_bad_header = False

    def header(self) -> Any:
        header = super().header()
        self.has_bad_header = self.has_bad_header or bool(loops.header_faults(header))
        return header

    def primary(self) -> Any:
        if self.next_is("X"):
            self.cell_numbers.append(self.peek().byte)
        return super().primary()

    def piece_at_hand(self) -> None:
        """Reads up to the end of the piece at hand. One without a token goes on in the next."""
        first = self.at
        while self.at == first and (self.at < len(self.tokens) or self.due):
            self.piece_or_fault()

    def note(self) -> None:
        super().note()
        if self.peek().kind == "deep":
            self.faults[-1] = items.deep_fault(self.peek())

    def next(self) -> Piece:
        """The next piece. The last one has what follows all tokens."""
        while True:
            first, state = self.at, self.state()
            self.forget()
            self.piece_at_hand()
            if self.is_last or self.at + AHEAD <= len(self.tokens):
                piece = self.made(first, state)
                if self.at < len(self.tokens) and self.depths[self.at]:
                    del self.tokens[: self.at]
                    self.at = 0
                    self.look_for_depth(0)
                return piece
            self.at = first
            self.restore(state)
            self.fill()
            self.block *= 2

    def made(self, first: int, state: State) -> Piece:
        tokens = self.tokens[first : self.at]
        end = tokens[-1].byte + len(tokens[-1].text) if tokens else len(self.text.content)
        piece = Piece(self.text, self.begin, end - self.begin, STATES.setdefault(state, state))
        self.begin, self.block, self.is_done = end, BLOCK, not tokens
        self.describe(piece, tokens)
        return piece

    def describe(self, piece: Piece, tokens: list[source.Token]) -> None:
        """Puts into a piece what was read of it."""
        begin = piece.begin
        mine = [fault for fault in self.byte_faults if fault.byte < piece.end or not tokens]
        if mine:
            self.byte_faults = [fault for fault in self.byte_faults if fault.byte >= piece.end and tokens]
        if mine or self.faults:
            piece.faults = tuple(fault._replace(byte=fault.byte - begin) for fault in [*mine, *self.faults])
            piece.maybe = tuple(token.text for token, after in zip(tokens, tokens[1:]) if after.text == ":" and token.kind == "word")
        piece.is_odd = any(token.kind == "text" and ("\n" in token.text or token.text[1:][-1:] != '"') for token in tokens)
        piece.has_bad_header = self.has_bad_header
        if self.formulas and self.formulas[0].slot == "X":
            self.cell_numbers.clear()
        piece.loose = tuple(byte - begin for byte in self.cell_numbers)
        if self.formulas:
            formula = self.formulas[0]
            piece.item = Formula(sys.intern(formula.target), formula.slot, formula.loops or NONE, formula.byte - begin)
            piece.reads = self.reads(formula.term, formula.loops, begin)
        elif self.checks:
            check = self.checks[0]
            piece.item = Check(check.error, check.error_byte - begin, check.byte - begin)
            piece.reads = self.reads(check.condition, [], begin)
        elif self.declarations:
            declared = self.declarations[0]
            piece.item = declared._replace(name=sys.intern(declared.name), byte=declared.byte - begin)
        elif self.due and tokens and not self.faults:
            number = next(token.text for token in tokens if token.kind == "number")
            piece.item = Head(tokens[0].text, number, tokens[0].byte - begin)

    @staticmethod
    def reads(term: Any, round_it: list[Any], begin: int) -> tuple[Any, ...]:
        return tuple((sys.intern(word), plain(index), byte - begin, headers or NONE) for word, index, byte, headers in loops.reads_of(term, round_it))


class RuleText(Text):
    """A rule file with its pieces. `is_whole` means that all of it was read; until then `pieces` are the first ones. `is_cut` means that a text isn't
    closed: then each text ends in its line, so that the rest can be read."""

    def __init__(self, path: str, uri: str | None = None) -> None:
        super().__init__(path, uri)
        self.pieces: list[Piece] = []
        self.is_whole = self.is_cut = False
        self.reader: PieceReader | None = None
        self.goes_on = (0, START)

    def set(self, content: bytes, encoding: str) -> None:
        super().set(content, encoding)
        self.is_cut = has_open_text(content)
        self.pieces, self.reader, self.is_whole, self.goes_on = [], None, False, (0, START)

    def read(self, count: int) -> list[Piece]:
        """Reads `count` further pieces, and returns them."""
        if self.reader is None:
            self.reader = PieceReader(self, *self.goes_on)
        fresh: list[Piece] = []
        while len(fresh) < count and not self.reader.is_done:
            fresh.append(self.reader.next())
        self.pieces += fresh
        if self.reader.is_done:
            self.reader, self.is_whole = None, True
        return fresh

    def at(self, byte: int) -> int:
        """The number of the piece in which a byte is; at the end of one it is the next."""
        return bisect_right(self.pieces, byte, key=lambda piece: piece.begin) - 1

    def change(self, begin: int, end: int, bytes_: bytes) -> tuple[list[Piece], list[Piece]]:
        """Puts other bytes in the place of some. The pieces that are no more come back, and the new ones."""
        was_cut, first = self.is_cut, max(0, self.at(begin) - BEHIND)
        moves_ends = any(sign in piece for sign in (b'"', b"#", b"\n") for piece in (self.content[begin:end], bytes_))
        self.edit(begin, end, bytes_)
        if moves_ends:
            self.is_cut = has_open_text(self.content)
        odd = [number for number, piece in enumerate(self.pieces) if piece.is_odd] if self.is_cut != was_cut else []
        first = min([first, *odd])
        tail = self.pieces[first:]
        self.goes_on = (tail[0].begin, tail[0].state) if tail else (0, START)
        del self.pieces[first:]
        self.reader = None
        if not self.is_whole:
            return tail, []
        least = max([0, *(number + 1 - first for number in odd)])
        return self.read_again(tail, end, len(bytes_) - (end - begin), least)

    def read_again(self, tail: list[Piece], end: int, shift: int, least: int) -> tuple[list[Piece], list[Piece]]:
        """Reads until a piece begins after an edit, and after `least` pieces, where one began before the edit."""
        known = {piece.begin + shift: number for number, piece in enumerate(tail) if piece.begin >= end and number >= least}
        reader = PieceReader(self, *self.goes_on)
        fresh: list[Piece] = []
        while not reader.is_done:
            fresh.append(reader.next())
            number = None if reader.is_done else known.get(reader.begin)
            if number is not None and tail[number].state == reader.state():
                for piece in tail[number:]:
                    piece.begin += shift
                self.pieces += fresh + tail[number:]
                return tail[:number], fresh
            if len(fresh) >= AT_ONCE:
                break
        self.pieces += fresh
        self.is_whole = reader.is_done
        self.reader = None if reader.is_done else reader
        return tail, fresh


def headers_of(piece: Piece) -> list[Any]:
    """The headers of the loops of a piece, each once."""
    found = {id(header): header for header in getattr(piece.item, "loops", ())}
    found.update((id(header), header) for _, _, _, round_it in piece.reads for header in round_it)
    return list(found.values())


def plain(term: Any, room: int = 50) -> Any:
    """An index without the places of its names. One that isn't numbers, names and sums and products of some of these is `other`."""
    if term is None or term[0] in ("number", "X"):
        return term
    if term[0] == "name":
        return ("name", term[1])
    if term[0] == "op" and term[1] in ("+", "-", "*", "neg") and room:
        return ("op", term[1], [plain(part, room - 1) for part in term[2]])
    return ("other",)


def has_open_text(content: bytes) -> bool:
    """Whether a text is never closed."""
    return any(match[0] == b'"' for match in QUOTE_OR_COMMENT.finditer(content))
