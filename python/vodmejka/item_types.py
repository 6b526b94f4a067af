"""What a reading of rule files gives: declarations, formulas and checks, and faults. The term of a formula or a check is read when it is used first."""
from __future__ import annotations

import re
from typing import Iterator, NamedTuple

from .grammar import Terms
from .loops import Header, Read, Term, reads_of
from .tokens import CELL, WORDS, Tokens

# A word in the letters of a term, and whether an index follows; and one that an index follows.
READ, CELL_READ = re.compile(r"[Nni]\[?"), re.compile(r"[Nni]\[")


class Fault(NamedTuple):
    """A fault of a file: its name in the program, the byte, the token there, the tokens that would be accepted, and a hint."""

    what: str
    byte: int
    found: str
    wanted: tuple[str, ...]
    hint: str


class Unread:
    """A term that is known to follow the grammar, and isn't read yet: its tokens from a number to a number."""

    __slots__ = ("tokens", "begin", "end")

    def __init__(self, tokens: Tokens, begin: int, end: int):
        self.tokens, self.begin, self.end = tokens, begin, end

    def read(self) -> Term:
        return Terms(self.tokens[self.begin : self.end]).term()

    def has(self, letter: str) -> bool:
        """Whether a token of a class is in the term."""
        return self.tokens.letters.find(letter, self.begin, self.end) >= 0

    def names(self) -> Iterator[str]:
        """The names that a term without sums reads, without those of tables, in their order."""
        return self.tokens.names(self.begin, self.end)

    def tables(self) -> Iterator[str]:
        """The tables that a term without sums reads, in their order."""
        return self.tokens.tables(self.begin, self.end)

    def cells(self) -> Iterator[Read]:
        """What `reads` gives of the tables of a term without sums and loops."""
        return self.found(CELL_READ, []) if self.has("[") else iter(())

    def reads(self, headers: list[Header]) -> Iterator[Read]:
        """What `reads_of` gives of the term. Without sums these are its words in their order."""
        return reads_of(self.read(), headers) if self.has("S") else self.found(READ, headers)

    def found(self, form: re.Pattern[str], headers: list[Header]) -> Iterator[Read]:
        tokens = self.tokens
        for match in form.finditer(tokens.letters, self.begin, self.end):
            at = match.start()
            yield tokens.texts[at], self.index(at + 2) if match.end() - at > 1 else None, tokens.bytes[at], headers

    def index(self, at: int) -> Term:
        """The index of a table, which begins at a token."""
        letter = self.tokens.letters[at]
        if not self.tokens.letters.startswith("]", at + 1):
            return Terms(self.tokens[at : self.end]).term()
        if letter == CELL:
            return ("X",)
        text = self.tokens.texts[at]
        return ("name", text, self.tokens.bytes[at]) if letter in WORDS else ("number", text)


class Formula:
    """A formula: applications and whether its rule is chained, its loops, its target with an index (`X`, a number, or none), its term, the
    byte of its target."""

    __slots__ = ("applications", "is_chained", "loops", "target", "slot", "_term", "byte")

    def __init__(self, applications: list[str], is_chained: bool, loops: list[Header], target: str, slot: str | None, term: Term | Unread, byte: int):
        self.applications, self.is_chained, self.loops = applications, is_chained, loops
        self.target, self.slot, self._term, self.byte = target, slot, term, byte

    @property
    def term(self) -> Term:
        self._term = read_term(self._term)
        return self._term

    @property
    def has_sum(self) -> bool:
        return has_sum(self._term)

    @property
    def simple(self) -> Unread | None:
        """The term, where it isn't read yet, and it and the formula have no letters of loops; None of another one."""
        return None if self.loops else simple(self._term)

    def reads(self, headers: list[Header] | None = None) -> Iterator[Read]:
        """The names and tables that the formula reads, with the loops round them: its own, or others that are given."""
        return reads_in(self._term, self.loops if headers is None else headers)


class Check:
    """A check: the applications of its verification, its condition, the error with its byte, and the byte of `si`."""

    __slots__ = ("applications", "_condition", "error", "error_byte", "byte")

    def __init__(self, applications: list[str], condition: Term | Unread, error: str, error_byte: int, byte: int):
        self.applications, self._condition, self.error, self.error_byte, self.byte = applications, condition, error, error_byte, byte

    @property
    def condition(self) -> Term:
        self._condition = read_term(self._condition)
        return self._condition

    @property
    def has_sum(self) -> bool:
        return has_sum(self._condition)

    @property
    def simple(self) -> Unread | None:
        """The condition, where it isn't read yet and has no sum; None of another one."""
        return simple(self._condition)

    def reads(self) -> Iterator[Read]:
        """The names and tables that the condition reads."""
        return reads_in(self._condition, [])


def read_term(term: Term | Unread) -> Term:
    return term.read() if isinstance(term, Unread) else term


def has_sum(term: Term | Unread) -> bool:
    """Whether a term has a sum, or may have one."""
    return not isinstance(term, Unread) or term.has("S")


def simple(term: Term | Unread) -> Unread | None:
    return term if isinstance(term, Unread) and not term.has("S") else None


def reads_in(term: Term | Unread, headers: list[Header]) -> Iterator[Read]:
    return term.reads(headers) if isinstance(term, Unread) else reads_of(term, headers)


class Declaration(NamedTuple):
    """A declaration of a variable or an error: its kind is the word that says it (`saisie`, `calculee`, `const`, `anomalie` ..). `size` is the number of
    cells of a table; `attributes` are pairs of a word and a number, as it is spelled, or nothing; `texts` are as they are spelled."""

    name: str
    kind: str
    byte: int
    size: int | None = None
    attributes: tuple[tuple[str, str | None], ...] = ()
    code: str | None = None
    texts: tuple[str, ...] = ()
    type: str | None = None
    number: str | None = None
