"""Answers of a batch, whose lines are read where the program printed them, some hundred at a time."""
from __future__ import annotations

import itertools
import sys
from decimal import Decimal
from typing import NamedTuple, Protocol

from .answers import LABEL_LINE, NEXT_LABEL, NO_FORM, Answer, Form, Printed
from .program import ENCODING


class BlockAnswer(Answer):
    """An answer whose lines are in a block with others; made without a call of Python."""

    __slots__ = ()
    __init__ = object.__init__  # type: ignore[assignment]


class Whole(Protocol):
    """All lines of answers, of which some values alone were requested."""

    form: Form

    def lines(self, first: int, count: int) -> bytes:
        """Those of so many answers, from one of them on."""


class Piece(NamedTuple):
    """A piece of what was printed, with the label of each answer: where it begins and ends, how many answers it has, and the values of names that were looked
    for already. Where it has the values of some names alone, `whole` has all lines, and `first` is the number of the first answer there."""

    form: Form
    printed: Printed
    begin: int
    end: int
    size: int
    columns: dict[str, list[Decimal]]
    whole: Whole | None = None
    first: int = 0

    def texts(self) -> list[bytes]:
        """The lines of each answer, with its label."""
        lines = self.printed[self.begin : self.end]
        return [lines] if self.size == 1 else [NEXT_LABEL[1:] + one + b"\n" for one in (b"\n" + lines[:-1]).split(NEXT_LABEL)[1:]]


class Block:
    """The lines of some hundred answers: a piece of what the program printed.

    `columns` has, by each name that was asked for, the values in order; None where one of them isn't an amount. `is_left` says that an answer took its own
    lines out of it, or that all were wanted where it had some values alone.
    """

    __slots__ = ("form", "printed", "begin", "end", "count", "columns", "is_left", "_whole", "_first", "_parts")

    def __init__(self) -> None:
        self.columns: dict[str, list[Decimal] | None] = {}
        self.take(NO_PIECE)

    def take(self, piece: Piece) -> None:
        """Has these answers from now on."""
        self.form, self.printed, self.begin, self.end, self.count, columns, self._whole, self._first = piece
        self.columns.clear()
        self.columns.update(columns)
        self.is_left = False
        self._parts: list[str] | None = None

    def keep(self) -> None:
        """Has its lines for itself, and nothing else of what was printed."""
        self.printed, self.begin, self.end = self.printed[self.begin : self.end], 0, self.end - self.begin

    def column(self, name: str) -> list[Decimal] | None:
        """The values of a name, at their first use."""
        if self._whole is not None and name not in self.form.begins:
            self._widen(self._whole)
        found = self.form.column(name, self.printed, self.begin, self.end)
        column = self.columns[name] = found if len(found) == self.count else None
        return column

    def lines(self, index: int) -> str:
        """The lines of an answer, with a line feed before the first one."""
        if self._whole is not None:
            self._widen(self._whole)
        if self._parts is None and index == self.count - 1:
            last = self.printed.rfind(NEXT_LABEL, self.begin, self.end) + 1 or self.begin
            return "\n" + self.printed[last + len(LABEL_LINE) : self.end].decode(ENCODING)
        if self._parts is None:
            self._parts = ("\n" + self.printed[self.begin : self.end - 1].decode(ENCODING)).split("\n" + LABEL_LINE)[1:]
        return f"\n{self._parts[index]}\n"

    def has_all(self) -> bool:
        """Whether it has all lines of its answers."""
        return self._whole is None

    def _widen(self, whole: Whole) -> None:
        """Has all lines of its answers in the place of those of some names."""
        self.printed = whole.lines(self._first, self.count)
        self.form, self.begin, self.end = whole.form, 0, len(self.printed)
        self._whole, self.is_left = None, True


class Turn:
    """A block, and the answers that are made for it. Most are made once: an answer that nobody else holds is one of the block's next piece."""

    def __init__(self) -> None:
        self.block = Block()
        self._made: list[BlockAnswer] = []

    def answers(self, piece: Piece) -> list[BlockAnswer]:
        """The answers of a piece, where those of the one before it are settled."""
        self.block.take(piece)
        while len(self._made) < piece.size:
            self._made.append(self._new(len(self._made)))
        return self._made[: piece.size]

    def settle(self) -> bool:
        """Lets those that are still held elsewhere, where they are the fewer, have their own lines, so that they don't hold the block; else it is theirs.
        Whether any is held."""
        counts = list(map(sys.getrefcount, itertools.islice(self._made, self.block.count)))
        held = len(counts) - counts.count(LISTED)
        if held > len(counts) // 2:
            self.block.keep()
            self.block, self._made = Block(), []
            return True
        if held:
            for index in [index for index, count in enumerate(counts) if count != LISTED]:
                if self._made[index]._block is not None:
                    self._made[index]._leave(self.block)
                self._made[index] = self._new(index)
        if self.block.is_left:
            for answer in self._made:
                answer._block, answer._columns = self.block, self.block.columns
        return held > 0

    def _new(self, index: int) -> BlockAnswer:
        answer: BlockAnswer = BlockAnswer()
        answer._block, answer._columns, answer._index = self.block, self.block.columns, index
        return answer


class Hands:
    """Hands out the answers of one piece after the other, by turns, so that whoever holds an answer until the next one comes doesn't hold its block."""

    def __init__(self) -> None:
        self._now, self._before = Turn(), Turn()
        self._read: dict[str, None] = {}
        self._settled = 0
        self._is_more_wanted = False

    def answers(self, piece: Piece) -> list[BlockAnswer]:
        """The answers of a piece."""
        self._now, self._before = self._before, self._now
        self._settle(self._now)
        return self._now.answers(piece)

    def end(self) -> None:
        """Settles all, but for answers of which all lines would have to be computed for that, and those of the last piece: these keep what they have."""
        if self._before.block.has_all():
            self._settle(self._before)
        else:
            self._before.block.keep()
        self._now.block.keep()

    def column(self) -> str | None:
        """A name of which the last piece has a column, if there is one."""
        return next((name for name, column in self._now.block.columns.items() if column is not None), None)

    def read(self) -> dict[str, None] | None:
        """The names whose values were read, where nothing else was wanted of any answer, and none was held for long; None before that is known."""
        blocks = self._before.block, self._now.block
        if self._settled == 0 or self._is_more_wanted or any(block.is_left for block in blocks):
            return None
        return {**self._read, **dict.fromkeys(itertools.chain.from_iterable(block.columns for block in blocks))}

    def _settle(self, turn: Turn) -> None:
        block = turn.block
        is_held = turn.settle()
        self._settled += block.count
        self._is_more_wanted = self._is_more_wanted or is_held or block.is_left
        self._read.update(dict.fromkeys(block.columns))


NO_PIECE = Piece(NO_FORM, b"", 0, 0, 0, {})


def listed() -> int:
    """How many references are counted to what is in a list, and nowhere else."""
    made = [object()]
    return max(map(sys.getrefcount, itertools.islice(made, 1)))


LISTED = listed()
