"""The faults of names and loops of a piece within its rule base, and its slips: what the language permits and an analyst never means."""
from __future__ import annotations

from collections.abc import Iterable, Iterator, Mapping
from fractions import Fraction
from typing import Any, NamedTuple

from .. import faults, items, loops, source
from ..commands import slips
from ..hints import distance
from ..limits import TABLE_CELLS
from ..slips_of_use import TYPES, constant_value
from .base import Base, Cell, names_of, number_of
from .pieces import Check, Formula, Head, Piece, PieceReader

ERROR, WARNING, INFORMATION, HINT = 1, 2, 3, 4


class Finding(NamedTuple):
    """A finding at some bytes, counted from the begin of a piece: its severity, the program's name of it, and a token that identifies it."""

    begin: int
    end: int
    severity: int
    what: str


class Declared(Mapping[str, items.Declaration]):
    """The variables of a base by their names: of several declarations the first."""

    def __init__(self, base: Base) -> None:
        self.base = base

    def __contains__(self, name: object) -> bool:
        return name in self.base.variables

    def __getitem__(self, name: str) -> items.Declaration:
        declared = self.base.declared(name)
        if declared is None:
            raise KeyError(name)
        return declared

    def __iter__(self) -> Iterator[str]:
        return iter(self.base.variables)

    def __len__(self) -> int:
        return len(self.base.variables)


class Done:
    """The cells that formulas before a piece set, and those that the piece sets."""

    def __init__(self, base: Base, piece: Piece) -> None:
        self.base, self.piece, self.own = base, piece, set[Cell]()

    def __contains__(self, cell: Cell) -> bool:
        name, number = cell
        if cell in self.own:
            return True
        others = self.base.setters.of(cell)
        if number is not None:
            others = [*others, *self.base.setters.of((name, "X"))]
        if len(others) < 2:
            return False
        mine = self.base.order(self.piece)
        return any(self.base.counts(other) and self.base.order(other) < mine for other in others)

    def update(self, cells: Iterable[Cell]) -> None:
        self.own.update(cells)


class Checker(faults.Names):
    """Looks for the faults of the pieces of a base."""

    variables: Any
    errors: Any
    files: Any
    done: Any

    def __init__(self, base: Base, set_by_driver: set[Cell] | None = None, in_driver: set[str] | None = None) -> None:
        self.base, self.variables, self.errors, self.files = base, Declared(base), base.errors, self
        self.set_by_driver, self.in_driver = set_by_driver or set(), in_driver or set()
        self.reported: list[tuple[int, str]] = []

    def findings(self, piece: Piece) -> list[Finding]:
        """The faults of a piece, and where it has none its slips."""
        self.reported, item = [], piece.item
        slipped: list[Finding] = []
        if isinstance(item, items.Declaration):
            self.look_at_declaration(piece, item)
            slipped = [] if self.reported else list(self.slips_of_declaration(piece, item))
        elif isinstance(item, (Formula, Check)) and self.base.counts(piece):
            if piece.has_bad_header:
                self.reported += faults_of_headers(piece)
            self.reported += [(byte, "unknown name X") for byte in piece.loose]
            if isinstance(item, Formula):
                self.done = Done(self.base, piece)
                self.look_at_target("", b"", item)
            elif item.error not in self.errors and item.error not in self.base.maybe and not self.base.missing:
                self.reported.append((item.error_byte, f"unknown error {item.error}"))
            self.look_at_reads(piece)
            slipped = [] if self.reported else [*slips_of_reads(self.base, piece), *slips_of_letters(piece), *self.slips_of_check(piece, item)]
        elif isinstance(item, Head):
            slipped = list(self.slips_of_head(piece, item))
        return [self.finding(piece, byte, what) for byte, what in self.reported] + slipped

    def finding(self, piece: Piece, byte: int, what: str) -> Finding:
        return Finding(byte, byte + token_length(piece, byte), ERROR, what)

    def add(self, _name: str, _content: bytes, byte: int, what: str) -> None:
        """Adds what the library reports of a piece. That a name is unknown isn't sure where a piece with faults may declare it, or a file can't be read."""
        if what.startswith("unknown name ") and (self.base.missing or what.split(" ")[2] in self.base.maybe):
            return
        self.reported.append((byte, what))

    def look_at_declaration(self, piece: Piece, item: items.Declaration) -> None:
        base = self.base
        of_kind = base.errors if item.kind in items.KINDS_OF_ERRORS else base.variables
        if base.first(of_kind.of(item.name)) is not piece:
            self.reported.append((item.byte, f"declared twice {item.name}"))
        elif item.code is not None and base.first(base.codes.of(item.code)) is not piece:
            self.reported.append((item.byte, f"alias twice {item.code}"))
        elif item.size is not None and not 1 <= item.size <= TABLE_CELLS:
            self.reported.append((item.byte, "table size"))

    def look_at_reads(self, piece: Piece) -> None:
        for word, index, byte, round_it in piece.reads:
            for one in names_of(word, round_it):
                what = None if loops.is_number(one) and index is None else self.name_fault(one, index is not None)
                if what is not None:
                    self.add("", b"", byte, what)
                    break

    def slips_of_declaration(self, piece: Piece, item: items.Declaration) -> Iterator[Finding]:
        for word, number in item.attributes:
            if word == "restituee" and number is not None:
                at = piece.text.content.index(b"restituee", piece.begin + item.byte) - piece.begin
                yield Finding(at, at + len(word), WARNING, f"restituee = {number} returns nothing, of {item.name}")
        for word, number in item.attributes:
            if word != "restituee" and number is None and distance(word, "restituee", 1) <= 1:
                at = piece.text.content.index(word.encode(), piece.begin + item.byte + len(item.name)) - piece.begin
                yield Finding(at, at + len(word), WARNING, f"the attribute {word} of {item.name} isn't restituee, and returns nothing")
        if item.type is not None and item.type not in TYPES:
            what = f"the type {item.type} of {item.name} is none of {', '.join(TYPES)}, and says nothing"
            yield Finding(item.byte, item.byte + len(item.name), WARNING, what)
        end = item.byte + len(item.name)
        if self.is_idle(item):
            what = {"const": "nothing reads", "calculee": "nothing reads or returns"}.get(item.kind, "no verification has")
            yield Finding(item.byte, end, INFORMATION, f"{what} {item.name}")
        if item.kind != "calculee":
            return
        cells: Iterable[int | None] = range(item.size) if item.size is not None else [None]
        bare = [cell for cell in cells if not self.is_set(item.name, cell)]
        if not bare:
            return
        if is_returned(item) and len(bare) == (item.size or 1) and not self.base.missing:
            yield Finding(item.byte, end, WARNING, f"{item.name} is returned, and nothing sets it")
        read = self.cells_read(item)
        if item.size is None:
            if (item.name, None) in read:
                yield Finding(item.byte, end, INFORMATION, f"{item.name} is read, and nothing sets it: it is undefined")
            return
        idle = [cell for cell in bare if (item.name, cell) not in read]
        if idle and (len(bare) < item.size or len(idle) < len(bare)):
            shown = ", ".join(f"{item.name}[{cell}]" for cell in idle[:5])
            yield Finding(item.byte, end, WARNING, f"nothing sets {shown}{' ..' if len(idle) > 5 else ''}, {len(idle)} of {item.size} cells")

    def is_idle(self, item: items.Declaration) -> bool:
        """Whether nothing uses a constant, a computed variable that isn't returned, or an error. Where a file can't be read, it isn't known."""
        if self.base.missing:
            return False
        if item.kind in items.KINDS_OF_ERRORS:
            return item.name not in self.base.raisers and item.name not in self.base.maybe
        if item.kind not in ("const", "calculee") or is_returned(item) or item.name in self.in_driver:
            return False
        return not any(self.base.counts(piece) for piece in self.base.readers.of(item.name))

    def slips_of_head(self, piece: Piece, head: Head) -> Iterator[Finding]:
        """A rule or verification whose number an earlier one of the list's application has."""
        others = self.base.heads.of(number_of(head))
        if len(others) > 1:
            mine = [other for other in others if self.base.application in applications_of(other)]
            first = self.base.first(mine)
            if piece in mine and first is not piece and first is not None:
                what = "rule" if head.kind == "regle" else "verification"
                name = self.base.names.get(first.text, first.text.path)
                yield Finding(head.byte, head.byte + len(head.kind), WARNING, f"the {what} {head.number} stands twice; the first is in {name}")

    def slips_of_check(self, piece: Piece, check: Formula | Check) -> Iterator[Finding]:
        """A verification of numbers and constants alone whose condition holds."""
        if not isinstance(check, Check) or not any(error.item.kind == "anomalie" for error in self.base.errors.of(check.error)):
            return
        constants: dict[str, Fraction] = {}
        for word, _, _, _ in piece.reads:
            declared = self.base.declared(word)
            if declared is None or declared.kind != "const" or declared.number is None:
                return
            constants[word] = Fraction(declared.number)
        reader = PieceReader(piece.text, piece.begin, piece.state)
        reader.piece_at_hand()
        if reader.checks and constant_value(reader.checks[0].condition, constants):
            what = f"the condition holds for every household, so {check.error} always stops"
            yield Finding(check.byte, check.byte + len("si"), WARNING, what)

    def is_set(self, name: str, cell: int | None) -> bool:
        places: list[Cell] = [(name, cell)] if cell is None else [(name, cell), (name, "X")]
        return (name, cell) in self.set_by_driver or any(self.base.counts(piece) for place in places for piece in self.base.setters.of(place))

    def cells_read(self, item: items.Declaration) -> set[Cell]:
        """The cells of a variable that something reads that counts."""
        found: set[Cell] = set()
        for piece in self.base.readers.of(item.name):
            if self.base.counts(piece):
                for word, index, _, round_it in piece.reads:
                    for letters in loops.instances(round_it, [word, *(slips.words_of(index) or [] if index else [])]):
                        if loops.replaced(word, letters) == item.name:
                            found.update(slips.cells_read(item.name, item.size, index, letters))
        return found


def is_returned(item: items.Declaration) -> bool:
    return any(word == "restituee" and number is None for word, number in item.attributes)


def applications_of(head: Piece) -> tuple[str, ...]:
    """The applications of a rule or verification: the items after its head belong to them."""
    pieces = head.text.pieces
    number = head.text.at(head.begin)
    return pieces[number + 1].state.applications if number + 1 < len(pieces) else ()


def slips_of_letters(piece: Piece) -> Iterator[Finding]:
    """A letter that is bound again within its own loop; each letter once."""
    reported: set[str] = set()
    for word, _, byte, round_it in [*piece.reads, *(("", None, piece.item.byte, loops_of) for loops_of in [getattr(piece.item, "loops", [])])]:
        bound: set[str] = set()
        for header in round_it:
            own = {letter for letter, _ in header}
            for letter in sorted((own & bound) - reported):
                reported.add(letter)
                what = f"the letter {letter} is bound again within its own loop, and means the inner one there"
                yield Finding(byte, byte + max(1, len(word)), WARNING, what)
            bound |= own


def slips_of_reads(base: Base, piece: Piece) -> Iterator[Finding]:
    """Indexes that are a number, also one of a loop, and no cell of the table."""
    for word, index, byte, round_it in piece.reads:
        words = None if index is None else slips.words_of(index)
        if words is None:
            continue
        for letters in loops.instances(round_it, [word, *words]):
            name = loops.replaced(word, letters)
            number = slips.number_of(index, letters)
            declared = base.declared(name)
            size = declared.size if declared else None
            if number is not None and size is not None and not -1 < number < size:
                what = "is undefined" if number > 0 else "is 0"
                yield Finding(byte, byte + len(word), WARNING, f"{name}[{int(number)}] is past the table, which has {size} cells, and {what}")
                break


class HeaderReader(PieceReader):
    """Reads a piece again, and keeps the bytes of the letters of each header."""

    def __init__(self, piece: Piece) -> None:
        self.headers: list[tuple[Any, list[int]]] = []
        self.letters: list[int] = []
        super().__init__(piece.text, piece.begin, piece.state)

    def forget(self) -> None:
        super().forget()
        self.headers.clear()

    def letter(self) -> str:
        self.letters.append(self.peek().byte)
        return str(super().letter())

    def header(self) -> Any:
        letters: list[int] = []
        self.letters = letters
        found = super().header()
        self.headers.append((found, letters))
        return found


def faults_of_headers(piece: Piece) -> list[tuple[int, str]]:
    reader = HeaderReader(piece)
    reader.next()
    return [(letters[k] - piece.begin, what) for header, letters in reader.headers for k, what in loops.header_faults(header)]


def token_length(piece: Piece, byte: int) -> int:
    """How long the token at a byte of a piece is."""
    found = source.GAP_OR_TOKEN.match(piece.text.content, piece.begin + byte)
    return len(found[0]) if found else 1
