"""What terms and items are made of."""

from typing import Any, List, NamedTuple, Optional, Tuple


# Terms. Loops are replaced by their instances, and `Name`, `CellNumber` and `Read` by cells: then only `Number`,
# `Cell`, `Pick`, `Operation`, `Chain` and, in drivers, `Exists` are left.


class Number(NamedTuple):
    """A number, or undefined."""

    value: Optional[int]


class Name(NamedTuple):
    """A word that denotes a variable."""

    word: bytes
    place: Any


class CellNumber(NamedTuple):
    """`X`: the number of the cell for which a formula is written."""

    place: Any


class Read(NamedTuple):
    """A table that is read at an index: `T[2]`."""

    word: bytes
    index: Any
    place: Any


class Operation(NamedTuple):
    """An operator on its arguments."""

    operator: str
    arguments: List[Any]


class Chain(NamedTuple):
    """Operands that are worked from the left: the first, and each further one with its operator."""

    first: Any
    links: List[Tuple[str, Any]]


class Membership(NamedTuple):
    """`x dans (1, 3..5)`: each member is its two ends, and a single one has the same twice."""

    negated: bool
    term: Any
    members: List[Tuple[Any, Any]]


class Sum(NamedTuple):
    """`somme(header: body)`."""

    header: "Header"
    body: Any


class Cell(NamedTuple):
    """The value of a cell, by its number."""

    number: int


class Pick(NamedTuple):
    """A number of a table's cells from the first on, of which an index picks one."""

    first: int
    size: int
    index: Any


class Exists(NamedTuple):
    """Whether one of these cells is defined."""

    cells: List[int]


# Headers of loops.


class Index(NamedTuple):
    """A letter and its values, each from a point to a point."""

    letter: bytes
    place: Any
    values: List[Tuple[bytes, bytes]]


class Header(NamedTuple):
    """The indexes of a loop; its place is that of its first letter."""

    place: Any
    indexes: List[Index]


# Items. The place of each is that of its first token.


class Variable(NamedTuple):
    """A declaration: an input has a code and perhaps the word of a type, a constant an amount, a table a size; attributes are
    `words` and `pairs`."""

    place: Any
    name: bytes
    role: str
    code: Optional[bytes] = None
    size: Optional[int] = None
    amount: Optional[int] = None
    words: Tuple[bytes, ...] = ()
    pairs: Tuple[Tuple[bytes, int], ...] = ()
    type_word: Optional[bytes] = None


class Error(NamedTuple):
    """An error that verifications raise."""

    place: Any
    name: bytes
    kind: bytes
    texts: List[bytes]


class Formula(NamedTuple):
    """A formula; `slot` is nothing, the number of a cell, or `EVERY` for `T[X]`. Its place is that of the target."""

    loops: List[Header]
    target: bytes
    slot: Any
    term: Any
    place: Any


EVERY = "every cell"


class Rule(NamedTuple):
    """A rule; a chained one never counts."""

    place: Any
    applications: List[bytes]
    chained: bool
    formulas: List[Formula]


class Check(NamedTuple):
    """A condition at which an error is raised; its place is that of `si`."""

    condition: Any
    error: bytes
    place: Any


class Verification(NamedTuple):
    """A verification, with its number as it is spelled."""

    place: Any
    number: bytes
    applications: List[bytes]
    checks: List[Check]


class WithoutEffect(NamedTuple):
    """An application or a chaining by itself."""

    place: Any
