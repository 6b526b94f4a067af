"""Names to cells: the base of the rules, or the first fault of a name."""

from typing import NamedTuple

from .faults import at_place
from .trees import EVERY, Cell, CellNumber, Chain, Name, Number, Operation, Pick, Read


class Label(NamedTuple):
    """The label of a check that ends a run: the number of its verification, and its error."""

    verification: bytes
    error: bytes
    kind: bytes
    text: bytes


class Base:
    """The rules over cells: what is declared, the term of each cell that has one, and checks with their labels."""

    def __init__(self, declared):
        self.declared = declared
        self.terms = {}
        self.checks = []


def base_of(definitions, conditions, declared):
    """The base of an application: all definitions come first, in order, and then all conditions."""
    base = Base(declared)
    for definition in definitions:
        cell = target_cell(definition, declared)
        if cell in base.terms:
            raise at_place(definition.place, b"defined twice " + declared.printed_names()[cell])
        base.terms[cell] = over_cells(definition.term, declared)
    for condition in conditions:
        term = over_cells(condition.term, declared)
        base.checks.append((term, label_of(condition, declared)))
    return base


def target_cell(definition, declared):
    """The cell that a definition sets: neither of an input nor of a constant, and of a table one that it has."""
    name, place = definition.target, definition.place
    variable = known(name, place, declared)
    if definition.slot is None and variable.size is not None:
        raise at_place(place, b"is a table " + name)
    if definition.slot is not None and variable.size is None:
        raise at_place(place, b"not a table " + name)
    if variable.role != "computed":
        raise at_place(place, b"bad target " + name)
    if definition.slot is None:
        return declared.first_cells[name]
    if definition.slot == EVERY or definition.slot >= variable.size:
        raise at_place(place, b"bad target " + name)
    return declared.first_cells[name] + definition.slot


def known(name, place, declared):
    """The variable of a name."""
    if name not in declared.by_name:
        raise at_place(place, b"unknown name " + name)
    return declared.by_name[name]


def label_of(condition, declared):
    """The text of a condition: the texts of its error joined by `:`, each byte below 32 as a blank."""
    if condition.error not in declared.errors:
        raise at_place(condition.place, b"unknown error " + condition.error)
    error = declared.errors[condition.error]
    text = bytes(max(32, byte) for byte in b":".join(error.texts))
    return Label(condition.verification, error.name, error.kind, text)


def over_cells(term, declared):
    """A term over cells, or the refusal of the first of its names from left to right."""
    if isinstance(term, Number):
        return term
    if isinstance(term, Name):
        if known(term.word, term.place, declared).size is not None:
            raise at_place(term.place, b"is a table " + term.word)
        return Cell(declared.first_cells[term.word])
    if isinstance(term, CellNumber):
        raise at_place(term.place, b"unknown name X")
    if isinstance(term, Read):
        size = known(term.word, term.place, declared).size
        if size is None:
            raise at_place(term.place, b"not a table " + term.word)
        return Pick(declared.first_cells[term.word], size, over_cells(term.index, declared))
    if isinstance(term, Operation):
        return Operation(term.operator, [over_cells(argument, declared) for argument in term.arguments])
    if isinstance(term, Chain):
        first = over_cells(term.first, declared)
        return Chain(first, [(operator, over_cells(operand, declared)) for operator, operand in term.links])
    return membership(term, declared)


def membership(term, declared):
    """A membership written out: `x = m ou x >= low et x <= high ..`, perhaps after `non`."""
    tested = over_cells(term.term, declared)
    tests = []
    for low, high in term.members:
        low_end, high_end = over_cells(low, declared), over_cells(high, declared)
        if low == high:
            tests.append(Operation("eq", [tested, low_end]))
        else:
            above = Operation("ge", [tested, low_end])
            tests.append(Chain(above, [("and", Operation("le", [tested, high_end]))]))
    joined = Chain(tests[0], [("or", test) for test in tests[1:]]) if len(tests) > 1 else tests[0]
    return Operation("not", [joined]) if term.negated else joined
