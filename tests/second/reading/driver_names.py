"""Names of a driver to cells and functions, or the first fault of a name; functions that call each other in a ring."""

from .driver_grammar import Assignment, Call, CellName, Conditional, Deletion, KindExists, Partition
from .faults import Refused, RingRefused, at_driver_line, order_or_ring
from .trees import Cell, Chain, Exists, Number, Operation

RULES = b"call_m"


class Driver:
    """The blocks of functions over cells, by their names; those that a function calls come before it in `order`."""

    def __init__(self, blocks, order):
        self.blocks = blocks
        self.order = order


def driver_over_cells(functions, declared):
    """A driver over cells and functions, or the first of its faults."""
    names = set()
    for function in functions:
        if function.name == RULES or function.name in names:
            raise at_driver_line(function.line, b"function twice " + function.name)
        names.add(function.name)
    if b"main" not in names:
        raise Refused(b"refused driver: no main")
    blocks = {function.name: block_over_cells(function.block, names, declared) for function in functions}
    return Driver(blocks, order_of_functions(blocks))


def order_of_functions(blocks):
    """The names of functions, each after those that it calls, or the error of a cycle."""
    names = list(blocks)
    numbers = {name: number for number, name in enumerate(names)}

    def calls(number):
        return [numbers[name] for name in called_in(blocks[names[number]])]

    order, ring = order_or_ring(range(len(names)), calls)
    if ring:
        raise RingRefused(b"refused driver recursion", names, calls, ring)
    return [names[number] for number in order]


def called_in(block):
    """The functions that are called in a block, also further inside; the rules are none."""
    names = []
    for command in block:
        if isinstance(command, Call) and command.function != RULES:
            names.append(command.function)
        elif isinstance(command, Conditional):
            names += called_in(command.block) + called_in(command.other)
        elif isinstance(command, Partition):
            names += called_in(command.block)
    return names


def block_over_cells(block, names, declared):
    """Commands over cells, from the top."""
    return [command_over_cells(command, names, declared) for command in block]


def command_over_cells(command, names, declared):
    """A command over cells: its names are looked at from left to right."""
    line = command.line
    if isinstance(command, Assignment):
        cell = target(command.cell, line, declared)
        return Assignment(line, cell, term_over_cells(command.term, line, declared))
    if isinstance(command, Deletion):
        return Deletion(line, target(command.cell, line, declared))
    if isinstance(command, Conditional):
        condition = term_over_cells(command.condition, line, declared)
        block = block_over_cells(command.block, names, declared)
        return Conditional(line, condition, block, block_over_cells(command.other, names, declared))
    if isinstance(command, Partition):
        cells = declared.cells_of_kind(command.kind)
        return Partition(line, cells, block_over_cells(command.block, names, declared))
    received = [target(name, line, declared) for name in command.received]
    if command.function != RULES and command.function not in names:
        raise unknown(command.function, line)
    return Call(line, received, command.function)


def term_over_cells(term, line, declared):
    """A term over cells: its names are looked at from left to right."""
    if isinstance(term, Number):
        return term
    if isinstance(term, CellName):
        return Cell(cell_of(term, line, declared))
    if isinstance(term, KindExists):
        return Exists(declared.cells_of_kind(term.kind))
    if isinstance(term, Operation):
        return Operation(term.operator, [term_over_cells(argument, line, declared) for argument in term.arguments])
    first = term_over_cells(term.first, line, declared)
    return Chain(first, [(operator, term_over_cells(operand, line, declared)) for operator, operand in term.links])


def cell_of(name, line, declared):
    """The cell that a name names: a variable without an index, or a table with that of one of its cells."""
    variable = declared.by_name.get(name.name)
    if variable is None or (name.index is None) != (variable.size is None):
        raise unknown(name.name, line)
    if name.index is None:
        return declared.first_cells[name.name]
    if name.index >= variable.size:
        raise unknown(name.name, line)
    return declared.first_cells[name.name] + name.index


def target(name, line, declared):
    """The cell of a name that is set, deleted or received, which is no constant's."""
    cell = cell_of(name, line, declared)
    if declared.by_name[name.name].role == "constant":
        raise at_driver_line(line, b"bad target " + name.name)
    return cell


def unknown(name, line):
    """The refusal of a name that isn't what is needed there."""
    return at_driver_line(line, b"unknown " + name)
