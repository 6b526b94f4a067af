"""What rules compute: which cells they read, an order, the values, the verifications, and what they weigh."""

from .amounts import OVER, UNDEFINED, cut, operate
from .faults import RingRefused, Stopped, order_or_ring
from .trees import Cell, Chain, Exists, Number, Operation, Pick

# ---- terms over cells, in rules and in drivers


def value_of(term, values):
    """The value of a term where the cells have these values."""
    if isinstance(term, Number):
        return term.value
    if isinstance(term, Cell):
        return values[term.number]
    if isinstance(term, Operation):
        return operate(term.operator, [value_of(argument, values) for argument in term.arguments])
    if isinstance(term, Chain):
        so_far = value_of(term.first, values)
        for operator, operand in term.links:
            so_far = operate(operator, [so_far, value_of(operand, values)])
        return so_far
    if isinstance(term, Exists):
        found = 0
        for cell in term.cells:
            found = operate("or", [found, operate("present", [values[cell]])])
        return found
    return picked(term, value_of(term.index, values), values)


def picked(pick, index, values):
    """What a table is worth at an index, which is cut toward zero: below 0 it is 0, past the last cell undefined."""
    if index is UNDEFINED or index is OVER:
        return index
    if cut(index) < 0:
        return 0
    return values[pick.first + cut(index)] if cut(index) < pick.size else UNDEFINED


def reads_of(term, cells):
    """Adds the cells that a term reads, in every branch. A table that is read at a number reads that one cell."""
    if isinstance(term, Cell):
        cells.add(term.number)
    elif isinstance(term, Operation):
        for argument in term.arguments:
            reads_of(argument, cells)
    elif isinstance(term, Chain):
        reads_of(term.first, cells)
        for _, operand in term.links:
            reads_of(operand, cells)
    elif isinstance(term, Pick):
        reads_of(term.index, cells)
        if not isinstance(term.index, Number):
            cells.update(range(term.first, term.first + term.size))
        elif term.index.value is not UNDEFINED and 0 <= cut(term.index.value) < term.size:
            cells.add(term.first + cut(term.index.value))


def term_weight(term):
    """What a term weighs: 1 for each number, name and operator; more for reads of tables, and for `exists`."""
    if isinstance(term, Operation):
        return sum(term_weight(argument) for argument in term.arguments) + 1
    if isinstance(term, Chain):
        return term_weight(term.first) + sum(term_weight(operand) + 1 for _, operand in term.links)
    if isinstance(term, Pick):
        index = term_weight(term.index)
        return index + 1 if isinstance(term.index, Number) else index + 2 + 2 * term.size
    if isinstance(term, Exists):
        return 1 + 2 * len(term.cells)
    return 1


# ---- a base


def order_of(base):
    """The cells that have terms, each after those that it reads, or the error of a cycle."""

    def reads(cell):
        found = set()
        if cell in base.terms:
            reads_of(base.terms[cell], found)
        return sorted(found & base.terms.keys())

    order, ring = order_or_ring(sorted(base.terms), reads)
    if ring:
        raise RingRefused(b"refused cycle", base.declared.printed_names(), reads, ring)
    return order


def rules_values(base, order, environment):
    """The values of all cells over an environment, and the labels of the verifications that are noted, in source order. The first
    check that is over, or that fails with an anomaly, stops the run."""
    values = list(environment)
    for cell in order:
        values[cell] = value_of(base.terms[cell], values)
    notes = []
    for condition, label in base.checks:
        value = value_of(condition, values)
        if value is OVER:
            raise Stopped(b"over verification " + label.verification + b" " + label.error + b"\n")
        if value is not UNDEFINED and value != 0:
            if label.kind == b"anomalie":
                raise Stopped(label_lines(b"failed", label))
            notes.append(label)
    return values, notes


def label_lines(word, label):
    """The two lines of a verification after a word."""
    return b" ".join([word, label.verification, label.error, label.kind]) + b"\n" + label.text + b"\n"


def base_weight(base):
    """What one call of the rules weighs: all terms, and 1 for each formula and check."""
    terms = list(base.terms.values()) + [condition for condition, _ in base.checks]
    return sum(term_weight(term) + 1 for term in terms)
