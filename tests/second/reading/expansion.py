"""The rules of an application without loops: each loop is replaced by its instances."""

from typing import Any, NamedTuple

from .amounts import UNIT
from .faults import at_place
from .terms import is_name, is_whole
from .texts import decimal
from .trees import EVERY, CellNumber, Chain, Membership, Name, Number, Operation, Read, Rule, Sum, Verification

MOST_INSTANCES = 10_000
MOST_PARTS = 2_000_000
MOST_DIGITS = 12


class Definition(NamedTuple):
    """A formula without loops: what it sets, the number of a table's cell, or `EVERY` where that is no table."""

    target: bytes
    slot: Any
    term: Any
    place: Any


class Condition(NamedTuple):
    """A check without loops, with the number of its verification."""

    verification: bytes
    error: bytes
    term: Any
    place: Any


def expanded(items, application, declared):
    """The definitions and conditions of an application, each in the order of the items, or the refusal of a loop."""
    counting = [item for item in items if counts(item, application)]
    look_for_loop_faults(counting)
    look_for_parts(counting, declared)
    rules = [item for item in counting if isinstance(item, Rule)]
    verifications = [item for item in counting if isinstance(item, Verification)]
    formulas = [formula for rule in rules for formula in rule.formulas]
    definitions = (definition for formula in formulas for definition in instances_of(formula, declared))
    conditions = (
        Condition(verification.number, check.error, instance(check.condition, {}, None), check.place)
        for verification in verifications
        for check in verification.checks
    )
    return definitions, conditions


def counts(item, application):
    """Whether an item is a verification or an unchained rule of the application."""
    if isinstance(item, Rule):
        return not item.chained and application in item.applications
    return isinstance(item, Verification) and application in item.applications


# ---- values of headers


def range_values(low, high):
    """The values from a point to a point; none where the range is bad."""
    if low == high:
        return [low]
    if is_whole(low) and is_whole(high):
        return [decimal(k).rjust(len(low), b"0") for k in range(int(low), int(high) + 1)]
    if is_letter(low) and is_letter(high):
        return [bytes([k]) for k in range(low[0], high[0] + 1)]
    return []


def is_letter(point):
    """Whether a point is a single letter from `A` to `Z`."""
    return len(point) == 1 and b"A" <= point <= b"Z"


def range_length(low, high):
    """How many values there are from a point to a point."""
    if low != high and is_whole(low) and is_whole(high):
        return max(0, int(high) - int(low) + 1)
    return len(range_values(low, high))


def index_values(index):
    """The values of an index, in order."""
    return [value for low, high in index.values for value in range_values(low, high)]


def instance_count(indexes):
    """How many instances indexes have together."""
    count = 1
    for index in indexes:
        count *= sum(range_length(low, high) for low, high in index.values)
    return count


def bindings(indexes, letters):
    """The values of the letters in each instance; the first index changes slowest."""
    if not indexes:
        yield letters
        return
    for value in index_values(indexes[0]):
        yield from bindings(indexes[1:], {**letters, indexes[0].letter: value})


# ---- faults of loops: of all the one with the first place is reported


def look_for_loop_faults(items):
    """Refuses the first place at which a range is bad, a loop too large or a letter unbound."""
    faults = []
    for item in items:
        if isinstance(item, Rule):
            for formula in item.formulas:
                formula_faults(formula, faults)
        else:
            for check in item.checks:
                term_faults(check.condition, frozenset(), faults)
    if faults:
        raise at_place(*min(faults))


def formula_faults(formula, faults):
    """Adds the faults of a formula, each a place and what is wrong there."""
    letters = frozenset()
    for header in formula.loops:
        header_faults(header, faults)
        letters |= {index.letter for index in header.indexes}
    word_faults(formula.target, formula.place, letters, faults)
    term_faults(formula.term, letters, faults)


def header_faults(header, faults):
    """Adds the faults of a header: its bad ranges, and only where there are none, that it has too many instances."""
    letters = [index.letter for index in header.indexes]
    bad = [
        index.place
        for index in header.indexes
        if letters.count(index.letter) > 1 or any(range_length(low, high) == 0 for low, high in index.values)
    ]
    faults.extend((place, b"bad range") for place in bad)
    if not bad and instance_count(header.indexes) > MOST_INSTANCES:
        faults.append((header.place, b"loop too large"))


def word_faults(word, place, letters, faults):
    """Adds the fault of a word with a small letter that no loop binds."""
    if not all(is_name(word[at:at + 1]) or word[at:at + 1] in letters for at in range(len(word))):
        faults.append((place, b"unbound index"))


def term_faults(term, letters, faults):
    """Adds the faults of a term within loops that bind these letters."""
    if isinstance(term, (Name, Read)):
        word_faults(term.word, term.place, letters, faults)
    if isinstance(term, Sum):
        header_faults(term.header, faults)
        letters = letters | {index.letter for index in term.header.indexes}
    for part in parts_of(term):
        term_faults(part, letters, faults)


def parts_of(term):
    """The terms that a term is made of."""
    if isinstance(term, Read):
        return [term.index]
    if isinstance(term, Operation):
        return term.arguments
    if isinstance(term, Chain):
        return [term.first] + [operand for _, operand in term.links]
    if isinstance(term, Membership):
        return [term.term] + [end for member in term.members for end in member]
    if isinstance(term, Sum):
        return [term.body]
    return []


# ---- how many names, numbers and operators there are after all loops


def look_for_parts(items, declared):
    """Refuses the item with which all formulas and checks together pass the most parts."""
    total = 0
    for item in items:
        if isinstance(item, Rule):
            for formula in item.formulas:
                total += formula_parts(formula, declared)
        else:
            total += sum(part_count(check.condition) + 1 for check in item.checks)
        if total > MOST_PARTS:
            raise at_place(item.place, b"too many parts")


def formula_parts(formula, declared):
    """The parts of all instances of a formula, and one for the target of each. Beyond the most it may be any number."""
    each = part_count(formula.term) + 1
    indexes = [index for header in formula.loops for index in header.indexes]
    if formula.slot != EVERY:
        return instance_count(indexes) * each
    total = 0
    for letters in bindings(indexes, {}):
        total += each * (table_size(replaced(formula.target, letters), declared) or 1)
        if total > MOST_PARTS:
            break
    return total


def part_count(term):
    """How many names, numbers and operators a term has once its loops are replaced by their instances."""
    if isinstance(term, Sum):
        return instance_count(term.header.indexes) * (part_count(term.body) + 1) - 1
    if isinstance(term, Chain):
        return sum(part_count(part) for part in parts_of(term)) + len(term.links)
    if isinstance(term, Membership):
        return membership_parts(term)
    return sum(part_count(part) for part in parts_of(term)) + 1


def membership_parts(membership):
    """A membership written out: `x = m` for a single member, else `x >= low et x <= high`, joined by `ou`."""
    tested = part_count(membership.term)
    total = len(membership.members) - 1 + (1 if membership.negated else 0)
    for low, high in membership.members:
        total += tested + part_count(low) + 1
        if low != high:
            total += tested + part_count(high) + 2
    return total


# ---- instances


def instances_of(formula, declared):
    """The definitions of a formula: one for each instance of its loops, and of `T[X]` one for each cell."""
    indexes = [index for header in formula.loops for index in header.indexes]
    for letters in bindings(indexes, {}):
        target = replaced(formula.target, letters)
        size = table_size(target, declared) if formula.slot == EVERY else None
        if size is None:
            yield Definition(target, formula.slot, instance(formula.term, letters, None), formula.place)
        else:
            for cell in range(size):
                yield Definition(target, cell, instance(formula.term, letters, cell), formula.place)


def table_size(name, declared):
    """The number of cells of a table; nothing where no table has the name."""
    return declared.by_name[name].size if name in declared.by_name else None


def replaced(word, letters):
    """A word in which each bound letter is replaced by its value."""
    if is_name(word):
        return word
    return b"".join(letters.get(word[at:at + 1], word[at:at + 1]) for at in range(len(word)))


def instance(term, letters, cell):
    """A term where letters have values, and `X` for the number of a cell if there is one."""
    if isinstance(term, Number) or isinstance(term, Name) and is_name(term.word):
        return term
    if isinstance(term, Name):
        word = replaced(term.word, letters)
        if word.isdigit() and len(word) <= MOST_DIGITS:
            return Number(int(word) * UNIT)
        return Name(word, term.place)
    if isinstance(term, CellNumber):
        return term if cell is None else Number(cell * UNIT)
    if isinstance(term, Read):
        return Read(replaced(term.word, letters), instance(term.index, letters, cell), term.place)
    if isinstance(term, Operation):
        return Operation(term.operator, [instance(argument, letters, cell) for argument in term.arguments])
    if isinstance(term, Chain):
        links = [(operator, instance(operand, letters, cell)) for operator, operand in term.links]
        return Chain(instance(term.first, letters, cell), links)
    if isinstance(term, Membership):
        members = [(instance(low, letters, cell), instance(high, letters, cell)) for low, high in term.members]
        return Membership(term.negated, instance(term.term, letters, cell), members)
    summands = [instance(term.body, bound, cell) for bound in bindings(term.header.indexes, letters)]
    return Chain(summands[0], [("add", summand) for summand in summands[1:]]) if len(summands) > 1 else summands[0]
