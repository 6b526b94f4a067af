"""What holds for all households within ranges: which values a cell may have, which verifications never stop, on which inputs a cell depends.

The program goes by the facts (intervals.py) of what it has compiled and folded, which may be tighter than those of the rules as they are written. So what it
prints must lie within these, and no household within the ranges may refute it. A table that is read at an index that is no number is compiled to choices
whose facts may be looser, and so are verifications under a condition of a driver, and what is set there, if either block may be done, since the value from
before counts too: there it is only required that no household refutes it.
"""

import random
from typing import FrozenSet, NamedTuple

from .amounts import GREATEST, OVER, UNDEFINED, UNIT, cut, print_amount, read_amount
from .driver_grammar import Assignment, Conditional, Deletion, Partition
from .driver_names import RULES
from .findings import amount_of_type, stands_in_order
from .intervals import OVER_ALONE, Fact, choice, fact_of_value, has_other, has_zero, holds, is_one_value, lies_within, of_one, of_two, truth_fact
from .trees import Cell, Chain, Exists, Number, Operation

TRIED = 40


# ---- known values: a fact, and the inputs on which it may depend


class Known(NamedTuple):
    """What is known of a value; `exact` where the program may not be looser."""

    fact: Fact
    reads: FrozenSet[bytes]
    exact: bool


def known(fact, parts):
    """What is known of a value that is made of others. One that is always the same depends on nothing."""
    reads = frozenset() if is_one_value(fact) else frozenset().union(*(part.reads for part in parts))
    return Known(fact, reads, all(part.exact for part in parts))


def known_value(value):
    """A value that is the same for all."""
    return Known(fact_of_value(value), frozenset(), True)


def operated(operator, arguments):
    """What is known of an operator's value."""
    facts = [argument.fact for argument in arguments]
    if operator == "choose":
        return chosen(*arguments)
    if operator == "truth":
        return known(truth_fact(facts[0]), arguments)
    if any(not fact.undefined and fact.numbers is None for fact in facts):
        return known(OVER_ALONE, arguments)
    return known(of_one(operator, *facts) if len(facts) == 1 else of_two(operator, *facts), arguments)


def chosen(condition, first, second):
    """A choice depends on its condition and on the branches that may be taken."""
    parts = [condition]
    if has_other(condition.fact.numbers):
        parts.append(first)
    if has_zero(condition.fact.numbers):
        parts.append(second)
    return known(choice(condition.fact, first.fact, second.fact), parts)


def known_of(term, cells):
    """What is known of a term, where these things are known of the cells."""
    if isinstance(term, Number):
        return known_value(term.value)
    if isinstance(term, Cell):
        return cells[term.number]
    if isinstance(term, Operation):
        return operated(term.operator, [known_of(argument, cells) for argument in term.arguments])
    if isinstance(term, Chain):
        so_far = known_of(term.first, cells)
        for operator, operand in term.links:
            so_far = operated(operator, [so_far, known_of(operand, cells)])
        return so_far
    if isinstance(term, Exists):
        found = known_value(0)
        for cell in term.cells:
            found = operated("or", [found, operated("present", [cells[cell]])])
        return found
    return picked(term, cells)


def picked(pick, cells):
    """What is known of a read of a table: at a number, that of the cell; else of all cells, 0 and undefined, which may be too little."""
    table = cells[pick.first:pick.first + pick.size]
    if isinstance(pick.index, Number):
        value = pick.index.value
        if value is UNDEFINED or value is OVER:
            return known_value(value)
        if cut(value) < 0:
            return known_value(0)
        return table[cut(value)] if cut(value) < pick.size else known_value(UNDEFINED)
    parts = [known_of(pick.index, cells), known_value(0), known_value(UNDEFINED)] + table
    fact = Fact(True, any(part.fact.over for part in parts), (-GREATEST, GREATEST))
    return Known(fact, frozenset().union(*(part.reads for part in parts)), False)


# ---- runs


class Runs:
    """A driver over the rules, where facts of the inputs are known."""

    def __init__(self, compiled, given):
        self.compiled = compiled
        self.silent = [True] * len(compiled.base.checks)
        self.plain = True
        codes = {cell: code for code, cell in compiled.declared.inputs.items()}
        cells = [known_value(value) for value in compiled.start([])]
        for cell, code in codes.items():
            fact = given[code]
            cells[cell] = Known(fact, frozenset() if is_one_value(fact) else frozenset([code]), True)
        self.block(compiled.run.driver.blocks[b"main"], cells)
        self.requested = [cells[cell] for cell in compiled.requests]

    def block(self, block, cells):
        """Does commands one after the other."""
        for command in block:
            if isinstance(command, Assignment):
                cells[command.cell] = known_of(command.term, cells)
            elif isinstance(command, Deletion):
                cells[command.cell] = known_value(UNDEFINED)
            elif isinstance(command, Conditional):
                self.conditional(command, cells)
            elif isinstance(command, Partition):
                before = [(cell, cells[cell]) for cell in command.kind]
                for cell, _ in before:
                    cells[cell] = known_value(UNDEFINED)
                self.block(command.block, cells)
                for cell, value in before:
                    cells[cell] = value
            else:
                self.call(command, cells)

    def conditional(self, command, cells):
        """Does both blocks, and chooses each cell."""
        self.plain = False
        condition = operated("truth", [known_of(command.condition, cells)])
        first, second = list(cells), list(cells)
        self.block(command.block, first)
        self.block(command.other, second)
        for cell, (one, other) in enumerate(zip(first, second)):
            if one is not cells[cell] or other is not cells[cell]:
                value = chosen(condition, one, other)
                cells[cell] = value if is_one_value(condition.fact) else value._replace(exact=False)

    def call(self, command, cells):
        """Calls the rules, or a function on a copy; only what is received comes back."""
        after = list(cells)
        if command.function == RULES:
            base = self.compiled.base
            for cell in self.compiled.order:
                after[cell] = known_of(base.terms[cell], after)
            for number, (condition, _) in enumerate(base.checks):
                fact = known_of(condition, after)
                self.silent[number] &= fact.exact and not fact.fact.over and not has_other(fact.fact.numbers)
        else:
            self.block(self.compiled.run.driver.blocks[command.function], after)
        for cell in command.received:
            cells[cell] = after[cell]


# ---- what is printed


def read_fact(text):
    """The fact of a line's words after the name; None where it isn't the one form of any."""
    parts = text.split(b" or ")
    words = [word for word in (b"undefined", b"over") if word in parts]
    numbers = [part for part in parts if part not in (b"undefined", b"over")]
    if parts != numbers + words or len(numbers) > 1:
        return None
    if not numbers:
        return Fact(b"undefined" in words, b"over" in words, None)
    ends = numbers[0].split(b" to ")
    amounts = [read_amount(end) for end in ends]
    if len(ends) > 2 or UNDEFINED in amounts or OVER in amounts or [print_amount(amount) for amount in amounts] != ends:
        return None
    if len(ends) == 2 and amounts[0] >= amounts[1]:
        return None
    return Fact(b"undefined" in words, b"over" in words, (amounts[0], amounts[-1]))


class Facts:
    """What holds within ranges, by a source and what may be given of each input by its code."""

    def __init__(self, compiled, given):
        self.compiled = compiled
        self.given = given
        self.runs = Runs(compiled, given)

    def are(self, text):
        """Whether a text may be these facts."""
        if not text:
            lines = []
        elif text.endswith(b"\n"):
            lines = text[:-1].split(b"\n")
        else:
            return False
        names = self.compiled.request_names
        firsts = list(dict.fromkeys(names))
        if len(lines) < len(names) + len(firsts):
            return False
        silent = lines[len(names):len(lines) - len(firsts)]
        facts = [self.fact(name, line) for name, line in zip(names, lines)]
        reads = [self.reads(name, line) for name, line in zip(firsts, lines[len(lines) - len(firsts):])]
        if None in facts or None in reads or not self.may_be_silent(silent):
            return False
        requested = self.runs.requested
        if not all(lies_within(fact, part.fact) for fact, part in zip(facts, requested) if part.exact):
            return False
        at = [names.index(name) for name in firsts]
        if not all(set(codes) <= requested[place].reads for codes, place in zip(reads, at) if requested[place].exact):
            return False
        return not self.told_against(facts, silent, reads, at)

    def fact(self, name, line):
        """The fact that a line states of a name."""
        return read_fact(line[len(name) + 1:]) if line.startswith(name + b" ") else None

    def reads(self, name, line):
        """The codes that a line states of a name, in the order of declaration."""
        words = line.split(b" ")
        in_order = words[:2] == [b"depends", name] and stands_in_order(words[2:], list(self.compiled.declared.inputs))
        return words[2:] if in_order else None

    def may_be_silent(self, lines):
        """Whether these lines may be those of verifications that never stop: all that are due, in order. Due are those of which no condition may hold."""
        checks = [b"never stops " + label.verification + b" " + label.error for _, label in self.compiled.base.checks]
        may_stop = {line for line, silent in zip(checks, self.runs.silent) if not silent}
        due = [line for line in checks if line not in may_stop and self.runs.plain]
        return stands_in_order(lines, checks) and stands_in_order(due, lines)

    def household(self, draw):
        """Cells with amounts of a household within the ranges; None where the draw missed them."""
        amounts = {}
        for code, cell in self.compiled.declared.inputs.items():
            fact = self.given[code]
            if fact.numbers is None or (fact.undefined and draw.random() < 0.3):
                continue
            amount = drawn(draw, fact.numbers, self.compiled.declared.types[code])
            if amount is None:
                return None
            amounts[cell] = amount
        return amounts

    def told_against(self, facts, silent, reads, at):
        """Whether a household within the ranges refutes what is printed."""
        draw = random.Random(len(facts) + len(silent))
        cells = self.compiled.declared.inputs
        for _ in range(TRIED):
            amounts = self.household(draw)
            if amounts is None:
                continue
            stop, notes, values = self.compiled.parts(amounts.items())
            told = [b"never stops " + label.verification + b" " + label.error for label in notes]
            if stop is not None:
                words = stop.split(b"\n")[0].split(b" ")
                told.append(b"never stops " + b" ".join(words[1:3] if words[0] == b"failed" else words[-2:]))
            if set(told) & set(silent):
                return True
            if stop is None and not all(holds(fact, value) for fact, value in zip(facts, values)):
                return True
            other = self.household(draw)
            if stop is not None or other is None:
                continue
            for codes, place in zip(reads, at):
                kept = {cells[code] for code in codes}
                mixed = {cell: amount for cell, amount in other.items() if cell not in kept}
                mixed.update({cell: amount for cell, amount in amounts.items() if cell in kept})
                values_of_mixed = self.compiled.values(mixed.items())
                if values_of_mixed is not None and values_of_mixed[place] != values[place]:
                    return True
        return False


def drawn(draw, numbers, kind):
    """An amount of a type between two, of which the ends are the likeliest; None where none was found."""
    least, greatest = numbers
    if draw.random() < 0.4:
        return draw.choice(numbers)
    step = UNIT if kind in (b"whole", b"truth") else 1
    if draw.random() < 0.3:
        amount = amount_of_type(draw, kind)
        if least <= amount <= greatest:
            return amount
    return draw.randrange(-(-least // step), greatest // step + 1) * step
