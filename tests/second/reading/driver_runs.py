"""What a driver weighs, and what it does."""

from .amounts import OVER, UNDEFINED
from .driver_grammar import Assignment, Call, Conditional, Deletion, Partition
from .driver_names import RULES
from .faults import Stopped
from .texts import decimal
from .values import base_weight, rules_values, term_weight, value_of

# ---- the weight


def driver_weight(driver, base):
    """The weight of the body of `main`, with all that it calls written out."""
    rules = base_weight(base)
    weights = {RULES: rules}
    for name in driver.order:
        weights[name] = block_weight(driver.blocks[name], weights, base.declared.cells)
    return weights[b"main"]


def block_weight(block, weights, cells):
    """What commands weigh together, where these are the weights of functions and of the rules."""
    return sum(command_weight(command, weights, cells) for command in block)


def command_weight(command, weights, cells):
    """What one command weighs."""
    if isinstance(command, Assignment):
        return term_weight(command.term)
    if isinstance(command, Deletion):
        return 1
    if isinstance(command, Conditional):
        blocks = block_weight(command.block, weights, cells) + block_weight(command.other, weights, cells)
        return term_weight(command.condition) + blocks + changes(command.block) + changes(command.other)
    if isinstance(command, Partition):
        return block_weight(command.block, weights, cells) + cells
    if command.function == RULES:
        return weights[RULES]
    return weights[command.function] + cells


def changes(block):
    """How many names the commands of a block set, delete or receive, also further inside."""
    total = 0
    for command in block:
        if isinstance(command, Call):
            total += len(command.received)
        elif isinstance(command, Conditional):
            total += changes(command.block) + changes(command.other)
        elif isinstance(command, Partition):
            total += changes(command.block)
        else:
            total += 1
    return total


# ---- runs


class Run:
    """A driver over the rules, with an order in which these are computed."""

    def __init__(self, driver, base, order):
        self.driver = driver
        self.base = base
        self.order = order
        self.notes = []

    def run_main(self, environment):
        """Runs `main` over an environment, which it changes, and returns the noted labels, in order of occurrence."""
        self.notes = []
        self.run_block(self.driver.blocks[b"main"], environment)
        return self.notes

    def run_block(self, block, environment):
        """Does commands one after the other."""
        for command in block:
            self.run_command(command, environment)

    def run_command(self, command, environment):
        """Does one command."""
        if isinstance(command, Assignment):
            environment[command.cell] = value_of(command.term, environment)
        elif isinstance(command, Deletion):
            environment[command.cell] = UNDEFINED
        elif isinstance(command, Conditional):
            self.run_conditional(command, environment)
        elif isinstance(command, Partition):
            self.run_partition(command, environment)
        else:
            self.run_call(command, environment)

    def run_conditional(self, command, environment):
        """Does one of two blocks. A condition that is over stops the run."""
        value = value_of(command.condition, environment)
        if value is OVER:
            raise Stopped(b"over driver line " + decimal(command.line) + b"\n")
        taken = command.other if value is UNDEFINED or value == 0 else command.block
        self.run_block(taken, environment)

    def run_partition(self, command, environment):
        """Does a block with the inputs of a kind undefined, and gives them back the values that they had."""
        before = [(cell, environment[cell]) for cell in command.kind]
        for cell, _ in before:
            environment[cell] = UNDEFINED
        self.run_block(command.block, environment)
        for cell, value in before:
            environment[cell] = value

    def run_call(self, command, environment):
        """Calls the rules, or a function on a copy; only what is received comes back."""
        if command.function == RULES:
            after, notes = rules_values(self.base, self.order, environment)
            self.notes += notes
        else:
            after = list(environment)
            self.run_block(self.driver.blocks[command.function], after)
        for cell in command.received:
            environment[cell] = after[cell]
