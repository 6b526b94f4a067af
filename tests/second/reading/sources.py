"""A whole source: rule files, a driver and requests; and its answer for a household."""

from typing import List, NamedTuple, Optional, Tuple

from .amounts import UNDEFINED
from .declarations import declared_by
from .driver_grammar import Call, functions_of
from .driver_lines import driver_lines
from .driver_names import RULES, Driver, driver_over_cells
from .driver_runs import Run, driver_weight
from .expansion import expanded
from .faults import Refused, Stopped
from .files import read_requests
from .items import items_of
from .names import base_of
from .records import record_fields
from .reports import value_line
from .texts import decimal
from .tokens import tokens_of
from .values import label_lines, order_of

MOST_WEIGHT = 4_000_000
MOST_TOLD_WEIGHT = 2**64 - 1


class Source(NamedTuple):
    """The bytes of a source: an application, rule files with their names, a driver and requests where there are any."""

    application: bytes
    rule_files: List[Tuple[bytes, bytes]]
    driver: Optional[bytes]
    requests: Optional[bytes]


class Rules:
    """Rule files without a fault."""

    def __init__(self, source):
        """Goes through the steps of rule files in order; the first that finds a fault refuses them."""
        items = []
        for number, (name, text) in enumerate(source.rule_files):
            items += items_of(tokens_of(number, name, text))
        self.declared = declared_by(items)
        definitions, conditions = expanded(items, source.application, self.declared)
        self.base = base_of(definitions, conditions, self.declared)
        self.order = order_of(self.base)

    def start(self, amounts):
        """The values of all cells at the start of a run, for cells of inputs with their amounts."""
        environment = [UNDEFINED] * self.declared.cells
        for variable in self.declared.variables:
            if variable.role == "constant":
                environment[self.declared.first_cells[variable.name]] = variable.amount
        for cell, amount in amounts:
            environment[cell] = amount
        return environment


class Compiled(Rules):
    """A source without a fault."""

    def __init__(self, source):
        """Goes through the steps in order; the first that finds a fault refuses the source."""
        super().__init__(source)
        driver = None
        if source.driver is not None:
            driver = driver_over_cells(functions_of(driver_lines(source.driver)), self.declared)
        self.requests = read_requests(source.requests, self.declared)
        if driver is None:
            driver = self.plain_driver()
        weight = driver_weight(driver, self.base)
        if weight > MOST_WEIGHT:
            raise Refused(b"refused driver too large " + decimal(min(weight, MOST_TOLD_WEIGHT)))
        self.run = Run(driver, self.base, self.order)
        printed = self.declared.printed_names()
        self.request_names = [printed[cell] for cell in self.requests]

    def plain_driver(self):
        """The driver that calls the rules once and receives what is requested, but for constants."""
        constants = {self.declared.first_cells[v.name] for v in self.declared.variables if v.role == "constant"}
        received = [cell for cell in self.requests if cell not in constants]
        return Driver({b"main": [Call(1, received, RULES)]}, [b"main"])

    def values(self, amounts):
        """The requested values, or None if the run is stopped."""
        stop, _, values = self.parts(amounts)
        return values if stop is None else None

    def parts(self, amounts):
        """The answer for a household (cells of inputs with amounts), in parts: the lines of its stop or None, the notes, and the requested values."""
        environment = self.start(amounts)
        try:
            notes = self.run.run_main(environment)
        except Stopped as stop:
            return stop.lines, [], []
        return None, notes, [environment[cell] for cell in self.requests]

    def told(self, amounts):
        """The lines printed for a household, and whether it was stopped."""
        stop, notes, values = self.parts(amounts)
        if stop is not None:
            return stop, True
        noted = b"".join(label_lines(b"noted", label) for label in notes)
        return noted + b"".join(value_line(name, value) for name, value in zip(self.request_names, values)), False

    def record(self, amounts):
        """The fields of a household's record after its label: its stop, its notes and its values."""
        stop, notes, values = self.parts(amounts)
        return record_fields(stop, [(label.verification, label.error) for label in notes], values, len(self.request_names))
