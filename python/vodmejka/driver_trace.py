"""Which command of a driver gave a cell its value, and from what: the driver is followed command by command, and the program runs it as far as each.

A run as far as a command is a driver of its own: the commands before it, with the branches that were taken and the bodies of functions written out, and the
inputs of a partition deleted. So every reported value is one that the program computed.
"""
from __future__ import annotations

import re
from typing import NamedTuple

from . import drivers, source
from .copies import Copies
from .endings import Wrong
from .reasons import Rules
from .texts import said

CELL = re.compile(r"[A-Z0-9_]*[A-Z_][A-Z0-9_]*(?:\[[0-9]+\])?")


class Command:
    """A command with its block; `text` is its line without indentation and comment, and `lines` are those of the command and its block, as in a function."""

    def __init__(self, number: int, indent: int, said: tuple, text: str):
        self.number, self.indent, self.said, self.text = number, indent, said, text
        self.block: list[Command] = []

    def lines(self, indent: int = 2) -> list[str]:
        return [" " * indent + self.text, *(line for command in self.block for line in command.lines(indent + 2))]


class Event(NamedTuple):
    """A command that gave a cell a value: `before` is the run as far as it, `history` the event before it, `where` is the way to it."""

    cell: str
    command: Command
    before: list[str]
    history: Event | None
    where: str


class Driver:
    """The functions of a driver, each a list of commands."""

    def __init__(self, content: bytes):
        read = drivers.Driver(content)
        if read.faults:
            raise Wrong(f"refused driver line {read.faults[0].line}: {read.faults[0].what}")
        lines = source.lines_of(content)
        self.functions: dict[str, Command] = {}
        opened: list[Command] = []
        for line, parts in read.said:
            text = lines[line.number - 1].partition(b"#")[0].strip().decode("latin-1")
            command = Command(line.number, line.indent, parts, text)
            while opened and opened[-1].indent >= line.indent:
                opened.pop()
            if parts[0] == "function":
                self.functions[parts[1]] = command
            else:
                opened[-1].block.append(command)
            opened.append(command)
        if "main" not in self.functions:
            raise Wrong("refused driver: no main")


def last(cell: str, head: Event | None) -> Event | None:
    """The last event of a cell, from one back."""
    while head is not None and head.cell != cell:
        head = head.history
    return head


def without(found: Event | None, head: Event | None, cells: list[str]) -> Event | None:
    """The events from one back to another, without those of some cells."""
    kept: list[Event] = []
    while found is not None and found is not head:
        kept += [] if found.cell in cells else [found]
        found = found.history
    for event in reversed(kept):
        head = event._replace(history=head)
    return head


def settable(variables: dict[str, source.Variable]) -> str:
    """A cell that any driver may set: of a computed variable where there is one, else of a table, else an input."""
    cells = [drivers.cell_name((name, None if variable.size is None else 0))
             for name, variable in sorted(variables.items(), key=lambda one: (one[1].kind != "calculee", one[1].size is not None)) if variable.kind != "const"]
    if not cells:
        raise Wrong("refused driver: no variable that it may set")
    return cells[0]


class Trace:
    """Follows a driver with the program's help."""

    def __init__(self, rules: Rules, copies: Copies, driver: Driver):
        self.rules, self.copies, self.driver = rules, copies, driver
        self.scratch = settable(rules.variables)
        others = [command for name, command in driver.functions.items() if name != "main"]
        self.others = [line for function in others for line in [function.text, *(line for command in function.block for line in command.lines())]]

    def values(self, body: list[str], cells: list[str]) -> dict[str, str]:
        """The values of cells after these commands."""
        lines = ["main():", *(body or [f"  {self.scratch} = {self.scratch}"]), *self.others, ""]
        return self.copies.values(cells, driver=self.copies.put("trace.mpp", "\n".join(lines).encode("latin-1")))

    def follow(self, commands: list[Command], before: list[str], head: Event | None, where: str) -> tuple[list[str], Event | None]:
        """Goes through commands; the run as far as their end comes back, and the last event."""
        branch = None
        for command in commands:
            kind = command.said[0]
            if kind in ("set", "del", "call"):
                for cell in command.said[1] if kind == "call" else [command.said[1]]:
                    head = Event(drivers.cell_name(cell), command, before, head, where)
                before = [*before, "  " + command.text]
            elif kind == "partition":
                head = self.partition(command, before, head, where)
                before = [*before, *command.lines()]
            elif kind == "if":
                branch = (command, self.holds(command, before))
                if branch[1]:
                    before, head = self.follow(command.block, before, head, where + said("why.if_holds", line=command.number))
            elif branch is not None and not branch[1]:
                before, head = self.follow(command.block, before, head, where + said("why.if_not", line=branch[0].number))
        return before, head

    def holds(self, command: Command, before: list[str]) -> bool:
        """Whether the condition of an `if` is another number than 0."""
        term = re.sub(r"^if\b(.*):$", r"\1", command.text).strip()
        return self.values([*before, f"  {self.scratch} = {term}"], [self.scratch])[self.scratch] not in ("undefined", "= 0")

    def partition(self, command: Command, before: list[str], head: Event | None, where: str) -> Event | None:
        """Follows a partition: its inputs are undefined there, and have their values again after it."""
        inputs = drivers.inputs_of_kind(self.rules.variables, *command.said[1:])
        inner = [*before, *(f"  del {name}" for name in inputs)]
        _, found = self.follow(command.block, inner, head, where + said("why.in_partition", line=command.number))
        return without(found, head, inputs)

    def inside(self, event: Event) -> Event | None:
        """The event in the body of a function that gave a received cell its value; the body works on a copy of all cells."""
        name = event.command.said[2]
        _, head = self.follow(self.driver.functions[name].block, event.before, event.history, said("why.in_function", name=name))
        return last(event.cell, head)

    def after(self, event: Event) -> list[str]:
        """The run as far as the end of an event's command."""
        return [*event.before, "  " + event.command.text]


def cells_of(command: Command) -> list[str]:
    """The cells that the term of an assignment reads, each once."""
    term = command.text.partition("=")[2]
    return list(dict.fromkeys(cell for cell in CELL.findall(term)))
