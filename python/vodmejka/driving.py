"""Drivers as programs over the rules of calculation.py, which count the commands that they do. The meaning is that of docs/DRIVER.md."""
from __future__ import annotations

from typing import Any, Callable, NamedTuple

from . import drivers, operators, source
from .answers import OVER
from .calculation import Read, Rules, Stopped, constant, folded
from .points import COMMAND, Point

Value = operators.Value
RULES, MAIN = "call_m", "main"
OF_M = {"and": "et", "or": "ou", "==": "="}


class Command(NamedTuple):
    """A command: its line and its parse, the function that runs it, its block and that of its `else`."""

    line: drivers.Line
    said: tuple
    block: list[Any]
    otherwise: list[Any]


class LineTerms(drivers.LineReader):
    """A line with its term. Terms are ("number", text), ("cell", name, index), ("exists", kind) and ("op", sign, terms), with the signs of M."""

    term_of_line: Any = None

    def term(self) -> Any:
        self.term_of_line = self.chain(self.conjunction, "or")
        return self.term_of_line

    def chain(self, read: Callable[[], Any], *signs: str) -> Any:
        found = read()
        while self.next_is(*signs):
            sign = self.step().text
            found = ("op", OF_M.get(sign, sign), [found, read()])
        return found

    def conjunction(self) -> Any:
        return self.chain(self.negation, "and")

    def negation(self) -> Any:
        if self.take_if("not"):
            return ("op", "non", [self.comparison()])
        return self.comparison()

    def comparison(self) -> Any:
        left = self.sum()
        if self.next_is(*drivers.COMPARISONS):
            sign = self.step().text
            return ("op", OF_M.get(sign, sign), [left, self.sum()])
        return left

    def sum(self) -> Any:
        return self.chain(self.product, "+", "-")

    def product(self) -> Any:
        return self.chain(self.factor, "*", "/")

    def factor(self) -> Any:
        if self.take_if("-"):
            return ("op", "neg", [self.primary()])
        return self.primary()

    def primary(self) -> Any:
        if self.peek().kind == "number":
            return ("number", self.step().text)
        if self.next_is("("):
            self.step()
            found = self.term()
            self.take(")")
            return found
        if not self.next_is("present", "cast", "exists"):
            return ("cell", *self.cell())
        word = self.step().text
        self.take("(")
        if word == "exists":
            found = ("exists", self.kind_of_inputs())
        else:
            cell = ("cell", *self.cell())
            found = ("op", "present", [cell]) if word == "present" else ("op", "+", [cell, ("number", "0")])
        self.take(")")
        return found


def blocks_of(content: bytes) -> dict[str, list[Command]]:
    """The functions of a driver without faults, each with its commands."""
    functions: dict[str, list[Command]] = {}
    outer: list[tuple[int, list[Command]]] = []
    for line, said in drivers.Driver(content).said:
        while outer and outer[-1][0] >= line.indent:
            outer.pop()
        if said[0] == "function":
            block = functions.setdefault(said[1], [])
        elif said[0] == "else":
            block = outer[-1][1][-1].otherwise
        else:
            block = []
            outer[-1][1].append(Command(line, said, block, []))
        outer.append((line.indent, block))
    return functions


class Driver:
    """The functions of a driver, ready to run over values."""

    def __init__(self, path: str, content: bytes, rules: Rules):
        self.path, self.rules, self.points = path, rules, rules.points
        self.lines, self.content = source.Lines(content), content
        blocks = blocks_of(content)
        self.functions = {name: self.block(commands) for name, commands in blocks.items()}

    # ---- the commands of a driver, as functions

    def block(self, commands: list[Command]) -> list[Callable[..., None]]:
        return [self.command(command) for command in commands]

    def command(self, command: Command) -> Callable[..., None]:
        """What does a command over values and notes, and counts it."""
        point = self.point(command.line, "coverage.command")
        reader = LineTerms(command.line.tokens)
        reader.line()
        made = getattr(self, f"make_{command.said[0]}")(command, reader)
        hits = self.points.hits

        def does(values: list[Value], notes: list[str]) -> None:
            hits[point] += 1
            made(values, notes)

        return does

    def point(self, line: drivers.Line, why: str, way: str = "") -> int:
        begin = self.lines.begin(line.number)
        last = line.tokens[-1]
        text = source.lines_of(self.content)[line.number - 1].split(b"#")[0].decode("latin-1").strip()
        span = begin + line.tokens[0].byte, begin + last.byte + len(last.text)
        return self.points.add(Point(COMMAND, text + way, self.path, *span, why))

    def make_set(self, command: Command, reader: LineTerms) -> Callable[..., None]:
        cell, term = self.rules.cells.number(*command.said[1]), self.term(reader.term_of_line)

        def does(values: list[Value], notes: list[str]) -> None:
            values[cell] = term(values)

        return does

    def make_del(self, command: Command, reader: LineTerms) -> Callable[..., None]:
        cell = self.rules.cells.number(*command.said[1])

        def does(values: list[Value], notes: list[str]) -> None:
            values[cell] = None

        return does

    def make_if(self, command: Command, reader: LineTerms) -> Callable[..., None]:
        condition = self.term(reader.term_of_line)
        so, not_so = (self.point(command.line, f"coverage.if.{way}", f" {way}") for way in ("so", "else"))
        block, otherwise = self.block(command.block), self.block(command.otherwise)
        hits = self.points.hits

        def does(values: list[Value], notes: list[str]) -> None:
            told = condition(values)
            if told is OVER:
                raise Stopped(f"over driver line {command.line.number}")
            hits[so if told else not_so] += 1
            for each in block if told else otherwise:
                each(values, notes)

        return does

    def make_partition(self, command: Command, reader: LineTerms) -> Callable[..., None]:
        cells, block = self.inputs(*command.said[1:]), self.block(command.block)

        def does(values: list[Value], notes: list[str]) -> None:
            before = [values[cell] for cell in cells]
            for cell in cells:
                values[cell] = None
            for each in block:
                each(values, notes)
            for cell, value in zip(cells, before):
                values[cell] = value

        return does

    def make_call(self, command: Command, reader: LineTerms) -> Callable[..., None]:
        """A call: of the rules, or of a function on a copy of all values."""
        _, received, callee = command.said
        cells = [self.rules.cells.number(*cell) for cell in received]
        points, hits = [self.rules.cell_points[cell] for cell in cells], self.points.hits

        def does(values: list[Value], notes: list[str]) -> None:
            after = self.rules.call(values, notes) if callee == RULES else self.called(callee, values, notes)
            for cell, point in zip(cells, points):
                values[cell] = after[cell]
                if point is not None:
                    hits[point] += 1

        return does

    def called(self, function: str, values: list[Value], notes: list[str]) -> list[Value]:
        values = list(values)
        for each in self.functions[function]:
            each(values, notes)
        return values

    # ---- terms

    def inputs(self, attribute: str, values: list[str]) -> list[int]:
        """The cells of the inputs of a kind."""
        cells = self.rules.cells
        return [cells.first[name] for name in drivers.inputs_of_kind(cells.variables, attribute, values)]

    def term(self, term: Any) -> Read:
        if term[0] == "number":
            return constant(operators.read_amount(term[1]))
        if term[0] == "cell":
            return self.cell(self.rules.cells.number(*term[1:]))
        if term[0] == "exists":
            return self.exists(self.inputs(*term[1][:2]))
        rest: list[tuple[str, Read]] = []
        while term[0] == "op" and len(term[2]) == 2:
            rest.append((term[1], self.term(term[2][1])))
            term = term[2][0]
        if rest:
            return folded([("+", self.term(term)), *reversed(rest)])
        sign, inner = term[1], self.term(term[2][0])
        return lambda values: operators.of_one(sign, inner(values))

    def cell(self, cell: int) -> Read:
        point, hits = self.rules.cell_points[cell], self.points.hits

        def read(values: list[Value]) -> Value:
            if point is not None:
                hits[point] += 1
            return values[cell]

        return read

    @staticmethod
    def exists(cells: list[int]) -> Read:
        def read(values: list[Value]) -> Value:
            if any(values[cell] is OVER for cell in cells):
                return OVER
            return operators.truth(any(values[cell] is not None for cell in cells))

        return read

    def run(self, values: list[Value], notes: list[str]) -> list[Value]:
        """The values at the end of `main`."""
        return self.called(MAIN, values, notes)


class OneCall:
    """The driver `-`: one call of the rules, whose values are received."""

    def __init__(self, rules: Rules):
        self.rules = rules

    def run(self, values: list[Value], notes: list[str]) -> list[Value]:
        return self.rules.call(values, notes)
