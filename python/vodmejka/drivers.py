"""The grammar of drivers, as docs/DRIVER.md has it, for tools: the lines of a driver, its functions and commands, and all its faults, each at its token.

The program names the line after the longest prefix that is a driver, which may be a line that begins a block. This reading names the line and the token
that no rule can take, and goes on with the next line.
"""
import re
import sys
from collections.abc import Mapping
from decimal import Decimal
from typing import NamedTuple

from . import grammar, source
from .limits import AMOUNT, BRACKET_DEPTH, DRIVER_LEVEL
from .reserved import reserved
from .texts import said as told

RESERVED = reserved("mpp")
TOKEN = re.compile(rb"(?P<word>[0-9]*[A-Za-z_][A-Za-z0-9_]*)|(?P<number>[0-9]+\.[0-9]+|[0-9]+)|(?P<sign>==|!=|<=|>=|<-|[-()\[\],:=<>+*/])")
COMPARISONS = ("==", "!=", "<", "<=", ">", ">=")
OPERATORS = "an operator (+ - * / == < and or ..)"
VALUE = "a value (a name, a number, (, present, cast or exists)"


class Fault(NamedTuple):
    """A fault of a driver: what the program calls it, the line from 1, the byte within it or none, the token there, the expected ones, and hints."""

    what: str
    line: int
    byte: int | None
    found: str
    wanted: tuple
    hint: str


class Line(NamedTuple):
    number: int
    indent: int
    tokens: list


def cell_name(cell):
    """The name of a cell from its parse, a variable and an index or None: `T[3]` of ("T", 3)."""
    name, index = cell
    return name if index is None else f"{name}[{index}]"


def inputs_of_kind(variables: Mapping[str, source.Variable], attribute: str, values: list[str]) -> list[str]:
    """The inputs of a kind: those that have an attribute at one of some values."""
    wanted = {Decimal(value) for value in values}
    return [name for name, variable in variables.items()
            if variable.kind == "saisie" and attribute in variable.numbers and Decimal(variable.numbers[attribute]) in wanted]


class LineReader(grammar.Reader):
    """The parse of one line: (`function`, name), (`if`,), (`else`,), (`partition`, attribute, values), (`set`, cell), (`del`, cell) or (`call`, cells,
    name). `cells` and `kinds` are those anywhere in it."""

    def __init__(self, tokens):
        super().__init__(tokens)
        self.kinds, self.cells = [], []

    def is_word(self, ahead=0):
        token = self.peek(ahead)
        return token.kind == "word" and token.text not in RESERVED

    def line(self):
        said = self.sentence()
        if self.at < len(self.tokens):
            self.want("the end of the line")
            self.stuck()
        return said

    def sentence(self):
        if self.take_if("if"):
            self.term()
            self.take(":")
            return ("if",)
        if self.take_if("else"):
            self.take(":")
            return ("else",)
        if self.take_if("partition"):
            self.take("with")
            attribute, values, _ = self.kind_of_inputs()
            self.take(":")
            return ("partition", attribute, values)
        if self.take_if("del"):
            return ("del", self.cell())
        if self.is_word() and self.peek(1).text == "(":
            name = self.step().text
            self.brackets()
            if self.at == len(self.tokens):
                self.want(":")
                self.stuck(told("help.function", name=name))
            self.take(":")
            return ("function", name)
        cells = [self.cell("a command (A = .., A <- f(), if, partition, del)")]
        while self.take_if(","):
            cells.append(self.cell())
        if len(cells) == 1 and self.take_if("="):
            self.term()
            return ("set", cells[0])
        if self.next_is("<") and self.peek(1).text == "-":
            self.want("<-")
            self.stuck("<- is one sign, without a blank")
        self.take("<-")
        name = self.word("the name of a function, or call_m").text
        self.brackets()
        return ("call", cells, name)

    def brackets(self):
        self.take("(")
        if not self.next_is(")"):
            self.want(")")
            self.stuck("functions have no arguments" if self.at < len(self.tokens) else "")
        self.take(")")

    def cell(self, what="a name"):
        name, index = self.word(what).text, None
        if self.take_if("["):
            index = int(self.whole("the number of a cell"))
            self.take("]")
        self.cells.append((name, index))
        return name, index

    def kind_of_inputs(self):
        attribute, values = self.word("a kind (taxbenefit, or avfisc = 1, 2)"), []
        if self.take_if("="):
            values = self.separated(lambda: self.kind("number", "a number").text, ",")
        elif attribute.text != "taxbenefit":
            self.stuck("a kind is an attribute with its values: avfisc = 1, 2")
        self.kinds.append((attribute.text if values else "avfisc", values or ["1", "2"], attribute.byte))
        return self.kinds[-1]

    def chain(self, read, *signs):
        read()
        while True:
            self.want(OPERATORS)
            if not self.next_is(*signs):
                return
            self.step()
            read()

    def term(self):
        self.chain(self.conjunction, "or")

    def conjunction(self):
        self.chain(self.negation, "and")

    def negation(self):
        self.take_if("not")
        self.sum()
        if self.next_is(*COMPARISONS):
            self.step()
            self.sum()
        elif self.next_is("="):
            self.stuck("a comparison is ==, and = sets a cell")

    def sum(self):
        self.chain(self.product, "+", "-")

    def product(self):
        self.chain(self.factor, "*", "/")

    def factor(self):
        self.take_if("-")
        self.want(VALUE)
        if self.peek().kind == "number":
            self.step()
        elif self.is_word():
            self.cell()
            if self.next_is("("):
                self.stuck("a function is called by a line of its own: A <- f()")
        elif self.next_is("("):
            self.step()
            self.term()
            self.take(")")
        elif self.next_is("present", "cast", "exists"):
            word = self.step().text
            self.take("(")
            if word == "exists":
                self.kind_of_inputs()
            else:
                self.cell()
            self.take(")")
        else:
            self.stuck(told("help.no_value", word=self.peek().text) if self.peek().kind == "word" else "")


class Driver:
    """The lines of a driver, their parses, and its faults in the order of the lines."""

    def __init__(self, content):
        self.faults, self.said, self.kinds, self.functions, self.set, self.cells = [], [], [], [], [], []
        lines = [line for line in (self.line(number, line) for number, line in enumerate(source.lines_of(content), 1)) if line]
        self.look_for_depth(lines)
        sys.setrecursionlimit(max(sys.getrecursionlimit(), 20_000))
        for line in lines:
            self.said.append((line, self.sentence(line)))
        self.look_for_blocks()
        self.faults.sort(key=lambda fault: fault.line)

    def fault(self, what, line, byte, found="", wanted=(), hint=""):
        if not any(fault.line == line for fault in self.faults):
            self.faults.append(Fault(what, line, byte, found, tuple(wanted), hint))

    def line(self, number, content):
        """The tokens of a line, or nothing where it has none."""
        tokens, at = [], 0
        if number == 1 and content.startswith(source.MARK):
            self.fault("bad token", 1, 0, "a byte order mark", (), "save the file without a byte order mark")
            content, at = b"   " + content[3:], 3
        while at < len(content) and content[at : at + 1] != b"#":
            if content[at : at + 1] == b" ":
                at += 1
                continue
            piece = TOKEN.match(content, at)
            if piece is None:
                shown = re.compile(rb"[\x80-\xff]+|.", re.DOTALL).match(content, at)[0]
                hints = {b"\t": "a tab: only spaces stand between tokens", b"\r": "a carriage return within the line: end lines with a line feed"}
                other = "accented letters stand in comments only" if shown[0] > 127 else ""
                self.fault("bad token", number, at, shown.decode("utf-8", "replace"), (), hints.get(shown, other))
                return Line(number, len(content) - len(content.lstrip(b" ")), [])
            if piece.lastgroup == "number" and float(piece[0]) > AMOUNT:
                self.fault("bad token", number, at, piece[0].decode(), (), told("help.greatest", number=AMOUNT))
            tokens.append(source.Token(piece.lastgroup, piece[0].decode("latin-1"), at))
            at = piece.end()
        return Line(number, len(content) - len(content.lstrip(b" ")), tokens) if tokens else None

    def look_for_depth(self, lines):
        outer = []
        for line in lines:
            while outer and outer[-1] >= line.indent:
                outer.pop()
            opened = most = 0
            for token in line.tokens:
                opened = opened + 1 if token.text in ("(", "[") else max(0, opened - 1) if token.text in (")", "]") else opened
                most = max(most, opened)
            if len(outer) > DRIVER_LEVEL or most > BRACKET_DEPTH:
                self.fault("too deep", line.number, None, hint="write a function of its own")
            outer.append(line.indent)

    def sentence(self, line):
        if any(fault.line == line.number for fault in self.faults):
            return None
        reader = LineReader(line.tokens)
        try:
            said = reader.line()
        except grammar.Stuck:
            token, hint = reader.peek(), reader.hint
            if not hint and ":" in reader.wanted and token.kind == "end":
                hint = "a : is missing at the end"
            if not hint and ")" in reader.wanted:
                hint = "a ) may be missing"
            if not hint and token.text == "," and reader.at and reader.peek(-1).kind == "number" and reader.peek(1).kind == "number":
                hint = told("help.decimal", number=f"{reader.peek(-1).text}.{reader.peek(1).text}")
            self.fault("syntax", line.number, token.byte, token.text or "the end of the line", reader.wants(), hint)
            return None
        self.kinds += [(attribute, values, line.number, byte) for attribute, values, byte in reader.kinds]
        self.cells += [(*cell, line.number) for cell in reader.cells]
        if said[0] == "set":
            self.set.append(said[1])
        return said

    def look_for_blocks(self):
        """Checks indentations: which block each line belongs to."""
        opened = []
        for k, (line, said) in enumerate(self.said):
            before = self.said[k - 1] if k else None
            begins = said is not None and said[0] in ("function", "if", "else", "partition")
            while opened and opened[-1][0] > line.indent:
                opened.pop()
            if before and before[0].indent < line.indent:
                if before[1] is not None and before[1][0] in ("function", "if", "else", "partition"):
                    opened.append((line.indent, ("none",)))
                else:
                    self.fault("syntax", line.number, line.indent, "a line with more indentation", (),
                               "only a function's first line, if, else: and partition have a block under them")
            elif line.indent and not (opened and opened[-1][0] == line.indent):
                self.fault("syntax", line.number, line.indent, "an indentation of no block round it", (), "lines of one block have one indentation")
            if before and before[0].indent >= line.indent and before[1] and before[1][0] in ("function", "if", "else", "partition"):
                self.fault("syntax", before[0].number, None, "a line that begins a block, and none is under it", (),
                           "a block of one command or more stands under it, with more indentation")
            if said is not None and said[0] != "function" and line.indent == 0:
                self.fault("syntax", line.number, 0, "a command without indentation", (),
                           "a command stands in a function, with indentation; a function begins with NAME():")
            if said is not None and said[0] == "function" and line.indent:
                self.fault("syntax", line.number, line.indent, "a function with indentation", (), "the first line of a function has no indentation")
            if said is not None and said[0] == "else" and not self.has_if(opened, line):
                self.fault("syntax", line.number, line.indent, "else", (), "no if stands right above it at the same indentation")
            if opened and opened[-1][0] == line.indent:
                opened[-1] = (line.indent, said)
            if begins and k + 1 == len(self.said):
                self.fault("syntax", line.number, None, "a line that begins a block, and none is under it", (),
                           "a block of one command or more stands under it, with more indentation")
            if said is not None and said[0] == "function":
                self.functions.append((said[1], line.number))

    @staticmethod
    def has_if(opened, line):
        """Whether the command before an `else` at its indentation is an `if`, or one that can't be read."""
        return bool(opened) and opened[-1][0] == line.indent and (opened[-1][1] is None or opened[-1][1][0] == "if")
