#!/usr/bin/env python3
"""Writes C for rules and a driver, as a plain translator would: one statement for each operator, over an array of cells.

    translate.py LIST DRIVER > plain.c

The files are read by the reference implementation (tests/second). All definitions and verifications are translated, and each call of the rules computes
all of them. A call of a function works on a copy of the cells. The C program reads a table from its first argument, and prints what
`m_tax batch LIST DRIVER - TABLE` prints. DRIVER is `-` for none.
"""
import os
import sys

HERE = os.path.dirname(os.path.abspath(__file__))
sys.path.insert(0, os.path.join(os.path.dirname(os.path.dirname(HERE)), "tests", "second"))
sys.path.insert(0, HERE)
from plain_c import number, program, quoted  # noqa: E402
from reading.driver_grammar import Assignment, Conditional, Deletion, Partition  # noqa: E402
from reading.driver_names import RULES  # noqa: E402
from reading.files import read_list  # noqa: E402
from reading.sources import Compiled, Source  # noqa: E402
from reading.trees import Cell, Chain, Exists, Number, Operation  # noqa: E402
from reading.values import label_lines  # noqa: E402

PICK = r"""
static inline value pick(const value *cells, int size, value index) {
    if (index.k) return index;
    if (index.v < 0 && whole(index.v) < 0) return exact(0);
    return whole(index.v) < size ? cells[(int)whole(index.v)] : undef;
}
static int notes[65536], noted;
"""


class Writer:
    """The statements of one function."""

    def __init__(self):
        self.lines = []
        self.count = 0

    def let(self, expression):
        """One statement, and the name of its value."""
        self.count += 1
        self.lines.append(f"    value n{self.count} = {expression};")
        return f"n{self.count}"

    def do(self, operator, *arguments):
        return self.let(f"m_{operator}({', '.join(arguments)})")

    def term(self, term):
        """The name of a term's value, after the statements that make it."""
        if isinstance(term, Number):
            return self.let(number(term.value))
        if isinstance(term, Cell):
            return f"c[{term.number}]"
        if isinstance(term, Operation):
            return self.do(term.operator, *[self.term(argument) for argument in term.arguments])
        if isinstance(term, Chain):
            so_far = self.term(term.first)
            for operator, operand in term.links:
                so_far = self.do(operator, so_far, self.term(operand))
            return so_far
        if isinstance(term, Exists):
            found = self.let("exact(0)")
            for cell in term.cells:
                found = self.do("or", found, self.do("present", f"c[{cell}]"))
            return found
        return self.let(f"pick(c + {term.first}, {term.size}, {self.term(term.index)})")

    def add(self, line):
        self.lines.append("    " + line)


def rules(base, order):
    """One call of the rules: 1 where a verification stopped it."""
    out = Writer()
    for cell in order:
        out.add(f"c[{cell}] = {out.term(base.terms[cell])};")
    for condition, label in base.checks:
        name = out.term(condition)
        over = quoted(b"over verification " + label.verification + b" " + label.error + b"\n")
        out.add(f"if ({name}.k == 2) {{ fputs({over}, stdout); return 1; }}")
        if label.kind == b"anomalie":
            out.add(f"if (holds({name})) {{ fputs({quoted(label_lines(b'failed', label))}, stdout); return 1; }}")
        else:
            out.add(f"if (holds({name})) notes[noted++] = {base.checks.index((condition, label))};")
    return ["static int rules(value *c) {", *out.lines, "    return 0;", "}"]


def block(out, commands, driver, cells):
    for command in commands:
        out.add("{")
        if isinstance(command, Assignment):
            out.add(f"c[{command.cell}] = {out.term(command.term)};")
        elif isinstance(command, Deletion):
            out.add(f"c[{command.cell}] = undef;")
        elif isinstance(command, Conditional):
            name = out.term(command.condition)
            out.add(f"if ({name}.k == 2) {{ fputs({quoted(b'over driver line %d' % command.line)} \"\\n\", stdout); return 1; }}")
            out.add(f"if (holds({name})) {{")
            block(out, command.block, driver, cells)
            out.add("} else {")
            block(out, command.other, driver, cells)
            out.add("}")
        elif isinstance(command, Partition):
            kind = list(command.kind)
            out.add(f"value before[{len(kind) + 1}];")
            for k, cell in enumerate(kind):
                out.add(f"before[{k}] = c[{cell}]; c[{cell}] = undef;")
            block(out, command.block, driver, cells)
            for k, cell in enumerate(kind):
                out.add(f"c[{cell}] = before[{k}];")
        else:
            name = "rules" if command.function == RULES else f"do_{command.function.decode()}"
            out.add(f"value copy[{cells}]; memcpy(copy, c, sizeof copy); if ({name}(copy)) return 1;")
            for cell in command.received:
                out.add(f"c[{cell}] = copy[{cell}];")
        out.add("}")


def function(name, commands, driver, cells):
    out = Writer()
    block(out, commands, driver, cells)
    return [f"static int do_{name.decode()}(value *c) {{", *out.lines, "    return 0;", "}"]


def answer(compiled):
    base, declared = compiled.base, compiled.declared
    lines = ["static void answer(const value *in) {", f"    value c[{declared.cells}];", f"    for (int i = 0; i < {declared.cells}; i++) c[i] = undef;"]
    start = compiled.start([])
    lines += [f"    c[{cell}] = {number(value)};" for cell, value in enumerate(start) if value is not None]
    lines += [f"    c[{cell}] = in[{place}];" for place, cell in enumerate(declared.inputs.values())]
    lines += ["    noted = 0;", "    if (do_main(c)) return;"]
    texts = ", ".join(quoted(label_lines(b"noted", label)) for _, label in base.checks) or '""'
    lines += [f"    static const char *texts[] = {{ {texts} }};", "    for (int i = 0; i < noted; i++) fputs(texts[notes[i]], stdout);"]
    lines += [f"    show({quoted(name)}, c[{cell}]);" for name, cell in zip(compiled.request_names, compiled.requests)]
    return [*lines, "}"]


def fetch(name):
    with open(name, "rb") as text:
        return text.read()


def main():
    application, names = read_list(fetch(sys.argv[1]))
    driver = None if sys.argv[2] == "-" else fetch(sys.argv[2])
    compiled = Compiled(Source(application, [(name, fetch(name)) for name in names], driver, None))
    blocks, order = compiled.run.driver.blocks, compiled.run.driver.order
    lines = [PICK, *rules(compiled.base, compiled.order)]
    for name in order:
        lines += function(name, blocks[name], compiled.run.driver, compiled.declared.cells)
    print(program(list(compiled.declared.inputs), [*lines, *answer(compiled)]))


main()
