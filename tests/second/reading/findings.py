"""Findings about a source: those that are required, and whether some household refutes the others.

Which verifications are found never to stop, and which inputs to be unused, depends on how well a program folds. So of these only
the order is checked, and that no household refutes them.
"""

import random

from .amounts import GREATEST, UNIT, cut
from .values import reads_of

TRIED = 6
AMOUNTS = [0, 1, UNIT, -UNIT, 2 * UNIT, 500_000, 1_234 * UNIT, 2_500_500_000, 30_000 * UNIT, GREATEST, -GREATEST, 999_999_999_999]


def amount_of_type(draw, kind):
    """An amount that an input of a type may have."""
    if kind == b"truth":
        return draw.choice([0, UNIT])
    amount = draw.choice(AMOUNTS) if draw.random() < 0.8 else draw.randrange(-GREATEST, GREATEST)
    return cut(amount) * UNIT if kind == b"whole" else amount


def never_defined(compiled):
    """The lines of cells that are read, and that neither a household nor a declaration nor a rule sets."""
    declared, base = compiled.declared, compiled.base
    read = set()
    for term in list(base.terms.values()) + [condition for condition, _ in base.checks]:
        reads_of(term, read)
    given = {declared.first_cells[variable.name] for variable in declared.variables if variable.role != "computed"}
    names = declared.printed_names()
    return [b"never defined " + names[cell] for cell in sorted(read) if cell not in given and cell not in base.terms]


def stands_in_order(some, lines):
    """Whether these lines are among others, in their order."""
    left = iter(lines)
    return all(line in left for line in some)


class Findings:
    """The findings of a source."""

    def __init__(self, compiled):
        self.compiled = compiled

    def are(self, text):
        """Whether a text may be these findings."""
        *lines, rest = text.split(b"\n")
        due = never_defined(self.compiled)
        silent = [b"never stops " + label.verification + b" " + label.error for _, label in self.compiled.base.checks]
        unused = [b"unused input " + code for code in self.compiled.declared.inputs]
        told = [line for line in lines if line.startswith(b"never stops ")]
        without = lines[len(due) + len(told):]
        in_order = lines == due + told + without and stands_in_order(told, silent) and stands_in_order(without, unused)
        return rest == b"" and in_order and not self.told_against(told, without)

    def told_against(self, silent, unused):
        """Whether a household refutes that these verifications never stop, or that these inputs are unused."""
        declared = self.compiled.declared
        draw = random.Random(len(silent) + len(unused))
        for _ in range(TRIED):
            amounts = {cell: amount_of_type(draw, declared.types[code]) for code, cell in declared.inputs.items() if draw.random() < 0.7}
            lines = self.compiled.told(amounts.items())
            words = [line.split(b" ") for line in lines[0].split(b"\n")]
            stops = {
                b"never stops " + b" ".join(line[-2:] if line[0] == b"over" else line[1:3])
                for line in words if line[0] in (b"failed", b"over", b"noted") and len(line) > 2
            }
            if stops & set(silent):
                return True
            for line in unused:
                code = line[len(b"unused input "):]
                other = {**amounts, declared.inputs[code]: amount_of_type(draw, declared.types[code])}
                if self.compiled.told(other.items()) != lines:
                    return True
        return False
