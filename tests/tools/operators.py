#!/usr/bin/env python3
"""Compares python/vodmejka/operators.py with the worked rows of the program's operators: python3 tests/tools/operators.py

The rows are code files whose outputs a person worked out, crates/rows/data/rows/exec_operators_*. The instructions of each are done by the operators of the
package, and each output is compared with the row's. The status is 1 where one differs, or where there are no rows.
"""
import glob
import os
import sys

TOP = os.path.dirname(os.path.dirname(os.path.dirname(os.path.realpath(__file__))))
sys.path.insert(0, os.path.join(TOP, "python"))
sys.dont_write_bytecode = True
from vodmejka import operators  # noqa: E402

ONE = {"neg": "neg", "not": "non", "abs": "abs", "positif": "positif", "positif_ou_nul": "positif_ou_nul", "null": "null", "arr": "arr", "inf": "inf",
       "present": "present"}
TWO = {"add": "+", "sub": "-", "mul": "*", "div": "/", "eq": "=", "ne": "!=", "lt": "<", "le": "<=", "gt": ">", "ge": ">=", "and": "et", "or": "ou",
       "max": "max", "min": "min", "at": "at"}
LITERALS = {"undef": None, "over": operators.OVER}


def applied(name, values):
    if name in ONE:
        return operators.of_one(ONE[name], values[0])
    if name in TWO:
        return operators.of_two(TWO[name], *values[:2])
    if name == "truth":
        return operators.truth(operators.holds(values[0]))
    return operators.chosen(*values)


def outputs(lines):
    """What the instructions put out, by the names of the outputs."""
    names = [line.split(" ")[1] for line in lines if line.startswith("output ")]
    registers, found = {}, {}
    for word, *rest in (line.split(" ") for line in lines[lines.index("code") + 1 :]):
        if word == "lit":
            registers[rest[0]] = LITERALS[rest[1]] if rest[1] in LITERALS else int(rest[1])
        elif word == "in":
            registers[rest[0]] = None
        elif word == "do":
            registers[rest[0]] = applied(rest[1], [registers[one] for one in rest[2:]])
        elif word == "out":
            found[names[int(rest[0])]] = registers[rest[1]]
        elif word != "end":
            raise SystemExit(f"no instruction of these rows: {word}")
    return found


def main():
    rows, differ = sorted(glob.glob(os.path.join(TOP, "crates/rows/data/rows/exec_operators_*/h.csv"))), 0
    for row in map(os.path.dirname, rows):
        texts = [open(os.path.join(row, name), encoding="latin-1").read().splitlines() for name in ("c.txt", "text")]
        found = outputs(texts[0])
        wanted = {line.split(" ")[0]: line.removeprefix(line.split(" ")[0]).removeprefix(" =").strip() for line in texts[1]}
        wrong = [f"{name}: {operators.spelled(value)}, and the row has {wanted.get(name)}" for name, value in found.items()
                 if operators.spelled(value) != wanted.get(name)]
        differ += len(wrong) + (found.keys() != wanted.keys())
        print(f"{os.path.basename(row)}: {len(found)} values, {len(wrong)} differ", *wrong, sep="\n  ")
    sys.exit(1 if differ or not rows else 0)


if __name__ == "__main__":
    main()
