#!/usr/bin/env python3
"""Checks the steps of the households that are worked out by hand, and makes the table of cases of them: python3 examples/impot2023/worked.py > CASES

No program of taxes is started: a step is what a person wrote, and here only its arithmetic is done again. The files worked/*.txt have households:

    household rebate: a tax that the rebate lessens
    1AJ 20000                                     the boxes
    RNI = 20000 - 2000 = 18000    # 83 3°         a step: a name, what was computed, its value, and the article or the reason
    NBPT = 1                                      a value that is plain
    notes 301                                     what is noted; or in the place of all steps: stop 101

A step may have numbers, + - * /, brackets, and round (a half up), min and max. A step whose name is an output (all.txt) is expected of the rules. These
are expected too, by the steps: RFR is RNI, IPLAF, DECOTE, IPROP, REDUC, CREDIT, PS and CHR are 0, and AVANT is TOTAL, where no step says
otherwise; TOTAL = IINET + PS + CHR, SOLDE = TOTAL - 8HV - 8IV, GAIN = AVANT - TOTAL, TXMOYEN = TOTAL / RFR to the millionth. The first fault ends the
check with the status 1.
"""
import ast
import glob
import operator
import os
import re
import sys
from dataclasses import dataclass, field
from fractions import Fraction

from check import spelled
from drawn import CODES
from household import millionths, nearest

HERE = os.path.dirname(os.path.abspath(__file__))
OPERATORS = {ast.Add: operator.add, ast.Sub: operator.sub, ast.Mult: operator.mul, ast.Div: operator.truediv}
FUNCTIONS = {"round": nearest, "min": min, "max": max}
NOTHING = ("IPLAF", "DECOTE", "IPROP", "REDUC", "CREDIT", "PS", "CHR")
STATED = ("RNI", "NBPT", "IDROIT", "TMI", "IINET")


@dataclass
class Worked:
    """A household, its boxes, the values of its steps, and what is noted or stops it."""

    name: str
    boxes: dict = field(default_factory=dict)
    steps: dict = field(default_factory=dict)
    notes: list = field(default_factory=list)
    stop: int | None = None


def value(node):
    """The value of arithmetic on numbers."""
    match node:
        case ast.Expression(body=body):
            return value(body)
        case ast.Constant(value=number) if isinstance(number, (int, float)):
            return Fraction(str(number))
        case ast.UnaryOp(op=ast.USub(), operand=operand):
            return -value(operand)
        case ast.BinOp(left=left, op=op, right=right) if type(op) in OPERATORS:
            return OPERATORS[type(op)](value(left), value(right))
        case ast.Call(func=ast.Name(id=name), args=arguments) if name in FUNCTIONS:
            return Fraction(FUNCTIONS[name](*map(value, arguments)))
    raise ValueError("no arithmetic on numbers")


def step(line):
    """The name and the value of a step, whose parts must all be worth the same."""
    name, *parts = [part.strip() for part in line.split("=")]
    values = {value(ast.parse(part, mode="eval")) for part in parts}
    if len(values) != 1:
        raise ValueError(" is not ".join(str(float(one)) for one in values) or "no value")
    return name, values.pop()


def read_line(line, household):
    """Takes one line of a household."""
    if re.match("[A-Za-z]+ = ", line):
        name, amount = step(line)
        if name in household.steps:
            raise ValueError(f"{name} stands twice")
        household.steps[name] = amount
    elif line.startswith("notes "):
        household.notes = [int(number) for number in line.split()[1:]]
    elif line.startswith("stop "):
        household.stop = int(line.removeprefix("stop "))
    else:
        for box in line.split(","):
            code, amount = box.split()
            household.boxes[CODES[CODES.index(code)]] = int(amount)


def households():
    """All households of the files, in order."""
    found = []
    for path in sorted(glob.glob(os.path.join(HERE, "worked", "*.txt"))):
        with open(path, encoding="utf-8") as file:
            for number, line in enumerate(file, start=1):
                line = line.split("#")[0].strip()
                try:
                    if line.startswith("household "):
                        found.append(Worked(line.removeprefix("household ").split(":")[0]))
                    elif line:
                        read_line(line, found[-1])
                except (ValueError, SyntaxError, IndexError) as fault:
                    sys.exit(f"worked: {os.path.basename(path)} line {number}: {fault}")
    return found


def expected(household):
    """The value of each output, by its name."""
    missing = [name for name in STATED if name not in household.steps]
    if missing:
        sys.exit(f"worked: {household.name}: no step for {', '.join(missing)}")
    told = {**dict.fromkeys(NOTHING, Fraction(0)), "RFR": household.steps["RNI"], **household.steps}
    told["TOTAL"] = told["IINET"] + told["PS"] + told["CHR"]
    told["SOLDE"] = told["TOTAL"] - household.boxes.get("8HV", 0) - household.boxes.get("8IV", 0)
    told["TXMOYEN"] = millionths(told["TOTAL"] / told["RFR"]) if told["RFR"] else Fraction(0)
    told.setdefault("AVANT", told["TOTAL"])
    told["GAIN"] = told["AVANT"] - told["TOTAL"]
    return told


def outputs():
    with open(os.path.join(HERE, "all.txt"), encoding="utf-8") as file:
        return file.read().split()


def main():
    names, found = outputs(), households()
    print(",".join(["name", *CODES, *(f"={name}" for name in names)]))
    for household in found:
        boxes = [str(household.boxes.get(code, "")) for code in CODES]
        told = ["stop"] * len(names) if household.stop else [spelled(expected(household)[name]) for name in names]
        print(",".join([household.name, *boxes, *told]))


if __name__ == "__main__":
    main()
