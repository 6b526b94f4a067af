#!/usr/bin/env python3
"""Writes a rule base of N inputs and N computed variables, and a household of N rows.

    generate.py N FOLDER

makes FOLDER/list.txt, FOLDER/rules.m and FOLDER/household.csv. Each computed variable is the sum of
the one before it and a product. The product is of an input and, by turns, a number, a negated number
and another input from anywhere in the file, so that names are looked up all over it. Every
computed variable is returned, so that a run prints N lines. The same N gives the same bytes.
"""
import os
import sys

FORMULAS_IN_A_RULE = 10


def variables(n):
    for k in range(n):
        yield f'I{k} : saisie revenu classe = {k % 3} alias A{k} : "input {k}" ;\n'
    for k in range(n):
        yield f'V{k} : calculee restituee : "computed {k}" ;\n'


def second_factor(k, n):
    if k % 3 == 0:
        return f"0.{k * 7919 % 1000:03}7"
    if k % 3 == 1:
        return f"-1.{k * 104729 % 100:02}"
    return f"I{k * 15485863 % n}"


def rules(n):
    for k in range(n):
        if k % FORMULAS_IN_A_RULE == 0:
            yield f"regle {k + 1} : application : iliad ;\n"
        product = f"I{k} * {second_factor(k, n)}"
        yield f"V{k} = V{k - 1} + {product} ;\n" if k else f"V{k} = {product} ;\n"


def rows(n):
    yield "code,amount\n"
    for k in range(n):
        hundredths = k * 32452843 % 200001 - 100000
        sign = "-" if hundredths < 0 else ""
        yield f"A{k},{sign}{abs(hundredths) // 100}.{abs(hundredths) % 100:02}\n"


def write(folder, name, lines):
    with open(os.path.join(folder, name), "w") as out:
        out.writelines(lines)


def main():
    n, folder = int(sys.argv[1]), sys.argv[2]
    os.makedirs(folder, exist_ok=True)
    write(folder, "list.txt", ["iliad\n", "rules.m\n"])
    write(folder, "rules.m", [*variables(n), *rules(n)])
    write(folder, "household.csv", rows(n))


main()
