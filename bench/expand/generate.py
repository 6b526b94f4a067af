"""Writes a rule file of loops: python3 generate.py short|sums|long|headers SIZE FILE, where SIZE is 1 or 10 tenths."""

import sys


def short(size):
    """100,000 instances a tenth, each a definition of one part."""
    return "pour i = 1..10000 : Ri = E ;\n" * (10 * size)


def sums(size):
    """100,000 instances a tenth, each an operand of a sum."""
    return "S = somme(i = 1..10000 : Ri) ;\n" * (10 * size)


def long(size):
    """1,000 instances a tenth, each a definition of 200 parts."""
    names = " + ".join(f"R{k}_i" for k in range(100))
    return f"pour i = 1..{1000 * size} : Ti = {names} ;\n"


def headers(size):
    """10,000 headers a tenth before one formula, each binding the same letter again."""
    return "pour i = 1 : " * (10000 * size) + "Ri = i ;\n"


kind, size, path = sys.argv[1], int(sys.argv[2]), sys.argv[3]
with open(path, "w", encoding="ascii") as out:
    out.write("regle 1 : application : iliad ;\n")
    out.write({"short": short, "sums": sums, "long": long, "headers": headers}[kind](size))
