"""Writes rule files of COUNT definitions: python3 generate.py chain|ring|sum|dynamic COUNT FOLDER."""

import os
import sys

# The most bytes of a file are 16 MiB.
ROOM = 16_000_000

RULE = "regle 1:application:iliad;\n"


def chain(count):
    """Each cell reads the one that is defined after it: the worst order."""
    declared = [f'V{k}:calculee:"";' for k in range(count)]
    formulas = [f"V{k}=V{k + 1};" for k in range(count - 1)] + [f"V{count - 1}=1;"]
    return declared, formulas


def ring(count):
    """The same, and the last cell reads the first."""
    declared, formulas = chain(count)
    formulas[-1] = f"V{count - 1}=V0;"
    return declared, formulas


def wide_sum(count):
    """One cell reads all others."""
    declared = [f'V{k}:calculee:"";' for k in range(count)]
    formulas = ["V0=" + "+".join(f"V{k}" for k in range(1, count)) + ";"]
    return declared, formulas + [f"V{k}=1;" for k in range(1, count)]


def dynamic(count):
    """Each cell reads a table of 1,024 cells at an index that isn't a literal."""
    declared = ['T:tableau[1024]calculee:"";', 'E:saisie alias A:"";']
    declared += [f'V{k}:calculee:"";' for k in range(count)]
    return declared, [f"V{k}=T[E];" for k in range(count)] + ["T[X]=X;"]


def write(folder, lines, opening, first):
    """Writes lines to files that are numbered from this one on, each begun with this opening, and gives the next number."""
    at = 0
    while at < len(lines):
        size = len(opening)
        end = at
        while end < len(lines) and (end == at or size + len(lines[end]) + 1 <= ROOM):
            size += len(lines[end]) + 1
            end += 1
        with open(os.path.join(folder, f"{first:02d}.m"), "w", encoding="ascii") as out:
            out.write(opening + "\n".join(lines[at:end]) + "\n")
        first += 1
        at = end
    return first


kind, count, folder = sys.argv[1], int(sys.argv[2]), sys.argv[3]
os.makedirs(folder, exist_ok=True)
declared, formulas = {"chain": chain, "ring": ring, "sum": wide_sum, "dynamic": dynamic}[kind](count)
write(folder, formulas, RULE, write(folder, declared, "", 0))
