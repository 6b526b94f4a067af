"""Writes a rule file: python3 generate.py dense|base|nests BYTES FILE."""

import sys


def dense(room):
    """Formulas of the form V=1+1+1+.., each of some 64,000 bytes."""
    formula = "V=" + "+".join("1" * 32000) + ";\n"
    return formula * max(1, room // len(formula))


def base(room):
    """Formulas as a base has them: conditionals, comparisons, functions, tables and sums over loops."""
    lines = []
    size = 0
    number = 0
    while size < room:
        number += 1
        n = f"{number:05d}"
        text = (
            f"IRN{n} = max(0, REVENU{n} - SEUIL{n}) * TAUX{n} ;\n"
            f"PART{n} = si (V_0CF{n} + 1 >= 3 et non CONJ{n} = 1) alors 2.5 sinon arr(QUOT{n} / 2) finsi ;\n"
            f"TOT{n} = somme(i = V,C,1..4 : REVi{n} * positif(REVi{n})) + T{n}[X - 1] ;\n"
            f"IND{n} = CAS{n} dans (1, 3..5, -2) ou AGE{n} non dans (18..64) ;\n"
        )
        lines.append(text)
        size += len(text)
    return "".join(lines)


def nests(room):
    """Formulas with 200 brackets inside of one another."""
    formula = "V=" + "(1+" * 200 + "1" + ")" * 200 + ";\n"
    return formula * max(1, room // len(formula))


kind, room, path = sys.argv[1], int(sys.argv[2]), sys.argv[3]
with open(path, "w", encoding="ascii") as out:
    out.write({"dense": dense, "base": base, "nests": nests}[kind](room))
