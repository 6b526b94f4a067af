#!/usr/bin/env python3
"""Writes rule files of 64 MB in four files: generate.py FOLDER [MEGABYTES]

They are like published ones: declarations with a description, rules with comments over them, formulas of some terms over variables
of the same and of earlier files, so that all of them make one base below the limits. list.txt names the four, and fault.txt
the same but for the last, whose last line can't be read, so that reading alone is done.
"""
import os
import sys

FILES = 4
COMMENT = "# Ce que dit l'article : le montant est retenu dans la limite du plafond, pour chaque membre du foyer fiscal, et arrondi.\n"


def block(number, first):
    """A variable with its rule: about 500 bytes, of which the formula has eight parts."""
    name, other = f"V{number:06}", f"V{max(0, number - 1):06}"
    earlier = f"V{number * 7919 % max(1, first):06}" if first else "REVENU"
    if number == 0:
        other = "REVENU"
    return (
        f'{name} : calculee : "Montant retenu au titre de la ligne {number}, apres application du plafond et des abattements de droit commun" ;\n'
        + COMMENT
        + COMMENT.replace("membre", f"rang {number} membre")
        + f"regle {number + 1} : application : iliad , batch ;\n{name} = min(100000, {other} + 0.5 * {earlier}) ;\n\n"
    )


def files(folder, size):
    number, names = 0, []
    for k in range(FILES):
        first, text, written = number, [], 0
        if k == 0:
            text.append('REVENU : saisie revenu classe = 0 alias 1AJ : "Revenu" ;\n')
        while written < size - 700:
            text.append(block(number, first))
            written += len(text[-1])
            number += 1
        if k == FILES - 1:
            text.append(f'RESULTAT : calculee restituee : "" ;\nregle 999999 : application : iliad ;\nRESULTAT = V{number - 1:06} ;\n')
        names.append(f"r{k}.m")
        with open(os.path.join(folder, names[-1]), "w", encoding="ascii") as out:
            out.writelines(text)
    return names, number


def main():
    folder = sys.argv[1]
    size = int(float(sys.argv[2]) * 1_000_000) // FILES if len(sys.argv) > 2 else 16_700_000
    os.makedirs(folder, exist_ok=True)
    names, count = files(folder, size)
    with open(os.path.join(folder, names[-1]), encoding="ascii") as last, open(os.path.join(folder, "fault.m"), "w", encoding="ascii") as out:
        out.write(last.read() + "RESULTAT = ;\n")
    for name, listed in (("list.txt", names), ("fault.txt", [*names[:-1], "fault.m"])):
        with open(os.path.join(folder, name), "w", encoding="ascii") as out:
            out.write("\n".join(["iliad", *listed, ""]))
    with open(os.path.join(folder, "household.csv"), "w", encoding="ascii") as out:
        out.write("code,amount\n1AJ,30000\n")
    print(f"{count} variables, {sum(os.path.getsize(os.path.join(folder, name)) for name in names)} bytes")


if __name__ == "__main__":
    main()
