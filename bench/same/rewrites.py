#!/usr/bin/env python3
"""Rewrites of a small rule base, each through tools/same: python3 bench/same/rewrites.py [--check]

At the top of the repository. Each rewrite that keeps the meaning changes one thing of the base below; so does each that changes the meaning.
Prints the table of RESULTS.md. With --check it prints instead only what must hold: no rewrite that keeps the meaning has a household
in which the two differ, and each that changes it has one.
"""
import os
import subprocess
import sys
import tempfile

TOP = os.path.dirname(os.path.dirname(os.path.dirname(os.path.abspath(__file__))))
BASE = """\
REVA : saisie revenu classe = 0 alias 1AA : "" ;
REVB : saisie revenu classe = 0 alias 1BB : "" ;
ENF : saisie famille classe = 0 alias 0CF : "" type ENTIER ;
TAUX : const = 0.25 ;
SEUIL : const = 1000 ;
SOMA : calculee : "" ;
SOMB : calculee : "" ;
BASE : calculee : "" ;
PART : calculee : "" ;
IMP : calculee restituee : "" ;
NET : calculee restituee : "" ;
A1 : anomalie : "A" : "1" : "00" : "below 0" : "N" ;
regle 10 : application : iliad ;
pour i = A,B : SOMi = max(0, REVi - SEUIL) ;
regle 20 : application : iliad ;
BASE = SOMA + SOMB ;
PART = 1 + 0.5 * ENF ;
regle 30 : application : iliad ;
IMP = si BASE > 2 * SEUIL alors TAUX * BASE sinon 0 finsi ;
NET = REVA + REVB - IMP - 12 * PART ;
verif 1 : application : iliad ;
si REVA < 0 ou REVB < 0 alors erreur A1 ;
"""
RULE_20 = "regle 20 : application : iliad ;\nBASE = SOMA + SOMB ;\nPART = 1 + 0.5 * ENF ;\n"
# What is replaced, pair by pair. No value that these replace may be undefined where the other is not: max gives 0 at least, so BASE and IMP are always defined.
KEPT = {
    "rules in another order": [(RULE_20, ""), ("verif 1", RULE_20 + "verif 1")],
    "a step renamed": [("BASE", "ASSIETTE")],
    "a step written out": [('BASE : calculee : "" ;\n', ""), ("BASE = SOMA + SOMB ;\n", ""), ("BASE", "(SOMA + SOMB)")],
    "a term given a step of its own": [
        ('PART : calculee', 'DROIT : calculee : "" ;\nPART : calculee'),
        ("alors TAUX * BASE", "alors DROIT"),
        ("IMP = ", "DROIT = TAUX * BASE ;\nIMP = "),
    ],
    "a loop written out": [("pour i = A,B : SOMi = max(0, REVi - SEUIL) ;", "SOMA = max(0, REVA - SEUIL) ;\nSOMB = max(0, REVB - SEUIL) ;")],
    "a sum as a sum over a loop": [("SOMA + SOMB ;", "somme(i=A,B: SOMi) ;")],
    "a constant computed by hand": [("2 * SEUIL", "2000")],
    "the sides of a condition exchanged": [("BASE > 2 * SEUIL", "2 * SEUIL < BASE")],
    "a condition turned round, and its branches": [
        ("si BASE > 2 * SEUIL alors TAUX * BASE sinon 0 finsi", "si BASE <= 2 * SEUIL alors 0 sinon TAUX * BASE finsi"),
    ],
    "the operands of a sum exchanged": [("SOMA + SOMB", "SOMB + SOMA")],
}
MORE = {
    "the factors of a product exchanged": [("TAUX * BASE", "BASE * TAUX")],
    "the arguments of max exchanged": [("max(0, REVi - SEUIL)", "max(REVi - SEUIL, 0)")],
    "the sides of ou exchanged": [("REVA < 0 ou REVB < 0", "REVB < 0 ou REVA < 0")],
}
CHANGED = {
    "another constant": [("const = 1000", "const = 1001")],
    "above or equal in place of above": [("BASE > 2", "BASE >= 2")],
    "one person twice": [("SOMA + SOMB ;", "SOMA + SOMA ;")],
    "another share": [("0.5 * ENF", "0.4 * ENF")],
    "a verification that looks at one person": [("REVA < 0 ou REVB < 0", "REVA < 0")],
    "a sign": [("- 12 * PART", "+ 12 * PART")],
}


def rewritten(changes):
    text = BASE
    for old, new in changes:
        if old not in text:
            sys.exit(f"rewrites: nothing to replace: {old}")
        text = text.replace(old, new)
    return text


def listed(room, name, text):
    """The list of a rule base that has this text."""
    path = os.path.join(room, name)
    with open(path + ".m", "w", encoding="latin-1") as out:
        out.write(text)
    with open(path + ".list", "w", encoding="latin-1") as out:
        out.write(f"iliad\n{path}.m\n")
    return path + ".list"


def said(room, changes):
    """The status of tools/same, and what it printed."""
    lists = listed(room, "plain", BASE), listed(room, "other", rewritten(changes))
    done = subprocess.run(
        [os.path.join(TOP, "tools", "same"), lists[0], "-", lists[1], "-", "-"],
        stdout=subprocess.PIPE, stderr=subprocess.STDOUT, check=False,
    )
    return done.returncode, done.stdout.decode("latin-1")


def check(room):
    """What must be, whatever the compiler folds."""
    wrong = 0
    for changes, may in ((KEPT, (0, 5)), (MORE, (0, 5)), (CHANGED, (1,))):
        for name, pairs in changes.items():
            status, text = said(room, pairs)
            if status not in may:
                wrong += 1
                print(f"{name}: status {status}: {text[:300]}")
    print(f"rewrites: {len(KEPT) + len(MORE)} that keep the meaning, {len(CHANGED)} that change it; {wrong} are not as they must be")
    return 1 if wrong else 0


def table(room):
    """The table of RESULTS.md."""
    words = {0: "the same", 1: "**different**", 5: "not the same; no household tells them apart"}
    print("| Rewrite | Code files |\n|---|---|")
    for changes in (KEPT, MORE):
        found = [said(room, pairs)[0] for pairs in changes.values()]
        for name, status in zip(changes, found):
            print(f"| {name} | {words.get(status, f'status {status}')} |")
        print(f"| of {len(found)} | {found.count(0)} the same |")
    print("\n| Change of meaning | Found by a household |\n|---|---|")
    for name, pairs in CHANGED.items():
        status, text = said(room, pairs)
        household = " ".join(line for line in text.split("\nby ")[0].split("\n")[2:] if line) or "one that says nothing"
        print(f"| {name} | {household if status == 1 else f'no: status {status}'} |")
    return 0


def main():
    with tempfile.TemporaryDirectory() as room:
        return check(room) if "--check" in sys.argv[1:] else table(room)


sys.exit(main())
