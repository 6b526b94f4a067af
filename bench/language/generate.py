#!/usr/bin/env python3
"""Writes a rule base in the shape of the administration's, in one or several files, and a household with a row for each input, as
far as a household has room.

    generate.py BYTES FILES FOLDER

makes FOLDER/list.txt, FOLDER/rules1.m and so on, of about BYTES bytes in all, and FOLDER/household.csv. The base is many copies of
`examples/impots/impots.m`, each with names of its own: 42 inputs, loops over declarants and over lines, two tables, conditionals, and five
verifications that pass. The result of each copy is returned. The same BYTES and FILES give the same bytes.
"""
import os
import sys

LINES = 20
ROWS = 100_000


def declared(k):
    for p, q in (("V", "A"), ("C", "B")):
        for j in range(1, LINES + 1):
            yield (f"TS{p}{j:02}Z{k} : saisie revenu classe = 0 priorite = 10 categorie_TL = 20 cotsoc = 5 ind_abat = 0 acompte = 1 "
                   f'avfisc = 0 rapcat = 8 sanction = 0 alias {q}{j:02}Z{k} : "Traitements déclarés" type REEL ;\n')
    yield f'NBPTZ{k} : saisie famille classe = 0 avfisc = 0 alias 0NBZ{k} : "Nombre de parts" type REEL ;\n'
    yield f'RIBENZ{k} : saisie revenu classe = 0 avfisc = 1 alias 7UDZ{k} : "Dons" type REEL ;\n'
    for name in ("BRUTV", "BRUTC", "ABATV", "ABATC", "NETV", "NETC", "REVT", "PARTS", "QF", "IMPQ", "IBRUT", "NTR"):
        yield f'{name}Z{k} : calculee : "{name.lower()}" ;\n'
    yield f'TRBZ{k} : tableau[3] calculee : "taux" ;  TMIZ{k} : tableau[4] calculee : "taux marginal" ;\n'
    yield f'IRNETZ{k} : calculee base restituee : "i" ;  MARGZ{k} : calculee : "m" ;\n'


def rules(k):
    z = f"Z{k}"
    yield f"regle {3 * k + 3} : application : iliad , batch ;   # read before it is written\n"
    yield f"IRNET{z} = max(0, IBRUT{z} - RIBEN{z}) ;\nNTR{z} = (QF{z} > S1) + (QF{z} > S2) + (QF{z} > S3) ;\nMARG{z} = TMI{z}[NTR{z}] ;\n"
    yield f"regle {3 * k + 2} : application : iliad , batch ;\n"
    yield f"TRB{z}[0] = 0.1 ;  TRB{z}[1] = 0.3 ;  TRB{z}[2] = 0.4 ;\nTMI{z}[X] = X * 0.1 ;\n"
    yield (f"IMPQ{z} = max(0, min(QF{z}, S2) - S1) * TRB{z}[0] + max(0, min(QF{z}, S3) - S2) * TRB{z}[1] + max(0, QF{z} - S3) * TRB{z}[2] ;\n"
           f"IBRUT{z} = arr(IMPQ{z} * PARTS{z}) ;\n")
    yield f"regle {3 * k + 1} : application : iliad , batch ;\n"
    yield f"pour i = V,C : BRUTi{z} = somme(j=01..{LINES}: TSij{z}) ;\n"
    yield f"pour i = V,C : ABATi{z} = min(ABMAX, max(BRUTi{z} * TXAB, min(ABMIN, BRUTi{z}))) ;\n"
    yield f"pour un i dans (V,C) : NETi{z} = max(0, BRUTi{z} - ABATi{z}) ;\n"
    yield f"REVT{z} = somme(i=V,C: NETi{z}) ;\nPARTS{z} = si present(NBPT{z}) alors NBPT{z} sinon 1 finsi ;\nQF{z} = REVT{z} / PARTS{z} ;\n"
    for n, condition in enumerate((f"NBPT{z} < 1", f"TSV01{z} < 0 ou TSC01{z} < 0", f"RIBEN{z} > 100000", f"IRNET{z} > IBRUT{z}",
                                   f"NBPT{z} non dans (1, 1.5, 2, 2.5, 3..20)")):
        yield f"verif {5 * k + n + 1} : application : iliad ;  si {condition} alors erreur A01 ;\n"


HEAD = ('TXAB : const = 0.1 ;  ABMIN : const = 400 ;  ABMAX : const = 13000 ;\nS1 : const = 10000 ;  S2 : const = 25000 ;  S3 : const = 80000 ;\n'
        'A01 : anomalie : "A" : "01" : "00" : "parts" : "N" ;\n')


def amounts(k):
    for p in "AB":
        for j in range(1, LINES + 1):
            yield f"{p}{j:02}Z{k},{(k * 7919 + j * 104729) % 400000 / 100:.2f}\n"
    yield f"0NBZ{k},{1 + k % 3}\n7UDZ{k},{k % 50}\n"


def main():
    size, files, folder = int(sys.argv[1]), int(sys.argv[2]), sys.argv[3]
    os.makedirs(folder, exist_ok=True)
    with open(os.path.join(folder, "list.txt"), "w") as listed:
        listed.write("iliad\n" + "".join(f"rules{n + 1}.m\n" for n in range(files)))
    k = 0
    for n in range(files):
        with open(os.path.join(folder, f"rules{n + 1}.m"), "wb") as out:
            written = out.write(HEAD.encode("latin-1")) if n == 0 else 0
            while written < size // files:
                written += out.write("".join([*declared(k), *rules(k)]).encode("latin-1"))
                k += 1
    with open(os.path.join(folder, "household.csv"), "w") as out:
        out.write("code,amount\n")
        for copy in range(min(k, ROWS // (2 * LINES + 2))):
            out.writelines(amounts(copy))


main()
