"""Writes rule files in the shape of a base as one is written by hand: python3 generate.py BYTES FILES FOLDER."""

import os
import sys


def block(number):
    """Declarations, three rules, an error and two verifications, whose names end with this number."""
    n = f"{number:06d}"
    return (
        f'NBPT{n} : saisie famille classe = 0 avfisc = 0 alias A{n} : "Nombre de parts" type REEL ;\n'
        f'RIBEN{n} : saisie revenu classe = 0 avfisc = 1 alias B{n} : "Dons" type REEL ;\n'
        f"TXAB{n} : const = 0.1 ;  ABMIN{n} : const = 400 ;  ABMAX{n} : const = 13000 ;\n"
        f'BRUTV{n} : calculee : "b" ;  BRUTC{n} : calculee : "b" ;  ABATV{n} : calculee : "a" ;\n'
        f'TRB{n} : tableau[3] calculee : "taux" ;  TMI{n} : tableau[4] calculee : "taux marginal" ;\n'
        f'IRNET{n} : calculee base restituee : "i" ;  MARG{n} : calculee restituee : "m" ;\n'
        f"regle 3{n} : application : iliad , batch ;   # read before it is written\n"
        f"IRNET{n} = max(0, IBRUT{n} - RIBEN{n}) ;\n"
        f"NTR{n} = (QF{n} > S1) + (QF{n} > S2) + (QF{n} > S3) ;\n"
        f"MARG{n} = TMI{n}[NTR{n}] ;\n"
        f"regle 2{n} : application : iliad , batch ;\n"
        f"TRB{n}[0] = 0.1 ;  TRB{n}[1] = 0.3 ;  TRB{n}[2] = 0.4 ;\n"
        f"TMI{n}[X] = X * 0.1 ;\n"
        f"IMPQ{n} = max(0, min(QF{n}, S2) - S1) * TRB{n}[0] + max(0, min(QF{n}, S3) - S2) * TRB{n}[1] ;\n"
        f"IBRUT{n} = arr(IMPQ{n} * PARTS{n}) ;\n"
        f"regle 1{n} : application : iliad , batch ;\n"
        f"pour i = V,C : BRUTi{n} = somme(j=01..20: TSij) ;\n"
        f"pour i = V,C : ABATi{n} = min(ABMAX{n}, max(BRUTi{n} * TXAB{n}, min(ABMIN{n}, BRUTi{n}))) ;\n"
        f"pour un i dans (V,C) : NETi{n} = max(0, BRUTi{n} - ABATi{n}) ;\n"
        f"REVT{n} = somme(i=V,C: NETi{n}) ;\n"
        f"PARTS{n} = si present(NBPT{n}) alors NBPT{n} sinon 1 finsi ;\n"
        f"QF{n} = REVT{n} / PARTS{n} ;\n"
        f'A{n} : anomalie : "A" : "01" : "00" : "parts" : "N" ;\n'
        f"verif 4{n} : application : iliad ;  si NBPT{n} non dans (1, 1.5, 2, 2.5, 3..20) alors erreur A{n} ;\n"
        f"verif 5{n} : application : iliad ;  si somme(i=V,C: BRUTi{n}) > 1000000 et non present(NBPT{n}) alors erreur A{n} ;\n"
    )


room, files, folder = int(sys.argv[1]), int(sys.argv[2]), sys.argv[3]
os.makedirs(folder, exist_ok=True)
number = 0
for file in range(files):
    size = 0
    with open(os.path.join(folder, f"{file:02d}.m"), "w", encoding="ascii") as out:
        while True:
            text = block(number)
            if size + len(text) > room // files:
                break
            out.write(text)
            size += len(text)
            number += 1
