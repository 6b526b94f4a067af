"""Compares the reader of statements (shapes.py) with the reader of tokens, which has the grammar: the same items, terms and faults, on the rule files of the
examples and on changed ones. Also a few statements whose recognition follows from docs/LANGUAGE.md."""
import glob
import os
import random
import re
import sys

ROOT = os.environ["ROOT"]
sys.path.insert(0, os.path.join(ROOT, "python"))
from vodmejka import items, loops, reserved, scanning, shapes, tokens  # noqa: E402

COUNT, SEED = 400, 7
PIECES = [b";", b":", b"=", b"(", b")", b"[", b"]", b",", b"..", b"si", b"alors", b"finsi", b"non", b"dans", b"et", b"regle", b"verif", b"pour", b"un",
          b"somme", b"max", b"X", b"i", b"Abc", b"A01", b"12", b"1.5", b"1234567890", b"\xe9", b'"', b"#", b"-", b"/", b"<", b"<=", b"erreur", b"application",
          b"enchaineur"]
MORE = b"""
pour i = V,C : NETi = somme(j=01..03: AB * j) + max(0, min(iV, CD)) ;  pour i=1..2;j=A,B : ZijZ = 1 ;
pour un i dans (V,C) et un j dans 1..2 : iV = T1[j] + T1[IX+1] ;
IX = si (RQ > 5 et non RQ dans (1, 2..3, -4, AB)) alors si present(RQ) alors abs(-RQ) sinon arr(RQ/2) finsi finsi - -3 * - RQ ;
verif 903 : application : iliad , batch ; si positif(VV) ou VV non dans (1) alors erreur E99 COD ;
"""
KINDS = {"FORMULA": ["A = B + -C * 2 ;", "T[X] = X ;", "T[3] = max(A, (B)) ;", "pour i = 1..3,V : Ai = somme(j=A,B: Ti[j]) ;", "A = B < C et non D = 1 ;",
                     "A = B non dans (1, -2..3, C) ;", "A = si B alors C finsi ;"],
         "CHECK": ["si A = 1 alors erreur E1 ;", "si si A alors B finsi alors erreur E1 COD ;"],
         "HEAD": ["regle 1 : application : iliad , batch ;", "verif primitive 12 : application : iliad ;"],
         "DECLARATION": ["K : const = -1.5 ;", 'A : saisie revenu classe = -1 alias A1 : "a" type REEL ;', 'T : tableau[3] calculee base : "t" ;',
                         'E : anomalie : "A" : "1" : "0" : "t" ;'],
         "OTHER": ["A = B < C < D ;", "A = non non B ;", "A = - - B ;", "A = B(C) ;", "A = X[1] ;", "A = max(B) ;", "A = abs(B, C) ;", "A = B dans (C + 1) ;",
                   "A = ;", "A[1.5] = 1 ;", "T[1234567890] = 1 ;", "a : const = 1 ;", "K : const = B ;", 'E : anomalie : "A" : "1" : "0" ;',
                   "regle 1.5 : application : iliad ;",
                   "A = si B alors C sinon D ;", "si A alors erreur ;", "A = (B)) ;", "A = ((B) ;", "A = B C ;"]}


def changed(content, chance):
    pieces = re.findall(rb'\s+|[A-Za-z0-9_.]+|"[^"]*"|.', content + MORE, re.DOTALL)
    for _ in range(chance.choice([0, 1, 2, 6])):
        at = chance.randrange(len(pieces) + 1)
        pieces[at : at + chance.choice([0, 0, 1])] = chance.choice([[], [chance.choice(PIECES)], [b" ", chance.choice(PIECES), b" "]])
    return b"".join(pieces)


def seen(reader):
    """All that a reader has read; of terms also what they read."""
    formulas = [(one.applications, one.is_chained, one.loops, one.target, one.slot, one.byte, [*one.reads()], one.term) for one in reader.formulas]
    checks = [(one.applications, one.error, one.error_byte, one.byte, [*one.reads()], one.condition) for one in reader.checks]
    return formulas, checks, reader.errors, reader.kinds_of_errors, reader.declarations, reader.faults


def main():
    words = {word for word in tokens.CLASSES if word[0].isalpha()}
    print(f"reserved words without a letter, or the other way round: {sorted(words ^ reserved.reserved('m'))}")
    for kind, statements in KINDS.items():
        for text in statements:
            found = shapes.statement_of(tokens.scanned(text.encode()).letters).kind
            if found != getattr(shapes, kind):
                print(f"{text} is {found or 'not recognized'}, and not {kind}")
    chance, differ, faulty, quick = random.Random(SEED), 0, 0, 0
    contents = [open(name, "rb").read() for name in sorted(glob.glob(f"{ROOT}/examples/*/*.m")) if os.path.getsize(name) < 20_000]
    for _ in range(COUNT):
        content = changed(chance.choice(contents), chance)
        found = scanning.tokens_of(content)[0]
        reader, plain = items.StatementReader(found), items.RuleReader(list(found))
        unread = [reader.read_all(), plain.read_all()] and [one for one in reader.formulas if one.simple]
        wanted, read = seen(plain), seen(reader)
        quick, faulty = quick + bool(unread), faulty + bool(plain.faults)
        if wanted != read:
            differ += 1
            print(f"differs: {content!r}")
        if any([*loops.reads_of(one.term, one.loops)] != [*one.reads()] for one in reader.formulas):
            print(f"other reads: {content!r}")
    print(f"{differ} of {COUNT} differ; {'some' if faulty > COUNT / 4 else 'few'} have faults; "
          f"{'most' if quick > COUNT / 2 else 'few'} have formulas that were recognized")


main()
