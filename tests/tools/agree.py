"""Compares the grammars of tools/ with the reference implementation: of files that are changed at random both reject the same, and where tokens are at fault at
the same place; a fault of grammar is reported by the tools at the reference's place or farther on. agree.py ROOT COUNT SEED"""
import glob
import random
import re
import sys

ROOT, COUNT, SEED = sys.argv[1], int(sys.argv[2]), int(sys.argv[3])
sys.path[:0] = [ROOT + "/python", ROOT + "/tests/second"]
sys.setrecursionlimit(50_000)

from vodmejka import drivers as driver_grammar, items as rule_grammar  # noqa: E402
from reading.driver_grammar import functions_of  # noqa: E402
from reading.driver_lines import driver_lines  # noqa: E402
from reading.faults import Refused  # noqa: E402
from reading.items import items_of  # noqa: E402
from reading.tokens import tokens_of  # noqa: E402

PIECES = (
    rb'; : ( ) , = [ ] .. - si alors finsi regle 1 A a "x" X 1.5 dans non pour un et somme( max( . " sinon erreur application '
    rb'== <- if else: not del partition'
).split()
PIECES += [b"\n", b"\n  ", b"\n    ", b"\t", b"\xe9", b"1234567890", b" ", b"\r"]


def files(pattern, more):
    names = [name for name in glob.glob(ROOT + "/crates/rows/data/**/*", recursive=True) + glob.glob(ROOT + more) if name.endswith((".txt", ".m", ".mpp"))]
    contents = [open(name, "rb").read() for name in sorted(names)]
    return [content for content in contents if len(content) < 4_000 and re.search(pattern, content)]


def changed(content, chance):
    pieces = re.findall(rb'\s+|[A-Za-z0-9_.]+|"[^"]*"|.', content, re.DOTALL)
    for _ in range(chance.choice([0, 1, 1, 2, 3])):
        at = chance.randrange(len(pieces) + 1)
        pieces[at : at + chance.choice([0, 0, 1])] = chance.choice([[], [chance.choice(PIECES)], [b" " + chance.choice(PIECES) + b" "]])
    return b"".join(pieces)


def reference(read):
    try:
        read()
    except Refused as fault:
        match = re.search(rb"(?:byte|driver line) ([0-9]+): ([a-z ]+)", fault.line)
        return int(match[1]), match[2].decode()
    return None


def agree(wanted, faults):
    """Whether these faults, as places with what they are, are right if the reference reports one or none."""
    if wanted is None or not faults:
        return wanted is None and not faults
    if wanted[1] == "syntax":
        return faults[0][1] == "syntax" and faults[0][0] >= wanted[0]
    return wanted in faults


def main():
    chance, differ, rejected = random.Random(SEED), 0, 0
    rules, drivers = files(rb"calculee|regle|saisie", "/examples/*/*.m"), files(rb"call_m|main\(\)", "/examples/*/*.mpp")
    for number in range(COUNT):
        is_driver = number % 2
        content = changed(chance.choice(drivers if is_driver else rules), chance)
        if is_driver:
            wanted = reference(lambda: functions_of(driver_lines(content)))
            found = [(fault.line, fault.what) for fault in driver_grammar.Driver(content).faults]
        else:
            wanted = reference(lambda: items_of(tokens_of(0, b"a.m", content)))
            found = [(fault.byte, fault.what) for fault in rule_grammar.read(content)[1]]
        rejected += wanted is not None
        if not agree(wanted, found):
            differ += 1
            print(f"{'driver' if is_driver else 'rules'}: {wanted}, but {found[:3]}: {content!r}")
    print(f"{differ} of {COUNT} differ; {'some' if rejected > COUNT / 3 else 'few'} are rejected, {'some' if rejected < COUNT * 9 / 10 else 'few'} are not")


main()
