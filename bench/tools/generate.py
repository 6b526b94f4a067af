"""Bases of 20,000 rules for measure.py: each function answers the text of one rule file, and the name of its last variable."""
import random
import runpy
import os

TESTS = os.path.join(os.path.dirname(os.path.dirname(os.path.dirname(os.path.abspath(__file__)))), "tests", "tools")
RULES = 20_000
SEED = 20


def alike():
    """The base of tests/tools/many_rules.py, whose formulas have one form."""
    return runpy.run_path(os.path.join(TESTS, "many_rules.py"))["base"](), f"V{RULES - 1:05}"


def declarations():
    for k in range(400):
        yield (f"I{k:03} : saisie revenu classe = 0 priorite = 10 categorie_TL = 20 cotsoc = 5 ind_abat = 0 avfisc = {k % 3} alias A{k:03} : "
               f'"Revenus déclarés, ligne {k}" type {"ENTIER" if k % 5 else "REEL"} ;   # ligne {k}')
    yield from (f"I{k:03}{p} : saisie revenu classe = 0 alias B{k:03}{p} : \"Déclarant {p}\" ;" for k in range(100) for p in "VC")
    yield from (f"C{k:03} : const = {k + 1}.{k % 7} ;   # art. {k}" for k in range(200))
    yield from (f'T{k:03} : tableau[{2 + k % 9}] calculee : "barème {k}" ;' for k in range(200))
    yield from (f'W{k:03}{p} : calculee : "par déclarant" ;' for k in range(400) for p in "VC")
    yield from (f'V{k:05} : calculee {"base restituee" if k % 20 == 0 else ""} : "variable {k}" ;' for k in range(RULES))
    yield from (f'E{k:03} : {"anomalie" if k % 4 else "informative"} : "E" : "{k:03}" : "00" : "texte de l\'erreur {k}" : "N" ;' for k in range(300))


def operand(chance, k, depth):
    """A part of a formula that reads what was set before variable k."""
    if depth and chance.random() < 0.3:
        inner = lambda: term(chance, k, depth - 1)
        return chance.choice((
            lambda: f"({inner()})", lambda: f"max({inner()}, {inner()})", lambda: f"min({inner()}, {inner()})", lambda: f"arr({inner()})",
            lambda: f"abs({inner()})",
            lambda: f"si ({inner()} > {inner()}) alors ({inner()}) sinon {inner()} finsi", lambda: f"positif({inner()})"))()
    return chance.choice((
        lambda: f"I{chance.randrange(400):03}", lambda: f"C{chance.randrange(200):03}", lambda: str(chance.randrange(1000)), lambda: f"{chance.random():.3f}",
        lambda: f"V{chance.randrange(max(0, k - 400), k):05}" if k else "I000", lambda: f"T{chance.randrange(200):03}[{chance.randrange(2)}]"))()


def term(chance, k, depth):
    parts = [operand(chance, k, depth)]
    for _ in range(chance.choice((0, 1, 1, 2, 3))):
        parts += [chance.choice("+-*/"), operand(chance, k, depth)]
    return " ".join(parts)


def formula(chance, k):
    before = f"V{k - 1:05}" if k else "I000"
    return f"V{k:05} = {before} + {term(chance, k, 3)} ;"


def varied():
    """A base with formulas of many forms. Each variable reads the one before it, so that the last one needs all."""
    chance = random.Random(SEED)
    lines = list(declarations())
    lines += ["regle 900001 : application : iliad , batch ;"]
    lines += [f"T{k:03}[X] = X * 0.{k % 9 + 1} ;" for k in range(200)]
    for k in range(RULES):
        lines += [f"# {k}: commentaire de la règle"] if k % 3 == 0 else []
        lines += [f"regle {k + 1} : application : iliad{' , batch' if k % 2 else ''} ;", formula(chance, k)]
        if k % 50 == 0:
            lines.append(f"pour i = V,C : W{k // 50:03}i = somme(j=001..004: I{k // 50 % 10 * 10 % 90:03}i * j) + max(0, C{k % 200:03}) ;")
    for k in range(1_000):
        place = f"V{k * 20:05}"
        lines.append(f"verif {k + 1} : application : iliad , batch ; si {place} < 0 et I{k % 400:03} non dans (1, 2, 5..9) alors erreur E{k % 300:03} ;")
    return "\n".join(lines) + "\n", f"V{RULES - 1:05}"
