"""Changes of rule files."""

import re

from reading.texts import NUMBER

from .drawing import ERROR_KINDS, NUMBERS, SPOILT_NUMBERS, TYPES, chance, change_pieces, exchange, pieces_of
from .terms import rule_term, single_operator

WORDS = b"""
( ) [ ] , ; : .. = != < <= > >= + - * / X i j A T si alors sinon finsi erreur et ou non dans somme pour un max min
present abs arr inf regle verif application enchaineur saisie calculee const tableau alias type anomalie restituee "t"
"a:b" # . ! " iliad batch
""".split()
KINDS = [b"", b"restituee", b"avfisc = 1", b"avfisc = 2", b"avfisc = 0.5"]
KINDS += [b"avfisc = 1 avfisc = 0", b"avfisc = 0 avfisc = 2"]
GAPS = [b" ", b"  ", b"\t", b"\n", b"\n\n", b"\r\n", b"\r", b" # a; b\n", b"# \xc3\xa9 \"\n"]
RULE = b"regle 900 : application : iliad ;\n"


def change_rules(random, text, names, wild):
    """A rule file with one change."""
    if wild and chance(random, 75):
        return change_pieces(random, text, WORDS + [b"\t", b"\r"] + names.all + NUMBERS + SPOILT_NUMBERS)
    if wild:
        return move_statements(random, text)
    form = random.randrange(11)
    if form < 4:
        return exchange(random, text, names)
    if form < 7:
        return replace_in_term(random, text, names)
    if form == 7:
        return change_gaps(random, text)
    return text + b"\n" + new_items(random, names)


def change_gaps(random, text):
    """A text of which some gaps are others: blanks, line ends and comments."""
    pieces = pieces_of(text)
    for at, piece in enumerate(pieces):
        if not piece.strip() and chance(random, 30):
            pieces[at] = random.choice(GAPS)
    return b"".join(pieces)


def replace_in_term(random, text, names):
    """A text of which one number or name in a formula or check is replaced by a term."""
    pieces = pieces_of(text)
    rule_seen, in_term, header_of = False, False, None
    found = []
    for at, piece in enumerate(pieces):
        if piece in (b"regle", b"verif"):
            rule_seen = True
        elif piece in (b"pour", b"somme"):
            header_of = piece
        elif piece == b":":
            in_term, header_of = header_of == b"somme", None
        elif piece in (b"=", b"si"):
            in_term = rule_seen
        elif piece in (b";", b"erreur", b"[", b"dans"):
            in_term = False
        elif in_term and header_of is None and (piece in names.all or re.fullmatch(NUMBER, piece)):
            found.append(at)
    if found:
        pieces[random.choice(found)] = any_term(random, names)
    return b"".join(pieces)


def move_statements(random, text):
    """A text of which one statement, up to its `;`, is moved, dropped or doubled."""
    statements = re.findall(rb"[^;]*;?", text)[:-1]
    if not statements:
        return text
    moved = statements.pop(random.randrange(len(statements)))
    for _ in range(random.randrange(3)):
        statements.insert(random.randrange(len(statements) + 1), moved)
    return b"".join(statements)


def new_items(random, names):
    """New declarations with rules of their own, a rule for what is declared, or a verification."""
    new = b"N%d" % random.randrange(1000, 9999)
    form = random.randrange(9)
    if form < 4:
        return new_variables(random, names, new)
    if form == 4:
        size = random.choice([b"1", b"2", b"4"])
        declaration = b'%s : tableau[%s] calculee restituee : "" ;\n' % (new, size)
        return b"%s%s%s[X] = %s ;\n" % (declaration, RULE, new, any_term(random, names, (b"X",)))
    if form == 5:
        return new_loop(random, names, new)
    if form == 6:
        return new_inputs(random, new)
    if form == 7 and names.computed and chance(random, 30):
        return b"%s%s = %s ;\n" % (RULE, random.choice(names.computed), any_term(random, names))
    texts = b" : ".join(b'"%s"' % random.choice([b"N", b"", b"a\tb", b"\n", b"7", b"#"]) for _ in range(4))
    error = b"%s : %s : %s ;\n" % (new, random.choice(ERROR_KINDS), texts)
    verification = b"verif %s : application : iliad ;\n" % random.choice([b"900", b"0009"])
    return b"%s%ssi %s alors erreur %s ;\n" % (error, verification, any_term(random, names), new)


def any_term(random, names, letters=()):
    """A term of any depth, mostly a shallow one, of which each operator shows."""
    return rule_term(random, names, random.choice([1, 1, 2, 3, 4]), letters)


def new_variables(random, names, new):
    """Some variables that are returned, each with a formula."""
    numbered = [b"%s%s" % (new, k) for k in (b"A", b"B", b"C", b"D", b"E", b"F")][:random.randrange(1, 7)]
    declarations = b"".join(b'%s : calculee restituee : "" ;\n' % name for name in numbered)
    terms = [single_operator(random) if chance(random, 60) else any_term(random, names) for _ in numbered]
    formulas = b"".join(b"%s = %s ;\n" % formula for formula in zip(numbered, terms))
    rule = RULE if chance(random, 92) else RULE + b"enchaineur : c1 ;\n"
    return declarations + rule + formulas


def new_loop(random, names, new):
    """Three variables, which a formula in a loop sets."""
    declarations = b"".join(b'%s%s : calculee restituee : "" ;\n' % (new, k) for k in (b"1", b"2", b"3"))
    loop = random.choice([b"i = 1..3", b"i = 1,3", b"i = 2", b"un i dans (1..2)", b"i = 1..3 : pour j = 7"])
    return b"%s%spour %s : %si = %s ;\n" % (declarations, RULE, loop, new, any_term(random, names, (b"i",)))


def new_inputs(random, new):
    """A few inputs, a computed variable and a constant, with attributes as drivers look for them."""
    inputs = b""
    for k in (b"A", b"B", b"C"):
        kind = b" type " + random.choice(TYPES) if chance(random, 40) else b""
        inputs += b'%s%s : saisie revenu %s alias %s%s : ""%s ;\n' % (new, k, random.choice(KINDS), new, k, kind)
    computed = b'%sD : calculee %s restituee : "" type REEL ;\n' % (new, random.choice(KINDS))
    return b"%s%s%sE : const = %s ;\n" % (inputs, computed, new, random.choice([b"- 2", b"0", b"0.0000005", b"12"]))
