"""How the items of a rule file are spelled, and the fault of a file that spells none."""

from .faults import at_place
from .terms import Cursor, NotSpelled, expression, header, is_name, is_whole
from .trees import EVERY, Check, Error, Formula, Rule, Variable, Verification, WithoutEffect

DEEPEST = 256
OPENING = {("sign", b"("), ("sign", b"["), ("key", b"si")}
CLOSING = {("sign", b")"), ("sign", b"]"), ("key", b"finsi"), ("key", b"erreur")}
BEGINNING = {("key", b"regle"), ("key", b"verif")}
ERROR_KINDS = {kind: kind for kind in (b"anomalie", b"discordance", b"informative")}


def items_of(tokens):
    """The items that the tokens of a file spell. A fault is reported after the longest prefix that is items."""
    look_for_depth(tokens)
    cursor = Cursor(tokens)
    items = []
    while not cursor.ended():
        start = cursor.at
        try:
            items.append(item(cursor))
        except NotSpelled:
            raise at_place(tokens[start].place, b"syntax") from None
    return items


def look_for_depth(tokens):
    """Rejects the first token at which brackets and conditionals are nested too deep."""
    depth = 0
    for token in tokens:
        key = (token.kind, token.text)
        if key in OPENING:
            depth += 1
        elif key in CLOSING:
            depth = max(0, depth - 1)
        elif key in BEGINNING:
            depth = 0
        if depth > DEEPEST:
            raise at_place(token.place, b"too deep")


def item(cursor):
    """One item."""
    place = cursor.tokens[cursor.at].place
    if cursor.take_if("key", b"regle"):
        applications = head(cursor)[1]
        chained = cursor.take_if("key", b"enchaineur")
        if chained:
            cursor.sign(b":")
            cursor.take("word")
            cursor.sign(b";")
        return Rule(place, applications, chained, one_or_more(cursor, formula))
    if cursor.take_if("key", b"verif"):
        number, applications = head(cursor)
        return Verification(place, number, applications, one_or_more(cursor, check))
    if cursor.take_if("key", b"application"):
        cursor.take("word")
        cursor.sign(b";")
        return WithoutEffect(place)
    if cursor.take_if("key", b"enchaineur"):
        cursor.take("word")
        applications_of(cursor)
        cursor.sign(b";")
        return WithoutEffect(place)
    return declaration(cursor, place)


def one_or_more(cursor, read):
    """One piece, and as many more as follow. The tokens of one that isn't whole are left."""
    pieces = [read(cursor)]
    while True:
        start = cursor.at
        try:
            pieces.append(read(cursor))
        except NotSpelled:
            cursor.at = start
            return pieces


# ---- rules and verifications


def head(cursor):
    """What is between `regle` or `verif` and formulas or checks: the number as it is spelled, applications."""
    words(cursor)
    number = whole(cursor)
    cursor.sign(b":")
    applications = applications_of(cursor)
    cursor.sign(b";")
    return number, applications


def words(cursor):
    """Words without effect, any number of them."""
    while not cursor.ended() and cursor.tokens[cursor.at].kind == "word":
        cursor.at += 1


def whole(cursor):
    """A whole number, as it is spelled."""
    spelling = cursor.take("number").text
    if not is_whole(spelling):
        raise NotSpelled
    return spelling


def applications_of(cursor):
    """`application : iliad , batch`."""
    cursor.key(b"application")
    cursor.sign(b":")
    return cursor.separated(lambda c: c.take("word").text, "sign", b",")


def formula(cursor):
    """A target and its term, within loops."""
    loops = []
    while cursor.take_if("key", b"pour"):
        loops.append(header(cursor))
        cursor.sign(b":")
    target = cursor.take("word")
    slot = None
    if cursor.take_if("sign", b"["):
        slot = EVERY if cursor.take_if("key", b"X") else int(whole(cursor))
        cursor.sign(b"]")
    cursor.sign(b"=")
    term = expression(cursor)
    cursor.sign(b";")
    return Formula(loops, target.text, slot, term, target.place)


def check(cursor):
    """`si REV < 0 alors erreur A20 ;`, with words without effect after the first."""
    if cursor.ended():
        raise NotSpelled
    place = cursor.tokens[cursor.at].place
    cursor.key(b"si")
    condition = expression(cursor)
    cursor.key(b"alors")
    cursor.key(b"erreur")
    error = cursor.take("word").text
    words(cursor)
    cursor.sign(b";")
    return Check(condition, error, place)


# ---- variables and errors


def declaration(cursor, place):
    """A variable or an error, which begins with its name."""
    name = cursor.take("word").text
    if not is_name(name):
        raise NotSpelled
    cursor.sign(b":")
    if cursor.take_if("key", b"saisie"):
        attribute_words, pairs = attributes(cursor)
        cursor.key(b"alias")
        code = cursor.take("word").text
        return Variable(place, name, "input", code=code, words=attribute_words, pairs=pairs, type_word=description(cursor))
    if cursor.take_if("key", b"const"):
        cursor.sign(b"=")
        value = amount(cursor)
        cursor.sign(b";")
        return Variable(place, name, "constant", amount=value)
    kind = cursor.one_of("key", ERROR_KINDS)
    if kind is not None:
        return error(cursor, place, name, kind)
    size = None
    if cursor.take_if("key", b"tableau"):
        cursor.sign(b"[")
        size = int(whole(cursor))
        cursor.sign(b"]")
    cursor.key(b"calculee")
    attribute_words, pairs = attributes(cursor)
    description(cursor)
    return Variable(place, name, "computed", size=size, words=attribute_words, pairs=pairs)


def attributes(cursor):
    """Words, and words with numbers."""
    found = []
    pairs = []
    while not cursor.ended() and cursor.tokens[cursor.at].kind == "word":
        word = cursor.take("word").text
        if cursor.take_if("sign", b"="):
            pairs.append((word, amount(cursor)))
        else:
            found.append(word)
    return tuple(found), tuple(pairs)


def amount(cursor):
    """A number, perhaps after `-`."""
    negative = cursor.take_if("sign", b"-")
    value = cursor.take("number").amount
    return -value if negative else value


def description(cursor):
    """`: "text" type REEL ;`: the word after `type`, if there is one, which has an effect on an input alone."""
    cursor.sign(b":")
    cursor.take("text")
    word = cursor.take("word").text if cursor.take_if("key", b"type") else None
    cursor.sign(b";")
    return word


def error(cursor, place, name, kind):
    """What follows the kind of an error: four texts or five."""
    cursor.sign(b":")
    texts = cursor.separated(lambda c: c.take("text").text, "sign", b":")
    if len(texts) not in (4, 5):
        raise NotSpelled
    cursor.sign(b";")
    return Error(place, name, kind, texts)
