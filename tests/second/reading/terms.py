"""How headers of loops and expressions are spelled."""

from .amounts import UNDEFINED
from .trees import CellNumber, Chain, Header, Index, Membership, Name, Number, Operation, Read, Sum

COMPARISONS = {b"=": "eq", b"!=": "ne", b"<": "lt", b"<=": "le", b">": "gt", b">=": "ge"}
SUMS = {b"+": "add", b"-": "sub"}
PRODUCTS = {b"*": "mul", b"/": "div"}
OF_ONE = {b"present", b"abs", b"positif", b"positif_ou_nul", b"null", b"arr", b"inf"}
OF_TWO = {b"max", b"min"}


class NotSpelled(Exception):
    """The tokens at hand don't spell what is looked for."""


class Cursor:
    """A place in a list of tokens, from which pieces are taken one after the other."""

    def __init__(self, tokens):
        self.tokens = tokens
        self.at = 0

    def ended(self):
        """Whether all tokens are taken."""
        return self.at == len(self.tokens)

    def next_is(self, kind, text):
        """Whether the next token is this sign or reserved word."""
        return not self.ended() and self.tokens[self.at].kind == kind and self.tokens[self.at].text == text

    def take(self, kind):
        """Takes a token of this kind."""
        if self.ended() or self.tokens[self.at].kind != kind:
            raise NotSpelled
        self.at += 1
        return self.tokens[self.at - 1]

    def take_if(self, kind, text):
        """Takes this sign or reserved word, if it is the next token."""
        found = self.next_is(kind, text)
        if found:
            self.at += 1
        return found

    def sign(self, text):
        """Takes this sign."""
        if not self.take_if("sign", text):
            raise NotSpelled

    def key(self, text):
        """Takes this reserved word."""
        if not self.take_if("key", text):
            raise NotSpelled

    def one_of(self, kind, table):
        """Takes a sign or reserved word of a table, and gives its entry; None if there is none."""
        if self.ended() or self.tokens[self.at].kind != kind or self.tokens[self.at].text not in table:
            return None
        self.at += 1
        return table[self.tokens[self.at - 1].text]

    def separated(self, read, kind, text):
        """One piece or more, with this sign or reserved word between them."""
        pieces = [read(self)]
        while self.take_if(kind, text):
            pieces.append(read(self))
        return pieces


def is_name(word):
    """Whether a word has no letter from `a` to `z`."""
    return word.upper() == word


def is_whole(spelling):
    """Whether a number is spelled with one to nine digits and no point."""
    return spelling.isdigit() and len(spelling) <= 9


# ---- headers


def header(cursor):
    """`i = V,C ; j = 1..2`, or `un i dans (V,C) et un j dans 1..2`."""
    if cursor.next_is("key", b"un"):
        indexes = cursor.separated(walked_index, "key", b"et")
    else:
        indexes = cursor.separated(assigned_index, "sign", b";")
    return Header(indexes[0].place, indexes)


def assigned_index(cursor):
    """`i = V,C`."""
    token = letter(cursor)
    cursor.sign(b"=")
    return Index(token.text, token.place, values(cursor))


def walked_index(cursor):
    """`un i dans (V,C)`, or without brackets."""
    cursor.key(b"un")
    token = letter(cursor)
    cursor.key(b"dans")
    bracketed = cursor.take_if("sign", b"(")
    found = values(cursor)
    if bracketed:
        cursor.sign(b")")
    return Index(token.text, token.place, found)


def letter(cursor):
    """A word of one letter from `a` to `z`."""
    token = cursor.take("word")
    if len(token.text) != 1 or is_name(token.text):
        raise NotSpelled
    return token


def values(cursor):
    """Values with commas between them."""
    return cursor.separated(value, "sign", b",")


def value(cursor):
    """A point, or a range from a point to a point."""
    low = point(cursor)
    return (low, point(cursor)) if cursor.take_if("sign", b"..") else (low, low)


def point(cursor):
    """A name, `X` or a whole number, as it is spelled."""
    if cursor.take_if("key", b"X"):
        return b"X"
    if not cursor.ended() and cursor.tokens[cursor.at].kind == "word":
        spelling = cursor.take("word").text
        good = is_name(spelling)
    else:
        spelling = cursor.take("number").text
        good = is_whole(spelling)
    if not good:
        raise NotSpelled
    return spelling


# ---- expressions, from the loosest level to the tightest


def chained(cursor, read, kind, table):
    """Operands with operators of a table between them."""
    first = read(cursor)
    links = []
    operator = cursor.one_of(kind, table)
    while operator is not None:
        links.append((operator, read(cursor)))
        operator = cursor.one_of(kind, table)
    return Chain(first, links) if links else first


def expression(cursor):
    """Conjunctions joined by `ou`."""
    return chained(cursor, conjunction, "key", {b"ou": "or"})


def conjunction(cursor):
    """Negations joined by `et`."""
    return chained(cursor, negation, "key", {b"et": "and"})


def negation(cursor):
    """A relation, perhaps after `non`."""
    if cursor.take_if("key", b"non"):
        return Operation("not", [relation(cursor)])
    return relation(cursor)


def relation(cursor):
    """A sum, a comparison of two, or a membership."""
    left = plain_sum(cursor, primary)
    operator = cursor.one_of("sign", COMPARISONS)
    if operator is not None:
        return Operation(operator, [left, plain_sum(cursor, primary)])
    negated = cursor.take_if("key", b"non")
    if negated:
        cursor.key(b"dans")
    elif not cursor.take_if("key", b"dans"):
        return left
    cursor.sign(b"(")
    members = cursor.separated(member, "sign", b",")
    cursor.sign(b")")
    return Membership(negated, left, members)


def member(cursor):
    """A word, a number, or a range from a number to a number."""
    if not cursor.ended() and cursor.tokens[cursor.at].kind == "word":
        token = cursor.take("word")
        name = Name(token.text, token.place)
        return (name, name)
    low = signed_number(cursor)
    return (low, signed_number(cursor)) if cursor.take_if("sign", b"..") else (low, low)


def signed_number(cursor):
    """A number, perhaps after `-`, which is an operator here too."""
    negative = cursor.take_if("sign", b"-")
    number = Number(cursor.take("number").amount)
    return Operation("neg", [number]) if negative else number


def plain_sum(cursor, primary):
    """Products joined by `+` and `-`; `primary` reads what the operators join."""
    return chained(cursor, lambda at: product(at, primary), "sign", SUMS)


def product(cursor, primary):
    """Factors joined by `*` and `/`."""
    return chained(cursor, lambda at: factor(at, primary), "sign", PRODUCTS)


def factor(cursor, primary):
    """A primary, perhaps after one `-`."""
    if cursor.take_if("sign", b"-"):
        return Operation("neg", [primary(cursor)])
    return primary(cursor)


def primary(cursor):
    """What operators join: a number, a word, a read, brackets, a conditional, a function, a sum."""
    if cursor.ended():
        raise NotSpelled
    token = cursor.tokens[cursor.at]
    cursor.at += 1
    if token.kind == "number":
        return Number(token.amount)
    if token.kind == "word":
        return read_or_name(cursor, token)
    if token.kind == "sign" and token.text == b"(":
        inner = expression(cursor)
        cursor.sign(b")")
        return inner
    if token.kind != "key":
        raise NotSpelled
    if token.text == b"X":
        return CellNumber(token.place)
    if token.text == b"si":
        return conditional(cursor)
    return called(cursor, token.text)


def read_or_name(cursor, token):
    """A word, and perhaps an index in brackets."""
    if not cursor.take_if("sign", b"["):
        return Name(token.text, token.place)
    index = expression(cursor)
    cursor.sign(b"]")
    return Read(token.text, index, token.place)


def conditional(cursor):
    """What follows `si`: without `sinon` the other branch is undefined."""
    condition = expression(cursor)
    cursor.key(b"alors")
    first = expression(cursor)
    second = expression(cursor) if cursor.take_if("key", b"sinon") else Number(UNDEFINED)
    cursor.key(b"finsi")
    return Operation("choose", [condition, first, second])


def called(cursor, word):
    """What follows the word of a function, or `somme`."""
    cursor.sign(b"(")
    if word == b"somme":
        found = header(cursor)
        cursor.sign(b":")
        term = Sum(found, expression(cursor))
    elif word in OF_ONE:
        term = Operation(word.decode(), [expression(cursor)])
    elif word in OF_TWO:
        first = expression(cursor)
        cursor.sign(b",")
        term = Operation(word.decode(), [first, expression(cursor)])
    else:
        raise NotSpelled
    cursor.sign(b")")
    return term
