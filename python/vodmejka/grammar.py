"""The grammar of headers and terms of rule files (docs/LANGUAGE.md). After a fault it has the token that no rule takes, and those that one would take."""
from __future__ import annotations

import re
from typing import Callable, NoReturn, Sequence, TypeVar

from .loops import Header, Pair, Term
from .reserved import reserved
from .texts import said
from .tokens import Token

Read = TypeVar("Read")
RESERVED = reserved("m")
OF_ONE = ("present", "abs", "positif", "positif_ou_nul", "null", "arr", "inf")
OF_TWO = ("max", "min")
CALLED = frozenset(("somme", *OF_ONE, *OF_TWO))
COMPARISONS = ("=", "!=", "<", "<=", ">", ">=")
LOOSEST, NEGATION, COMPARISON, SUM, TIGHTEST = 1, 3, 4, 5, 6
LEVELS = {"ou": LOOSEST, "et": 2, **dict.fromkeys((*COMPARISONS, "non", "dans"), COMPARISON), "+": SUM, "-": SUM, "*": TIGHTEST, "/": TIGHTEST}
OPERATORS = "an operator (+ - * / = < et ou ..)"
TURNED = {"=>": ">=", "=<": "<=", "<>": "!=", "><": "!="}
OTHER_WORDS = {"arrondi": "arr", "round": "arr", "entier": "inf", "tronque": "inf", "floor": "inf", "sum": "somme", "and": "et", "or": "ou", "not": "non",
               "if": "si", "then": "alors", "else": "sinon", "endif": "finsi"}
VALUE = "a value (a name, a number, ( or a function)"


# Terms are ("number", text), ("name", word, byte), ("X",), ("read", word, index, byte), ("op", sign, [terms]) and ("sum", header, term); a header is a list of
# a letter and its values, each a pair of words.


class Stuck(Exception):
    """No rule can take the token at hand."""


def is_name(word: str) -> bool:
    return word.upper() == word


def meant(word: str) -> str | None:
    """The reserved word that is meant by a word that is none: in other letters, or of another language."""
    small = word.lower()
    found = small if small in RESERVED else OTHER_WORDS.get(small)
    return found if found != word else None


def no_function(word: str) -> str:
    """What to write for a call of what is no function."""
    if meant(word) in (*OF_ONE, *OF_TWO, "somme"):
        return said("help.writes_small", right=meant(word), wrong=word)
    if is_name(word):
        return said("help.cell", word=word)
    return said("help.no_function", word=word)


class Reader:
    """Takes tokens one after the other, and records which would be accepted next."""

    def __init__(self, tokens: Sequence[Token]):
        self.tokens: Sequence[Token] = tokens
        self.at, self.hint = 0, ""
        self.wanted: list[str] = []
        self.end = Token("end", "", tokens[-1].byte + len(tokens[-1].text) if tokens else 0)

    def peek(self, ahead: int = 0) -> Token:
        try:
            return self.tokens[self.at + ahead]
        except IndexError:
            return self.end

    def want(self, *what: str) -> None:
        """Records what would be accepted here; duplicates are possible."""
        self.wanted += what

    def wants(self) -> tuple[str, ...]:
        """What would be accepted here, each once."""
        return tuple(dict.fromkeys(self.wanted))

    def step(self) -> Token:
        try:
            token = self.tokens[self.at]
        except IndexError:
            token = self.end
        self.at += 1
        self.wanted.clear()
        self.hint = ""
        return token

    def stuck(self, hint: str = "") -> NoReturn:
        self.hint = self.hint or hint
        raise Stuck

    def next_is(self, *texts: str) -> bool:
        try:
            token = self.tokens[self.at]
        except IndexError:
            return False
        return token.text in texts and token.kind in ("sign", "word")

    def take_if(self, *texts: str) -> str | None:
        self.wanted += texts
        try:
            token = self.tokens[self.at]
        except IndexError:
            return None
        return self.step().text if token.text in texts and token.kind in ("sign", "word") else None

    def take(self, *texts: str) -> str:
        return self.take_if(*texts) or self.stuck()

    def is_word(self, ahead: int = 0) -> bool:
        token = self.peek(ahead)
        return token.kind == "word" and token.text not in RESERVED

    def word(self, what: str, ahead_hint: str = "") -> Token:
        self.want(what)
        if self.is_word():
            return self.step()
        token = self.peek()
        if token.kind == "word":
            self.stuck(said("help.no_name", word=token.text))
        self.stuck(ahead_hint)

    def name(self, what: str) -> str:
        token = self.peek()
        if self.is_word() and not is_name(token.text):
            self.want(what)
            self.stuck(said("help.small", word=token.text))
        return self.word(what).text

    def kind(self, kind: str, what: str) -> Token:
        self.want(what)
        if self.peek().kind != kind:
            self.stuck()
        return self.step()

    def whole(self, what: str = "a whole number") -> str:
        self.want(what)
        if self.peek().kind != "number" or not re.fullmatch("[0-9]{1,9}", self.peek().text):
            self.stuck()
        return self.step().text

    def separated(self, read: Callable[[], Read], sign: str) -> list[Read]:
        found = [read()]
        while self.take_if(sign):
            found.append(read())
        return found


class Terms(Reader):
    """Headers and terms."""

    def header(self) -> Header:
        if self.next_is("un"):
            return self.separated(self.walked, "et")
        self.want("un")
        return self.separated(self.assigned, ";")

    def letter(self) -> str:
        self.want("a letter from a to z")
        if not (self.is_word() and re.fullmatch("[a-z]", self.peek().text)):
            self.stuck()
        return self.step().text

    def assigned(self) -> tuple[str, list[Pair]]:
        letter = self.letter()
        self.take("=")
        return letter, self.values()

    def walked(self) -> tuple[str, list[Pair]]:
        self.take("un")
        letter = self.letter()
        self.take("dans")
        if not self.take_if("("):
            return letter, self.values()
        values = self.values()
        self.take(")")
        return letter, values

    def values(self) -> list[Pair]:
        return self.separated(self.value, ",")

    def value(self) -> Pair:
        low = self.point()
        return (low, self.point()) if self.take_if("..") else (low, low)

    def point(self) -> str:
        if self.next_is("X"):
            return self.step().text
        return self.whole() if self.peek().kind == "number" else self.name("a name in capital letters")

    def term(self) -> Term:
        return self.operation(LOOSEST)

    def operation(self, least: int) -> Term:
        """A term whose operators bind at least so tightly. Operators of one level are taken from left to right; of comparisons there is one, and none on what
        `non` made."""
        if least <= NEGATION:
            self.wanted.append("non")
        if least <= NEGATION and self.next_is("non"):
            found: Term = ("op", self.step().text, [self.operation(COMPARISON)])
            most = NEGATION
        else:
            found, most = self.factor(), TIGHTEST
        while True:
            self.wanted.append(OPERATORS)
            sign = self.peek().text
            level = LEVELS.get(sign, 0)
            if not least <= level <= most:
                return found
            if level == COMPARISON:
                found, most = self.compared(found) if sign in COMPARISONS else self.listed(found), NEGATION
            else:
                found = ("op", self.step().text, [found, self.operation(level + 1)])

    def compared(self, left: Term) -> Term:
        sign = self.step().text
        turned = TURNED.get(sign + self.peek().text) if self.peek().kind == "sign" else None
        if turned:
            self.want(VALUE)
            self.stuck(said("help.writes", right=turned, wrong=sign + self.peek().text))
        if self.next_is("="):
            self.want(VALUE)
            self.stuck(said("help.one_equals", sign=sign))
        return ("op", sign, [left, self.operation(SUM)])

    def listed(self, left: Term) -> Term:
        isnt = self.take_if("non") is not None
        self.take("dans")
        self.take("(")
        members = self.separated(self.member, ",")
        self.take(")")
        found: Term = ("op", "dans", [left, *members])
        return ("op", "non", [found]) if isnt else found

    def member(self) -> Term:
        if self.is_word():
            token = self.step()
            return ("name", token.text, token.byte)
        low = self.signed()
        return ("op", "..", [low, self.signed()]) if self.take_if("..") else low

    def signed(self) -> Term:
        sign = self.take_if("-") or ""
        return ("number", sign + self.kind("number", "a number").text)

    def factor(self) -> Term:
        self.wanted.append("-")
        return ("op", "neg", [(self.step(), self.primary())[1]]) if self.next_is("-") else self.primary()

    def primary(self) -> Term:
        self.wanted.append(VALUE)
        token = self.peek()
        if token.kind == "word" and token.text not in RESERVED:
            return self.read()
        if token.kind == "number":
            return ("number", self.step().text)
        sign = token.text if token.kind in ("sign", "word") else ""
        if sign == "(":
            self.step()
            inner = self.term()
            self.take(")")
            return inner
        if sign == "X":
            self.step()
            return ("X",)
        if sign == "si":
            return self.conditional()
        if sign in CALLED:
            return self.called(self.step().text)
        self.stuck(said("help.no_value", word=token.text) if token.kind == "word" else "")

    def read(self) -> Term:
        token = self.step()
        self.wanted.append("[")
        if not self.next_is("(", "["):
            return ("name", token.text, token.byte)
        if self.next_is("("):
            self.stuck(no_function(token.text))
        self.step()
        index = self.term()
        self.take("]")
        return ("read", token.text, index, token.byte)

    def conditional(self) -> Term:
        self.step()
        parts = [self.term()]
        self.take("alors")
        parts.append(self.term())
        if self.take_if("sinon"):
            parts.append(self.term())
        self.take("finsi")
        return ("op", "si", parts)

    def called(self, word: str) -> Term:
        self.take("(")
        if word == "somme":
            header = self.header()
            self.take(":")
            found: Term = ("sum", header, self.term())
        else:
            found = ("op", word, [self.term()])
            if word in OF_TWO:
                if self.next_is(")"):
                    self.want(",")
                    self.stuck(said("help.two", word=word))
                self.take(",")
                found[2].append(self.term())
        if self.next_is(","):
            self.want(")")
            self.stuck(said("help.three" if word in OF_TWO else "help.one", word=word))
        self.take(")")
        return found
