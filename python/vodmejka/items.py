"""The grammar of rule files (docs/LANGUAGE.md): the items of a file, and all its faults, each at the token that no rule takes.

The program reports the place after the longest prefix of whole items. This reader reports the farthest token that no rule takes, and those that one would
take, and continues after the next `;`, so that it finds the later faults too.
"""
from __future__ import annotations

import sys
from typing import Sequence, TypeVar

from .grammar import RESERVED, VALUE, Stuck, Terms, meant
from .item_types import Check, Declaration, Fault, Formula, Unread
from .loops import whole
from .scanning import BLANKS, SIGNS, deep_fault, take_tokens, too_deep, tokens_of  # noqa: F401
from .scanning import numbers_too_great
from .shapes import CHECK, DECLARATION, FORMULA, OTHER, Statement, statement_of
from .texts import said
from .tokens import Token, Tokens

KINDS_OF_ERRORS = ("anomalie", "discordance", "informative")
OneReader = TypeVar("OneReader", bound="RuleReader")


class RuleReader(Terms):
    """The items of a file, one piece after the other: a head, a formula, a check, a declaration. After a fault it goes on after the next `;`."""

    def __init__(self, tokens: Sequence[Token]):
        super().__init__(tokens)
        self.formulas: list[Formula] = []
        self.checks: list[Check] = []
        self.errors: list[tuple[str, int]] = []
        self.declarations: list[Declaration] = []
        self.faults: list[Fault] = []
        self.kinds_of_errors: dict[str, str] = {}
        self.inside: str | None = None
        self.applications: list[str] = []
        self.is_chained = self.due = False

    def read_all(self: OneReader) -> OneReader:
        while self.at < len(self.tokens) or self.due:
            self.piece_or_fault()
        return self

    def piece_or_fault(self) -> None:
        """Reads a piece. One that can't be read is noted as a fault, and what follows it is looked for."""
        self.wanted, self.hint = [], ""
        try:
            self.piece()
        except Stuck:
            self.note()
            self.recover()

    def note(self) -> None:
        token = self.peek()
        found = "the end of the file" if token.kind == "end" else token.text if len(token.text) < 40 else token.text[:40] + ".."
        self.faults.append(Fault("syntax", token.byte, found, self.wants(), self.hint or self.guess()))

    def guess(self) -> str:
        """A hint, by the tokens around the place."""
        token, before, after = self.peek(), self.peek(-1) if self.at else self.end, self.peek(1)
        if token.text == "," and before.kind == "number" and after.kind == "number":
            return said("help.decimal", number=f"{before.text}.{after.text}")
        if token.text == "/" and after.text in ("/", "*"):
            return "a comment begins with #"
        for one in (token, before):
            word = meant(one.text) if one.kind == "word" and one.text not in RESERVED else None
            if word and (one is token or word in ("si", "non", "somme")):
                return said("help.writes", right=word, wrong=one.text)
        begins = token.kind == "end" or token.text in ("regle", "verif", "si", "pour") or self.is_word() and after.text in ("=", ":", "[")
        if ":" in self.wanted and begins:
            return "a : is missing before it"
        if ";" in self.wanted and begins:
            return "a ; is missing before it"
        if ")" in self.wanted and token.text in (";", "alors", "sinon", "finsi"):
            return "a ) is missing before it"
        if "finsi" in self.wanted and token.text in (";", ")"):
            return "a finsi is missing before it"
        return ""

    def recover(self) -> None:
        self.due = False
        while self.at < len(self.tokens) and not self.next_is("regle", "verif"):
            if self.step().text == ";":
                return

    def piece(self) -> None:
        if self.due or self.inside and not self.begins_item():
            self.due = False
            (self.formula if self.inside == "regle" else self.check)()
        elif self.take_if("regle", "verif"):
            self.head(self.peek(-1).text)
        elif self.take_if("application"):
            self.inside = None
            self.word("a word")
            self.take(";")
        elif self.take_if("enchaineur"):
            self.inside = None
            self.word("a word")
            self.apps()
            self.take(";")
        else:
            self.inside = None
            self.declaration()

    def begins_item(self) -> bool:
        if self.inside == "regle" and self.next_is("pour") or self.inside == "verif" and self.next_is("si"):
            return False
        if self.is_word():
            return self.peek(1).text == ":" or self.inside == "verif" and self.peek(1).text not in ("=", "[")
        return self.next_is("regle", "verif", "application", "enchaineur")

    def head(self, inside: str) -> None:
        self.inside, self.applications, self.is_chained = inside, [], False
        while self.is_word():
            self.step()
        self.want("a word")
        self.whole("the number of the rule")
        self.take(":")
        self.applications = self.apps()
        self.take(";")
        if inside == "regle" and self.take_if("enchaineur"):
            self.is_chained = True
            self.take(":")
            self.word("a word")
            self.take(";")
        self.due = True

    def apps(self) -> list[str]:
        self.take("application")
        self.take(":")
        return self.separated(lambda: self.word("the name of an application").text, ",")

    def formula(self) -> None:
        loops = []
        while self.take_if("pour"):
            loops.append(self.header())
            self.take(":")
        byte = self.peek().byte
        target, slot = self.word("a name, whose formula follows").text, None
        if self.take_if("["):
            self.want("X")
            slot = self.step().text if self.next_is("X") else self.whole()
            self.take("]")
            if self.next_is(":"):
                self.want("=")
                self.stuck(said("help.tableau", name=target, size=slot))
        self.take("=")
        if self.next_is("="):
            self.want(VALUE)
            self.stuck("a formula has one =")
        term = self.term()
        self.take(";")
        self.formulas.append(Formula(self.applications, self.is_chained, loops, target, slot, term, byte))

    def check(self) -> None:
        byte = self.peek().byte
        self.take("si")
        condition = self.term()
        self.take("alors")
        self.take("erreur")
        error = self.word("the name of an error")
        while self.is_word():
            self.step()
        self.take(";")
        self.checks.append(Check(self.applications, condition, error.text, error.byte, byte))

    def declaration(self) -> None:
        byte, name = self.peek().byte, self.name("a declaration (NAME :)")
        if self.next_is("[") and self.peek(2).text == "]" and self.peek(3).text == ":":
            self.want(":")
            self.stuck(said("help.tableau", name=name, size=self.peek(1).text))
        if self.next_is("=", "["):
            self.want(":")
            self.stuck("a formula stands in a rule: regle 10 : application : iliad ; before it")
        self.take(":")
        if self.take_if("saisie"):
            attributes = self.attributes()
            self.take("alias")
            code = self.word("a code").text
            self.declarations.append(Declaration(name, "saisie", byte, None, attributes, code, *self.description()))
        elif self.take_if("const"):
            self.take("=")
            number = self.signed_text()
            self.take(";")
            self.declarations.append(Declaration(name, "const", byte, number=number))
        elif kind := self.take_if(*KINDS_OF_ERRORS):
            self.kinds_of_errors[name] = kind
            texts = self.texts_of_error()
            self.errors.append((name, byte))
            self.declarations.append(Declaration(name, kind, byte, texts=texts))
        else:
            size = None
            if self.take_if("tableau"):
                self.take("[")
                size = whole(self.whole())
                self.take("]")
            self.take("calculee")
            attributes = self.attributes()
            self.declarations.append(Declaration(name, "calculee", byte, size, attributes, None, *self.description()))

    def texts_of_error(self) -> tuple[str, ...]:
        self.take(":")
        texts = self.separated(lambda: self.kind("text", 'a text in " "').text, ":")
        if len(texts) < 4:
            self.stuck("an error has four texts or five")
        if len(texts) > 5:
            self.at -= 2
            self.stuck("an error has four texts or five")
        self.take(";")
        return tuple(texts)

    def signed_text(self) -> str:
        return ("-" if self.take_if("-") else "") + self.kind("number", "a number").text

    def attributes(self) -> tuple[tuple[str, str | None], ...]:
        found = []
        while self.is_word():
            word = self.step().text
            found.append((word, self.signed_text() if self.take_if("=") else None))
            self.want("an attribute")
        return tuple(found)

    def description(self) -> tuple[tuple[str, ...], str | None]:
        """The texts and the type of a declaration."""
        self.take(":")
        text = self.kind("text", 'a text in " "').text
        word = self.word("a word").text if self.take_if("type") else None
        self.take(";")
        return (text,), word


class StatementReader(RuleReader):
    """The same items, by statements: one whose letters are recognized (shapes.py) isn't read token by token, and its term only when it is used."""

    tokens: Tokens

    def __init__(self, tokens: Tokens):
        self._declared: list[Declaration | tuple[int, int]] = []
        super().__init__(tokens)
        self._statements: dict[str, Statement] = {}
        self._tried = 0  # the end of the last statement that was looked at

    @property
    def declarations(self) -> list[Declaration]:
        return [self._declaration(one) if isinstance(one, tuple) and not isinstance(one, Declaration) else one for one in self._declared]

    @declarations.setter
    def declarations(self, declared: list[Declaration]) -> None:
        self._declared = list(declared)

    def piece(self) -> None:
        """Takes all statements up to one that isn't recognized, and a piece of that."""
        letters, count = self.tokens.letters, len(self.tokens)
        while self._tried <= self.at < count:
            end = self._tried = self.tokens.after(self.at)
            if end > count or not self.statement(letters[self.at : end], end):
                break
        if self.at < count or self.due:
            super().piece()

    def statement(self, letters: str, end: int) -> bool:
        """Takes the statement up to a token, if it is recognized."""
        found = self._statements.get(letters)
        if found is None:
            found = self._statements[letters] = statement_of(letters)
        if found.kind == FORMULA:
            if self.inside != "regle":
                return False
            self.take_formula(found, end)
        elif found.kind == CHECK:
            if self.inside != "verif":
                return False
            self.take_check(found)
        elif found.kind == OTHER or self.due:
            return False
        elif found.kind == DECLARATION:
            self.take_declaration(letters, end)
        elif not self.take_head(letters, end):
            return False
        self.at = end
        return True

    def take_formula(self, found: Statement, end: int) -> None:
        tokens, at = self.tokens, self.at
        loops = []
        if found.target:
            header = Terms(tokens[at : at + found.target])
            while header.take_if("pour"):
                loops.append(header.header())
                header.take(":")
        at += found.target
        slot = tokens.texts[at + 2] if tokens.letters[at + 1] == "[" else None
        term = Unread(tokens, self.at + found.begin, end - 1)
        self.formulas.append(Formula(self.applications, self.is_chained, loops, tokens.texts[at], slot, term, tokens.bytes[at]))
        self.due = False

    def take_check(self, found: Statement) -> None:
        tokens, at = self.tokens, self.at
        error = at + found.end + 2
        condition = Unread(tokens, at + found.begin, at + found.end)
        self.checks.append(Check(self.applications, condition, tokens.texts[error], tokens.bytes[error], tokens.bytes[at]))
        self.due = False

    def take_declaration(self, letters: str, end: int) -> None:
        self.inside = None
        if letters[2] == "k":
            name, byte = self.tokens.texts[self.at], self.tokens.bytes[self.at]
            self.kinds_of_errors[name] = self.tokens.texts[self.at + 2]
            self.errors.append((name, byte))
        self._declared.append((self.at, end))

    def take_head(self, letters: str, end: int) -> bool:
        """The head of a rule or a verification, but of a chained rule, whose head goes on."""
        if letters[0] == "R" and self.tokens.letters.startswith("E", end):
            return False
        self.inside, self.is_chained, self.due = "regle" if letters[0] == "R" else "verif", False, True
        first = self.at + letters.index("A") + 2
        self.applications = self.tokens.texts[first : end - 1 : 2]
        return True


    def _declaration(self, span: tuple[int, int]) -> Declaration:
        """A declaration that was recognized, read."""
        reader = RuleReader(self.tokens[span[0] : span[1]])
        reader.declaration()
        return reader.declarations[0]


def read(content: bytes, tokens: Tokens | None = None) -> tuple[StatementReader, list[Fault]]:
    """The formulas and checks of a file, and all its faults in their order. The tokens may be there already, where no byte is bad."""
    sys.setrecursionlimit(max(sys.getrecursionlimit(), 20_000))
    tokens, faults = tokens_of(content) if tokens is None else (tokens, numbers_too_great(tokens))
    deep = too_deep(tokens)
    reader = StatementReader(tokens)
    if not deep and not any(fault.what == "open string" for fault in faults):
        reader.read_all()
    bad = {fault.byte for fault in faults}
    faults += deep + [fault for fault in reader.faults if not any(0 <= fault.byte - byte < 40 for byte in bad)]
    return reader, sorted(faults, key=lambda fault: fault.byte)
