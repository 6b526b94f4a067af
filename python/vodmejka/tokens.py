"""The tokens of a rule file as parallel sequences: texts, first bytes, and a string with one letter for the class of each. A `Token` is made only on request.

The letters are what the grammar distinguishes: statements with the same letters are alike to it, whatever their names and numbers.
"""
from __future__ import annotations

import itertools
import re
from dataclasses import dataclass
from typing import Iterator, Sequence, overload

BLANKS = " \t\r\n"
PIECE = re.compile(
    r"(?:[A-Za-z_][A-Za-z0-9_]*|[0-9]+\.[0-9]+|[0-9]+(?![A-Za-z0-9_])|[0-9][A-Za-z0-9_]*|[-+*/()\[\],;:]|\"[^\"]*\"|\.\.|[!<>]=|[=<>]|#[^\n]*"
    r"|[\x80-\xff]+|[^\x80-\xff])[ \t\r\n]*"
)
TEXT, WHOLE, NUMBER, CELL, LETTER, NAME, WORD, BAD = '"', "0", "1", "X", "i", "N", "n", "?"
CLASSES = {
    "regle": "R", "verif": "V", "application": "A", "enchaineur": "E", "si": "s", "alors": "a", "sinon": "e", "finsi": "f", "erreur": "r", "saisie": "I",
    "calculee": "C", "const": "K", "tableau": "T", "alias": "L", "type": "t", "pour": "p", "un": "u", "dans": "d", "et": "&", "ou": "|", "non": "!",
    "somme": "S", "present": "g", "positif": "g", "positif_ou_nul": "g", "null": "g", "arr": "g", "inf": "g", "abs": "g", "max": "h", "min": "h",
    "anomalie": "k", "discordance": "k", "informative": "k", "X": CELL,
    "..": "~", "!=": "<", "<=": "<", ">=": "<", ">": "<", "/": "*",
    **{sign: sign for sign in "-+*=<()[],;:"},
}
KINDS = {TEXT: "text", WHOLE: "number", NUMBER: "number", **dict.fromkeys((LETTER, NAME, WORD), "word"),
         **{letter: "word" if word[0].isalpha() else "sign" for word, letter in CLASSES.items()}}
WORDS = frozenset(letter for letter, kind in KINDS.items() if kind == "word")
INDEXED = re.compile(r"[Nni](?=\[)")
IS_WORD = bytes(chr(k) in (LETTER, NAME, WORD) for k in range(256))
IS_ONE = bytes(k == 1 for k in range(256))
MOST_DIGITS = 9  # of a whole number in the grammar
SHORT = 13  # the most characters of a number that can't be above the greatest amount


@dataclass(slots=True)
class Token:
    kind: str
    text: str
    byte: int


def class_of(text: str) -> str:
    """The letter of a token that isn't in CLASSES, or BAD of bytes that begin none."""
    first = text[0]
    if "A" <= first <= "Z":
        return NAME if text.upper() == text else WORD
    if first == '"':
        return TEXT if len(text) > 1 else BAD
    if "0" <= first <= "9" and text.replace(".", "", 1).isdigit():
        return WHOLE if len(text) <= MOST_DIGITS and "." not in text else NUMBER
    if first.isascii() and (first.isalnum() or first == "_"):
        return NAME if text.upper() == text else LETTER if len(text) == 1 else WORD
    return BAD


class Letters(dict[str, str]):
    """The letter of each distinct token."""

    def __missing__(self, text: str) -> str:
        letter = self[text] = class_of(text)
        return letter


class Pieces(dict[str, str]):
    """The class of each distinct piece, which is a token with the blanks after it; a comment has none. `texts` has the tokens without blanks."""

    def __init__(self) -> None:
        super().__init__()
        self.texts: dict[str, str] = {}
        self.letters = Letters(CLASSES)
        self.has_comments = self.has_long_numbers = False

    def __missing__(self, piece: str) -> str:
        text = self.texts[piece] = piece.rstrip(BLANKS)
        letter = self[piece] = self.letters[text] if piece[0] != "#" else ""
        if letter == "":
            self.has_comments = True
        elif letter == NUMBER and len(text) > SHORT:
            self.has_long_numbers = True
        return letter


class Tokens(Sequence[Token]):
    """The tokens of a text from a byte on: `texts`, the byte where each begins, and `letters`, the class of each. `end` is the byte after the last piece.
    Bytes that begin no token have the class BAD, until `without_bad` leaves them out."""

    def __init__(self, text: str, begin: int = 0):
        begin += len(text) - begin - len(text[begin:].lstrip(BLANKS))
        pieces, classes = PIECE.findall(text, begin), Pieces()
        letters = list(map(classes.__getitem__, pieces))
        self.letters = "".join(letters)
        self.texts = list(map(classes.texts.__getitem__, pieces))
        self.bytes = list(itertools.accumulate(map(len, pieces), initial=begin))
        self.end = self.bytes.pop()
        self._names = self._tables = b""
        self.has_long_numbers = classes.has_long_numbers
        if classes.has_comments:
            self._keep(letters)

    def _keep(self, flags: Sequence[object]) -> None:
        """Leaves out the texts and bytes whose flag is false or empty."""
        self.texts = list(itertools.compress(self.texts, flags))
        self.bytes = list(itertools.compress(self.bytes, flags))

    def bad(self) -> list[tuple[int, str]]:
        """The byte and the text of each piece that is no token."""
        return [(self.bytes[match.start()], self.texts[match.start()]) for match in re.finditer(re.escape(BAD), self.letters)]

    def without_bad(self) -> Tokens:
        """Leaves out what is no token, and all from an open string on."""
        if BAD in self.letters:
            first = next((k for k, letter in enumerate(self.letters) if letter == BAD and self.texts[k] == '"'), len(self.letters))
            self._keep([letter != BAD and k < first for k, letter in enumerate(self.letters)])
            self.letters = self.letters[:first].replace(BAD, "")
        return self

    def __len__(self) -> int:
        return len(self.letters)

    @overload
    def __getitem__(self, at: int) -> Token: ...

    @overload
    def __getitem__(self, at: slice) -> list[Token]: ...

    def __getitem__(self, at: int | slice) -> Token | list[Token]:
        if isinstance(at, slice):
            return [Token(KINDS[letter], text, byte) for letter, text, byte in zip(self.letters[at], self.texts[at], self.bytes[at])]
        return Token(KINDS[self.letters[at]], self.texts[at], self.bytes[at])

    def __iter__(self) -> Iterator[Token]:
        return (Token(KINDS[letter], text, byte) for letter, text, byte in zip(self.letters, self.texts, self.bytes))

    def names(self, begin: int, end: int) -> Iterator[str]:
        """The words that aren't reserved, from a token to a token, and have no index."""
        if not self._names:
            self._names = INDEXED.sub(".", self.letters).encode().translate(IS_WORD)
        return itertools.compress(self.texts[begin:end], self._names[begin:end])

    def tables(self, begin: int, end: int) -> Iterator[str]:
        """The words with an index, from a token to a token."""
        if not self._tables:
            self._tables = INDEXED.sub("\x01", self.letters).encode().translate(IS_ONE)
        return itertools.compress(self.texts[begin:end], self._tables[begin:end])

    def after(self, at: int, sign: str = ";") -> int:
        """The number after the next token of a class, from a number on; one more than there are tokens where there is none."""
        return (self.letters.find(sign, at) + 1) or len(self.letters) + 1


def scanned(content: bytes, begin: int = 0) -> Tokens:
    """The tokens of the bytes of a file."""
    return Tokens(content.decode("latin-1"), begin)
