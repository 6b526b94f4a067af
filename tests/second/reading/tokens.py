"""The tokens of a rule file, or its first fault."""

import re
from typing import NamedTuple

from .amounts import OVER, read_amount
from .faults import at_place
from .texts import NUMBER, WORD

RESERVED = set(b"""
regle verif application enchaineur si alors sinon finsi erreur saisie calculee const tableau alias type
pour un dans et ou non somme present positif positif_ou_nul null arr inf abs max min anomalie discordance informative X
""".split())

GAP = re.compile(rb"(?:[ \t\r\n]+|#[^\n]*)*")
TOKEN = re.compile(
    rb"(?P<word>" + WORD + rb")|(?P<number>" + NUMBER + rb")"
    rb'|"(?P<text>[^"]*)"|(?P<sign>\.\.|!=|<=|>=|[-+*/=<>()\[\],;:])'
)


class Place(NamedTuple):
    """A place: the file by its position in the list and its name, a line from 1, a byte from 0."""

    file: int
    file_name: bytes
    line: int
    byte: int


class Token(NamedTuple):
    """A token: its kind (`word`, `key` for a reserved word, `number`, `text`, `sign`), its bytes, a number's amount."""

    kind: str
    text: bytes
    place: Place
    amount: int = 0


def tokens_of(file, file_name, text):
    """The tokens of a rule file, which is the one at this position of the list."""
    tokens = []
    at = 0
    line = 1
    while True:
        behind = GAP.match(text, at).end()
        line += text.count(b"\n", at, behind)
        at = behind
        if at == len(text):
            return tokens
        place = Place(file, file_name, line, at)
        match = TOKEN.match(text, at)
        if match is None:
            raise at_place(place, b"open string" if text[at:at + 1] == b'"' else b"bad byte")
        kind = match.lastgroup
        spelling = match.group(kind)
        amount = 0
        if kind == "word" and spelling in RESERVED:
            kind = "key"
        elif kind == "number":
            amount = read_amount(spelling)
            if amount is OVER:
                raise at_place(place, b"number too great")
        tokens.append(Token(kind, spelling, place, amount))
        line += spelling.count(b"\n")
        at = match.end()
