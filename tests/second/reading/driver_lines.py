"""The lines of a driver with their tokens, and how deep they are."""

import re
from typing import List, NamedTuple

from .amounts import OVER, read_amount
from .faults import at_driver_line
from .texts import NUMBER, WORD, lines_of

RESERVED = set(b"del if else partition with and or not present cast exists".split())
MOST_LEVEL = 64
MOST_BRACKETS = 256

TOKEN = re.compile(
    rb"(?P<word>" + WORD + rb")|(?P<number>" + NUMBER + rb")|(?P<sign>==|!=|<=|>=|<-|[-()\[\],:=<>+*/])"
)


class DriverToken(NamedTuple):
    """A token: its kind (`word`, `key` for a reserved word, `number`, `sign`), its bytes, of a number the amount."""

    kind: str
    text: bytes
    amount: int = 0


class Line(NamedTuple):
    """A line with tokens: its number from 1, its indentation and its tokens."""

    number: int
    indent: int
    tokens: List[DriverToken]


def driver_lines(text):
    """The lines of a driver that have tokens, or the refusal of the first bad or too deep one."""
    lines = []
    for number, line in enumerate(lines_of(text), 1):
        tokens = tokens_of_line(number, line)
        if tokens:
            lines.append(Line(number, len(line) - len(line.lstrip(b" ")), tokens))
    look_for_depth(lines)
    return lines


def tokens_of_line(number, line):
    """The tokens of a line: only spaces are between them, and a comment after them."""
    tokens = []
    at = 0
    while at < len(line) and line[at:at + 1] != b"#":
        if line[at:at + 1] == b" ":
            at += 1
            continue
        match = TOKEN.match(line, at)
        if match is None:
            raise at_driver_line(number, b"bad token")
        kind = match.lastgroup
        amount = read_amount(match.group()) if kind == "number" else 0
        if amount is OVER:
            raise at_driver_line(number, b"bad token")
        if kind == "word" and match.group() in RESERVED:
            kind = "key"
        tokens.append(DriverToken(kind, match.group(), amount))
        at = match.end()
    return tokens


def look_for_depth(lines):
    """Refuses the first line that has too many outer lines, or in which too many brackets are open."""
    outer = []
    for line in lines:
        while outer and outer[-1] >= line.indent:
            outer.pop()
        if len(outer) > MOST_LEVEL or most_open(line.tokens) > MOST_BRACKETS:
            raise at_driver_line(line.number, b"too deep")
        outer.append(line.indent)


def most_open(tokens):
    """The most brackets that are open at once in a line; a closing one without an open one closes none."""
    most = 0
    opened = 0
    for token in tokens:
        if token.kind == "sign" and token.text in (b"(", b"["):
            opened += 1
            most = max(most, opened)
        elif token.kind == "sign" and token.text in (b")", b"]"):
            opened = max(0, opened - 1)
    return most
