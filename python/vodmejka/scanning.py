"""The tokens of rule files with the faults of their bytes: of a whole file, and of a piece of one."""
from __future__ import annotations

import itertools
import re
import sys
import unicodedata
from typing import Iterable, Iterator

from .grammar import RESERVED
from .item_types import Fault
from .limits import AMOUNT, BRACKET_DEPTH
from .places import decode
from .source import GAP_OR_TOKEN, MARK, QUOTE
from .texts import said
from .tokens import Token, Tokens, scanned

# (a comment ends at its line's end alone, so that a match that fails is no long search)
AFTER_GAPS = re.compile(rb"(?:[ \t\r\n]|#[^\n]*(?=\n|\Z))*(?:" + GAP_OR_TOKEN.pattern.partition(rb"|#[^\n]*)|")[2] + rb")")
CUT_TEXT = re.compile(rb"(?P<text>\"[^\"\n]*)")
LETTERS_BEFORE, LETTERS = re.compile(rb"[A-Za-z0-9_\x80-\xff]*\Z"), re.compile(rb"[A-Za-z0-9_\x80-\xff]*")
STRANGE = re.compile(rb"[\x80-\xff]+|.", re.DOTALL)
SIGNS = {"\u2264": "<=", "\u2265": ">=", "\u2260": "!=", "\u00d7": "*", "\u00f7": "/", "\u2212": "-", "\u2013": "-", "\u2014": "-"}
BLANKS = "\u00a0\u202f\u2009\u2007\ufeff\u200b"
# How much deeper brackets and conditionals are after a token, by its letter in tokens.py.
DEEPER = {"(": 1, "[": 1, "s": 1, ")": -1, "]": -1, "f": -1, "r": -1}
OPENED = re.compile("[^RV]+")


def quick_tokens(content: bytes, byte: int, tokens: list[Token], most: int = sys.maxsize) -> int:
    """Adds tokens up to the first byte that begins none, until there are so many; gives the byte after the last one."""
    # (a scanner matches where the match before it ended, and never searches: blanks at a file's end are read once)
    matches: Iterator[re.Match[bytes]] = iter(AFTER_GAPS.scanner(content, byte).match, None)  # type: ignore[attr-defined]
    for match in itertools.islice(matches, most - len(tokens)):
        at = match.lastindex or 0
        tokens.append(Token(match.lastgroup or "", match[at].decode("latin-1"), match.start(at)))
        byte = match.end()
    return byte


def of_byte(content: bytes, byte: int, shown: str) -> str:
    """What may help with characters that begin no token."""
    if shown[0] in SIGNS:
        return said("help.writes", right=SIGNS[shown[0]], wrong=shown[0])
    if shown[0] in BLANKS:
        return "a hard blank or another that isn't plain: write a plain one"
    if shown[0] in "'\u2018\u2019\u201c\u201d\u00ab\u00bb`":
        return 'texts stand in " ", and a comment begins with #'
    if shown[0] == "%":
        return "a rate is a number, as 0.1 for ten per cent"
    if shown[0] == ".":
        return "a point stands between digits"
    if ord(shown[0]) < 128:
        return ""
    begun, rest = LETTERS_BEFORE.search(content[max(0, byte - 60) : byte]), LETTERS.match(content, byte)
    word = (begun[0] if begun else b"") + (rest[0] if rest else b"")
    bare = "".join(letter for letter in unicodedata.normalize("NFD", decode(word)) if letter.isascii())
    return said("help.no_accents", word=bare) if bare in RESERVED else "accented letters stand in texts and comments only"


def tokens_of(content: bytes) -> tuple[Tokens, list[Fault]]:
    """The tokens of a file, and the faults of its bytes. After a byte that begins none the reading goes on."""
    if content[:2] in (b"\xff\xfe", b"\xfe\xff"):
        return Tokens(""), [Fault("bad byte", 0, "the mark of UTF-16", (), "the file is UTF-16: save it as UTF-8")]
    faults: list[Fault] = []
    if content.startswith(MARK):
        faults.append(Fault("bad byte", 0, "a byte order mark", (), "save the file without a byte order mark; a household may have one, a rule file not"))
    tokens = scanned(content, len(MARK) if faults else 0)
    bad = tokens.bad()
    tokens = tokens.without_bad()
    for byte, text in bad:
        faults.append(bad_fault(content, byte, text))
        if text == QUOTE:
            break
    return tokens, sorted(faults + numbers_too_great(tokens), key=lambda fault: fault.byte)


def bad_fault(content: bytes, byte: int, text: str) -> Fault:
    """The fault of bytes that begin no token."""
    if text == QUOTE:
        return Fault("open string", byte, '"', (), "the text is never closed; all after it is text")
    shown = decode(text.encode("latin-1"))
    return Fault("bad byte", byte, shown, (), of_byte(content, byte, shown))


def numbers_too_great(tokens: Tokens) -> list[Fault]:
    """The faults of numbers above the greatest amount in a file."""
    return too_great(tokens) if tokens.has_long_numbers else []


def too_great(tokens: Iterable[Token]) -> list[Fault]:
    """The faults of numbers above the greatest amount."""
    return [Fault("number too great", token.byte, token.text, (), said("help.greatest", number=AMOUNT))
            for token in tokens if token.kind == "number" and len(token.text) > 13 and float(token.text) > AMOUNT]


def take_tokens(
    content: bytes, byte: int, tokens: list[Token], faults: list[Fault], most: int = sys.maxsize, is_cut: bool = False
) -> int:
    """Adds the tokens from a byte on, until there are so many, and the faults of the bytes among them. Gives the byte after them. With `is_cut` a text
    that isn't closed in its line ends there, so that the tokens after it can be read."""
    while byte < len(content) and len(tokens) < most:
        if not is_cut:
            known = len(tokens)
            byte = quick_tokens(content, byte, tokens, most)
            faults += too_great(tokens[known:])
            if byte == len(content) or len(tokens) == most:
                return byte
        piece = GAP_OR_TOKEN.match(content, byte)
        if is_cut and content[byte : byte + 1] == b'"' and (piece is None or b"\n" in piece[0]):
            piece = CUT_TEXT.match(content, byte)
        if piece is None and content[byte : byte + 1] == b'"':
            faults.append(bad_fault(content, byte, QUOTE))
            return len(content)
        if piece is None:
            strange = STRANGE.match(content, byte)
            end = byte + 1 if strange is None else strange.end()
            faults.append(bad_fault(content, byte, content[byte:end].decode("latin-1")))
            byte = end
            continue
        if piece.lastgroup != "gap":
            token = Token(piece.lastgroup or "", piece[0].decode("latin-1"), byte)
            faults += too_great([token])
            tokens.append(token)
        byte = piece.end()
    return byte


def too_deep(tokens: Tokens) -> list[Fault]:
    """The first token at which brackets and conditionals are too deep. At `regle` and `verif` none is open."""
    for part in OPENED.finditer(tokens.letters):
        letters = part[0]
        if letters.count("(") + letters.count("[") + letters.count("s") <= BRACKET_DEPTH:
            continue
        depth = 0
        for at, letter in enumerate(letters, part.start()):
            depth = max(0, depth + DEEPER.get(letter, 0))
            if depth > BRACKET_DEPTH:
                return [deep_fault(tokens[at])]
    return []


def deep_fault(token: Token) -> Fault:
    return Fault("too deep", token.byte, token.text, (), "give a part of the formula a variable of its own")
