"""One layout of rule files and drivers: blanks, indentation and line ends. Tokens and comments stay as they are, and where an author broke a formula, too."""
from __future__ import annotations

import re
from typing import NamedTuple

from .. import drivers, items, source
from ..grammar import OF_ONE, OF_TWO, RESERVED
from .occurrences import tokens_in
from .pieces import Piece, RuleText
from .texts import encoding_of

FUNCTIONS = {*OF_ONE, *OF_TWO, "somme"}
DEEPER = {"(", "[", "si"}
CLOSERS = {")", "]", "finsi"}
MIDDLES = {"alors", "sinon"}
STEP = "  "


class Row(NamedTuple):
    """A line: its code with its indentation, and the comment after it or alone. Both are the file's bytes as Latin-1 letters."""

    code: str = ""
    comment: str = ""


def laid_out(content: bytes, is_driver: bool) -> bytes:
    """A file in the one layout. One with a fault of tokens or grammar is refused with its place."""
    made = laid_out_driver(content) if is_driver else laid_out_rules(content)
    if meaning(made, is_driver) != meaning(content, is_driver):
        raise AssertionError("the layout would change the meaning")
    return made


def meaning(content: bytes, is_driver: bool) -> object:
    """The tokens and the comments of a file; of a driver also the nesting of its lines."""
    if is_driver:
        driver = drivers.Driver(content)
        lines = [line.split(b"#", 1) for line in source.lines_of(content)]
        comments = [line[1].strip() for line in lines if len(line) > 1]
        return [(level, [token.text for token in line.tokens]) for level, line in levels_of(driver)], comments
    tokens, _ = items.tokens_of(content)
    ends = [0, *(token.byte + len(token.text) for token in tokens)]
    gaps = [content[end:begin] for end, begin in zip(ends, [*(token.byte for token in tokens), len(content)])]
    return [(token.kind, token.text) for token in tokens], [found.strip() for gap in gaps for found in re.findall(rb"#[^\n]*", gap)]


# ---- rule files


def laid_out_rules(content: bytes) -> bytes:
    text = RuleText("")
    text.set(content, encoding_of(content))
    while not text.is_whole:
        text.read(1_000)
    faulty = next((piece for piece in text.pieces if piece.faults), None)
    if text.is_cut or faulty is not None:
        fault = items.read(content)[1][0]
        raise source.Refused(f"line {text.line_of(fault.byte) + 1} byte {fault.byte}: {fault.what}")
    return joined(rows_of(text.pieces), content)


def rows_of(pieces: list[Piece]) -> list[Row]:
    rows = Rows()
    for piece in pieces:
        rows.add(piece)
    return rows.rows


class Rows:
    """The lines that were made so far."""

    def __init__(self) -> None:
        self.rows: list[Row] = []
        self.is_blank_due = False

    def add(self, piece: Piece) -> None:
        """Adds a piece: it begins a line of its own, and breaks where it is broken."""
        content, end = piece.text.content[piece.begin : piece.end].decode("latin-1"), 0
        tokens = tokens_in(piece)
        spacing = Spacing(any(token.text == "application" for token in tokens))
        for number, token in enumerate(tokens):
            breaks = self.gap(content[end : token.byte], spacing, number == 0)
            blank = spacing.before(token)
            if number == 0 or breaks:
                if number == 0 and self.is_blank_due and self.rows:
                    self.rows.append(Row())
                self.is_blank_due = False
                indent = "" if number == 0 else STEP * spacing.level(token)
                self.rows.append(Row(indent + token.text))
            else:
                self.rows[-1] = Row(self.rows[-1].code + (" " if blank else "") + token.text)
            spacing.take(token)
            end = token.byte + len(token.text)
        self.gap(content[end:], spacing, not tokens)

    def gap(self, gap: str, spacing: Spacing, is_between: bool) -> bool:
        """Adds the comments of a gap; whether a line ends in it. Between pieces blank lines are kept, one of each run."""
        lines = gap.split("\n")
        for number, line in enumerate(lines):
            line = line.strip(" \t\r")
            if line and number == 0 and self.rows and not self.rows[-1].comment and self.rows[-1].code:
                self.rows[-1] = Row(self.rows[-1].code, line)
            elif line:
                if is_between and self.is_blank_due and self.rows:
                    self.rows.append(Row())
                self.rows.append(Row("" if is_between else STEP * spacing.level(None), line))
                self.is_blank_due = False
            elif is_between and 0 < number < len(lines) - 1:
                self.is_blank_due = True
        return len(lines) > 1


class Spacing:
    """Decides on blanks between the tokens of a piece. `round_it` has what each open bracket is, from the outside: the header of a `pour` or of a `somme`,
    its `values`, or nothing of these."""

    def __init__(self, is_head: bool) -> None:
        self.is_head, self.last, self.is_sign = is_head, "", False
        self.round_it: list[str] = [""]
        self.depth = 0

    def level(self, token: source.Token | None) -> int:
        """How far a line is indented that begins with a token, within a piece."""
        closes = token is not None and token.kind != "text" and token.text in CLOSERS | MIDDLES
        return max(1, 1 + self.depth - closes)

    def before(self, token: source.Token) -> bool:
        """Whether there is a blank before a token."""
        text, last, inside = token.text if token.kind != "text" else '"', self.last, self.round_it[-1]
        if text in (")", "]", "[", "..") or last in ("(", "[", "..") or self.is_sign:
            return False
        if text == "(":
            return last not in FUNCTIONS
        if text == ",":
            return self.is_head
        if last == ",":
            return inside not in ("pour", "somme", "values")
        if inside == "somme" and (text in ("=", ":", ";") or last == "="):
            return False
        return True

    def take(self, token: source.Token) -> None:
        text = token.text if token.kind != "text" else '"'
        if text == "(":
            self.round_it.append("somme" if self.last == "somme" else "values" if self.round_it[-1] else "")
        elif text == "[":
            self.round_it.append("")
        elif text in (")", "]") and len(self.round_it) > 1:
            self.round_it.pop()
        elif text == "pour":
            self.round_it[-1] = "pour"
        elif text == ":" and self.round_it[-1] in ("pour", "somme"):
            self.round_it[-1] = ""
        self.depth += (text in DEEPER) - (text in CLOSERS)
        is_value = token.kind in ("number", "text") or token.kind == "word" and (text not in RESERVED or text in ("X", "finsi")) or text in (")", "]")
        self.is_sign = text == "-" and not self.is_value
        self.is_value, self.last = is_value, text

    is_value = False


# ---- drivers


def laid_out_driver(content: bytes) -> bytes:
    driver = drivers.Driver(content)
    if driver.faults:
        raise source.Refused(f"line {driver.faults[0].line}: {driver.faults[0].what}")
    levels = {line.number: (level, line) for level, line in levels_of(driver)}
    rows: list[Row] = []
    pending: list[str] = []
    for number, line in enumerate(source.lines_of(content), 1):
        comment = line.split(b"#", 1)[1].decode("latin-1").strip(" \t\r") if b"#" in line else None
        if number in levels:
            level, parsed = levels[number]
            rows += [Row(STEP * level if one else "", one) for one in pending]
            rows.append(Row(STEP * level + driver_line(parsed.tokens), "" if comment is None else f"# {comment}".strip()))
            pending = []
        elif comment is not None:
            pending.append(f"# {comment}".strip())
        elif (pending or rows) and (pending or [rows[-1].code])[-1]:
            pending.append("")
    return joined(rows + [Row("", one) for one in pending], content)


def levels_of(driver: drivers.Driver) -> list[tuple[int, drivers.Line]]:
    """The lines with tokens, each with its level."""
    outer: list[int] = []
    found = []
    for line, _ in driver.said:
        while outer and outer[-1] >= line.indent:
            outer.pop()
        found.append((len(outer), line))
        outer.append(line.indent)
    return found


def driver_line(tokens: list[source.Token]) -> str:
    made, last, is_value, is_sign = "", "", False, False
    for token in tokens:
        text = token.text
        calls = token.text == "(" and last not in (drivers.RESERVED - {"present", "cast", "exists"}) and re.fullmatch("[A-Za-z0-9_]+", last)
        blank = not (text in (")", "]", "[", ",", ":") or last in ("(", "[", "") or is_sign or calls)
        made += (" " if blank else "") + text
        is_sign = text == "-" and not is_value
        is_value, last = token.kind == "number" or token.kind == "word" and text not in drivers.RESERVED or text in (")", "]"), text
    return made


# ---- both


def joined(rows: list[Row], content: bytes) -> bytes:
    """The lines as bytes, with comments after code in one column where such lines are consecutive, and the line ends of the file."""
    encoding = encoding_of(content)
    lines: list[str] = []
    at = 0
    while at < len(rows):
        end = at
        while end < len(rows) and rows[end].comment and rows[end].code.strip():
            end += 1
        widths = [len(row.code.rsplit("\n", 1)[-1].encode("latin-1").decode(encoding)) for row in rows[at:end]]
        for row, width in zip(rows[at:end], widths):
            lines.append(row.code + " " * (max(widths) - width + 2) + row.comment)
        if end == at:
            lines.append((rows[at].code + rows[at].comment).rstrip(" ") if rows[at].comment else rows[at].code)
            end += 1
        at = end
    while lines and not lines[-1]:
        lines.pop()
    feed = "\r\n" if re.search(rb"\A[^\n]*\r\n", content) else "\n"
    return "".join(line + feed for line in lines).encode("latin-1")
