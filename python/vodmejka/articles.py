"""Articles of law in comments and descriptions, as links: patterns with the addresses that their matches lead to."""
from __future__ import annotations

import re
import urllib.parse
from typing import NamedTuple

from .plain_pages import escaped

FORM = re.compile(r"(.+?)=(https?://.+)", re.DOTALL)


class BadPattern(Exception):
    """Words that are no pattern with an address."""


class Article(NamedTuple):
    """A pattern, and an address in which \\1 denotes its first group."""

    pattern: re.Pattern
    address: str

    def link(self, match: re.Match) -> str:
        """The address of a match: groups are quoted in it as parts of an address."""
        quoted = lambda group: urllib.parse.quote(match[int(group[1])] or "", safe="") if int(group[1]) <= self.pattern.groups else ""
        return re.sub(r"\\([0-9])", quoted, self.address)


def article_of(words: str) -> Article:
    """`PATTERN=URL`, of which the address begins with http:// or https://."""
    match = FORM.fullmatch(words)
    try:
        if match is None:
            raise BadPattern(words)
        return Article(re.compile(match[1]), match[2])
    except re.error as fault:
        raise BadPattern(f"{words}: {fault}") from fault


def linked(text: str, articles: list[Article]) -> str:
    """The markup of a text, with a link where a pattern matches; the first pattern that matches at a place is taken."""
    pieces, at = [], 0
    matches = sorted(((match.start(), number, match) for number, article in enumerate(articles) for match in article.pattern.finditer(text) if match[0]),
                     key=lambda found: found[:2])
    for begin, number, match in matches:
        if begin < at:
            continue
        pieces += [escaped(text[at:begin]), f'<a rel="noreferrer" href="{escaped(articles[number].link(match))}">{escaped(match[0])}</a>']
        at = match.end()
    return "".join(pieces) + escaped(text[at:])
