"""The texts of a source: a list with its rule files, a driver and requests."""
from __future__ import annotations

import os
from typing import NamedTuple

from .errors import NotFound
from .limits import FILE_BYTES, LIST_FILES, RULE_BYTES
from .program import digest_of


def fetched(name: str, longest: int = FILE_BYTES) -> bytes:
    """The bytes of a file; of one that is too long, enough for the program to reject it."""
    try:
        with open(name, "rb") as file:
            return file.read(longest + 1)
    except (OSError, ValueError) as fault:  # (a name with a zero byte is none)
        raise NotFound(f"unreadable {name}") from fault


def fetched_rules(names: list[str]) -> list[tuple[str, bytes]]:
    """The rule files of a list, each with its bytes; of what the program doesn't read, since there are too many names or bytes before, none."""
    rules, left = [], RULE_BYTES if len(names) <= LIST_FILES else -1
    for name in names:
        content = fetched(name, min(FILE_BYTES, left)) if left >= 0 else b""
        rules.append((name, content))
        left -= len(content) if len(content) <= FILE_BYTES else left + 1
    return rules


def named(content: bytes) -> list[str]:
    """The names of the rule files of a list, whose first line is the application."""
    lines = content.replace(b"\r\n", b"\n").split(b"\n")[1:]
    return [os.fsdecode(line) for line in lines if line]


class Sources(NamedTuple):
    """The texts of a source: the list, the rule files with their names, the driver and the requests."""

    listing: bytes
    rules: list[tuple[str, bytes]]
    driver: bytes | None
    requests: bytes | None

    def digest(self) -> str:
        """The digest of all that an answer depends on, but for the program."""
        given = (b"none" if text is None else b"some" + text for text in (self.driver, self.requests))
        return digest_of(self.listing, *(text for _, text in self.rules), *given)
