"""A text by its lines."""
from __future__ import annotations

import bisect
import re


class Lines:
    """A text by its lines, which have numbers from 1."""

    def __init__(self, content: bytes) -> None:
        self.content = content
        self.feeds = [match.start() for match in re.finditer(b"\n", content)]

    def number(self, byte: int) -> int:
        """The number of the line in which a byte is; a line feed is in the line that it ends."""
        return bisect.bisect_left(self.feeds, byte) + 1

    def begin(self, number: int) -> int:
        """The byte at which a line begins."""
        return self.feeds[number - 2] + 1 if number > 1 else 0

    def line(self, number: int) -> bytes | None:
        """A line without its end, or nothing where there are fewer."""
        if number > len(self.feeds) + 1:
            return None
        end = self.feeds[number - 1] if number <= len(self.feeds) else len(self.content)
        return self.content[self.begin(number) : end].removesuffix(b"\r")
