"""The standard error of the tools."""
import os
from typing import Any, TextIO


class Messages:
    """The standard error. What can't be written there, as on a full disk, is dropped: it is no reason for another status."""

    def __init__(self, stream: TextIO) -> None:
        self.stream = stream

    def write(self, text: str) -> int:
        try:
            self.stream.write(text)
            self.stream.flush()
        except OSError:
            os.dup2(os.open(os.devnull, os.O_WRONLY), 2)
        return len(text)

    def flush(self) -> None:
        """Each piece is written at once."""

    def __getattr__(self, name: str) -> Any:
        return getattr(self.stream, name)
