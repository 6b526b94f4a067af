"""How a command ends: its exceptions, messages and statuses."""
from __future__ import annotations

import contextlib
from typing import Callable, Iterator

from . import source
from .errors import NotFound, Refused, VodmejkaError


class Wrong(Exception):
    """What ends a command: a line, and its status."""

    def __init__(self, text: str, status: int = 1):
        super().__init__(text)
        self.status = status


@contextlib.contextmanager
def files_named(other: str | None = None) -> Iterator[None]:
    """A block in which a fault of a file ends the command with status 3. `other` is named where the fault names no file, as on a full disk."""
    try:
        yield
    except OSError as fault:
        if fault.filename is None and other is None:
            raise
        raise Wrong(f"{fault.filename or other}: {fault.strerror}", 3) from fault


def ended(words: list[str], manual: str | None, work: Callable[[list[str]], int]) -> int:
    """Does the work of a command over its words, or prints its manual for --help. Returns the status, after printing why the work ended."""
    if "--help" in words:
        print(manual, end="")
        return 0
    try:
        return work(words)
    except Wrong as wrong:
        source.say(str(wrong))
        return wrong.status
    except (NotFound, source.Refused) as fault:
        source.say(str(fault))
        return 3
    except VodmejkaError as fault:
        source.say(fault.line if isinstance(fault, Refused) else str(fault))
        return 1
