"""The commands: one module each, whose `main` takes the words after the name of the command and answers its status."""
from __future__ import annotations

import gc
import importlib
import os
import pkgutil
import sys

from .. import source

TOP = os.path.dirname(os.path.dirname(os.path.dirname(os.path.realpath(__file__))))


READERS = ("explain", "slips", "why")  # they read rules once, and what they made is in use until they end


def names() -> list[str]:
    """The names of the commands."""
    return sorted(found.name.replace("_", "-") for found in pkgutil.iter_modules(__path__) if not found.name.startswith("_"))


def run(name: str) -> None:
    """Runs a command over the words of the command line, and ends with its status."""
    if name in READERS:
        gc.disable()
    command = importlib.import_module(f"{__name__}.{name.replace('-', '_')}")
    source.end(name, lambda: command.main(sys.argv[1:]))


def started(name: str) -> list[str]:
    """The words that start a command as a process of its own, wherever this package is."""
    return [sys.executable, "-B", "-c", f"import sys; sys.path.insert(0, {TOP!r}); from vodmejka.commands import run; run({name!r})"]
