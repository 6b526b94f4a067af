"""Lists whose names count from the folder of the list (`--here`), and not from where a command is started."""
from __future__ import annotations

import os

from . import source


def list_here(list_name: str, room: str) -> str:
    """A copy of a list in a folder, whose names count from where the command is started as those of the list do from its own folder."""
    application, names = source.read_list(list_name)
    folder = os.path.dirname(list_name)
    path = os.path.join(room, "here.list")
    lines = [application, *(os.path.join(folder, name) for name in names), ""]
    source.put(path, os.fsencode("\n".join(lines)))
    return path
