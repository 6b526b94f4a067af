"""Rules, a household and a driver that are read once and copied into a folder: the program computes the copies, whatever happens to the files meanwhile."""
from __future__ import annotations

import contextlib
import os
import re
import subprocess
import tempfile
from typing import IO, Iterable

from . import runs, source
from .endings import Wrong
from .reasons import Rules
from .texts import said


class Stopped(Exception):
    """A run that a verification or a condition of the driver stops: its line, and the text of the error."""

    def __init__(self, line: str, text: str):
        super().__init__(f"{line}: {text}" if text else line)
        self.line, self.text = line, text


class RuleCopies:
    """Copies of rule files in a folder, with a list of them; `names` has the name of each file by the path of its copy."""

    def __init__(self, application: str, contents: Iterable[tuple[str, bytes]], room: str):
        self.room, self.application = room, application
        self.names = {self.put(f"rules-{number:06}.m", content): name for number, (name, content) in enumerate(contents, 1)}
        self.list = self.list_of(self.names)

    def put(self, name: str, content: bytes) -> str:
        """Writes a file of the folder."""
        path = os.path.join(self.room, name)
        source.put(path, content)
        return path

    def list_of(self, paths: Iterable[str], name: str = "rules.list") -> str:
        """Writes a list of rule files."""
        return self.put(name, os.fsencode("\n".join([self.application, *paths, ""])))

    def told(self, line: str) -> str:
        """A line of the program, with the names of the files as they are."""
        return re.sub(re.escape(self.room) + r"/rules-[0-9]{6}\.m\b", lambda match: self.names.get(match[0], match[0]), line)


class Copies(RuleCopies):
    """Copies of rules, a household and a driver. `household` and `driver` are bytes; without a driver the rules are called once."""

    def __init__(self, rules: Rules, household: bytes, room: str, driver: bytes | None = None):
        super().__init__(rules.application, rules.contents, room)
        self.household = self.put("household.csv", household)
        self.driver = "-" if driver is None else self.put("driver.mpp", driver)

    def ask(self, *words: str, given: bytes | None = None) -> tuple[bytes, int]:
        """What the program prints to these words, and its status; `given` is its standard input."""
        if given is None:
            return printed(*words)
        with open(self.put("input", given), "rb") as stdin:
            return printed(*words, stdin=stdin)

    def values(self, cells: list[str], driver: str | None = None, household: str | None = None) -> dict[str, str]:
        """The values of cells after a run, as the program prints them: `= 3`, `undefined` or `over`."""
        requests = self.put("requests.txt", "".join(cell + "\n" for cell in cells).encode("utf-8", "surrogateescape"))
        text, status = self.ask("run", self.list, driver or self.driver, requests, household or self.household)
        lines = text.decode("latin-1").split("\n")
        if status == 6:
            raise Stopped(lines[0], text_of_error(lines))
        if status != 0:
            line = self.told(runs.fault_of(text, status))
            raise Wrong(said("why.no_name", line=line) if line.startswith("refused requests line") else line, 3 if status == 3 else 1)
        values = lines[:-1][-len(cells) :] if cells else []
        if [line.split(" ")[0] for line in values] != cells:
            raise Wrong(said("why.no_lines"))
        return dict(line.split(" ", 1) for line in values)

    def reported(self, cell: str) -> dict[str, str]:
        """The report of a cell by a session, also if a verification stops the call; nothing if no cell has the name."""
        text, status = self.ask("serve", self.list, "-", "-", self.household, given=f"why {cell}\n".encode("utf-8", "surrogateescape"))
        lines = text.decode("latin-1").split("\n")
        if status != 0 or len(lines) < 3 or lines[-2] != "." or lines[-3].split(" ")[0] != cell:
            return {}
        return dict(line.split(" ", 1) for line in lines[:-2])

    def value_unstopped(self, cell: str) -> str | None:
        """The value of a cell after one call of the rules, also if a verification stops that call; nothing if no cell has the name."""
        return self.reported(cell).get(cell)


def printed(*words: str, stdin: int | IO[bytes] = subprocess.DEVNULL, folder: str | None = None) -> tuple[bytes, int]:
    """What the program prints to these words, perhaps in a folder, and its status. Where it can't be started the command ends."""
    try:
        return runs.printed(*words, stdin=stdin, folder=folder)
    except OSError as fault:
        raise Wrong(f"{runs.program_path()}: {fault.strerror}", 3) from fault


def text_of_error(lines: list[str]) -> str:
    """The text of the error of a stopped run; a condition has none."""
    return lines[1] if lines[0].startswith("failed") and len(lines) > 1 else ""


@contextlib.contextmanager
def copied(list_name: str, household: str, driver: str | None = None):
    """The rules of a list, and copies of all."""
    rules = Rules(list_name)
    with tempfile.TemporaryDirectory(prefix="copies-") as room:
        yield rules, Copies(rules, source.fetch(household), room, None if driver is None or driver == "-" else source.fetch(driver))
