"""Tables of households by the command `table` of the program m_survey, which prints csv. A table and what is printed of it are in memory."""
from __future__ import annotations

import mmap
import os
import re
import subprocess
from typing import Callable, Sequence

from .answers import LABEL, Printed
from .batches import TABLE_NAME, printed_in
from .errors import Broken, NotFound, Refused
from .guard import Child, memory_file
from .long_tables import columns_of
from .program import ENCODING, Program, ended, raise_for, started

FIRST = ("name", "stop", "notes")
REFUSED = re.compile(r"refused household line ([0-9]+): .*", re.DOTALL)


class Survey:
    """The program m_survey over a source or a code file, by the words that name it in a folder. `original_names` puts the
    original names of the files into a line of the program."""

    def __init__(self, program: Program, words: Sequence[str], folder: str, original_names: Callable[[str], str], timeout: float | None = None):
        self.program, self.words, self.folder, self.original_names, self.timeout = program, list(words), folder, original_names, timeout

    def begun(self, table: bytes) -> Run:
        """Starts the program on a table."""
        return Run(self, table)

    def printed(self, table: bytes) -> Printed:
        """Its output for a table."""
        run = self.begun(table)
        try:
            return run.printed()
        finally:
            run.end()


class Run:
    """The program on a table."""

    def __init__(self, survey: Survey, table: bytes):
        self._survey = survey
        self._files: list[int] = []
        self._child: Child | None = None
        try:
            self._files += [memory_file(name) for name in ("table", "printed", "messages")]
            with open(self._files[0], "wb", closefd=False) as file:
                file.write(table)
            words = [survey.program.path, "table", *survey.words, f"/proc/self/fd/{self._files[0]}"]
            given, printed, messages = self._files
            self._child = started(words, cwd=survey.folder, pass_fds=[given], stdin=subprocess.DEVNULL, stdout=printed, stderr=messages)
        except BaseException:
            self.end()
            raise

    def printed(self) -> Printed:
        """Its whole output, when it has ended; an error where it refuses the table."""
        assert self._child is not None
        status = ended(self._child, self._survey.program, self._survey.timeout)
        try:
            raise_for(b"" if status == 0 else printed_in(self._files[1])[:], status, printed_in(self._files[2])[:])
        except NotFound as missing:
            raise NotFound(self._survey.original_names(str(missing))) from None
        except Refused as refused:
            raise Refused(self._survey.original_names(refused.line).replace(f"/proc/self/fd/{self._files[0]}", TABLE_NAME)) from None
        return printed_in(self._files[1])

    def end(self) -> None:
        """Ends it, and closes its files."""
        if self._child is not None and self._child.poll() is None:
            self._child.kill()
            self._child.wait()
        while self._files:
            os.close(self._files.pop())


def body_of(printed: Printed, names: Sequence[str]) -> bytes | mmap.mmap:
    """An output whose first line has these names; else an error."""
    line = ",".join([*FIRST, *names]).encode(ENCODING) + b"\n"
    if printed[: len(line)] != line or printed[-1:] != b"\n":
        raise Broken(f"m_survey printed something else than the csv of {', '.join(names)}")
    return printed


def values_of(printed: Printed, names: Sequence[str], count: int) -> dict[str, list[str]]:
    """The texts of values by their names, and of stops by `stop`, as they are printed for so many households with the label `~`."""
    text = body_of(printed, names)[:]
    head = [*FIRST, *names]
    text = text[text.index(b"\n") + 1 :]
    if text.count(b"\n") != count:
        raise Broken(f"{text.count(10)} answers for {count} households")
    try:
        columns = columns_of(text, count, head, "an answer")
    except Refused:
        raise Broken("an answer of another household") from None
    if columns[0].count(LABEL) != count:
        raise Broken("an answer of another household")
    return {name: columns[at] for at, name in enumerate(head) if name not in ("name", "notes")}


def in_table(refused: Refused, before: int) -> Refused:
    """A message about a line of a part, with the line of the whole table, in which so many households precede the part."""
    found = REFUSED.fullmatch(refused.line)
    if found is None or int(found[1]) < 2:
        return refused
    return Refused(refused.line.replace(f"line {found[1]}:", f"line {int(found[1]) + before}:", 1))
