"""What the tools know of tables of households and of the answers to them: the records of a table, as the program reads them, and the lines of `batch`."""
from __future__ import annotations

import mmap
import os
import re
import stat
from typing import IO, Iterable, Iterator, Sequence, Union

PIECE = 1_048_576
Text = Union[bytes, mmap.mmap]
Pair = tuple[bytes, bytes]
Told = tuple[bytes, list[Pair], list[Pair], "Pair | None"]
"""A label, notes, values, and a stop or nothing."""
MARK = b"\xef\xbb\xbf"

# A field is bytes without a comma and a line end; one that begins with a quote goes on to the next quote that isn't doubled, and then as others do.
FIELD = rb'(?:"[^"]*(?:""[^"]*)*"(?!")[^,\r\n]*|[^",\r\n][^,\r\n]*|)'
FIRST_FIELD = re.compile(FIELD).match
RECORD = re.compile(rb"((" + FIELD + rb")(?:," + FIELD + rb")*)(?:\r\n|\r|\n)")
QUOTED = re.compile(rb'"((?:[^"]|"")*)"(?!")')

AMOUNT = rb"-?[0-9]+(?:\.[0-9]{1,6})?"
VALUE = rb"(?: = " + AMOUNT + rb"| undefined| over)\n"
NAME = rb"([A-Z0-9_]+(?:\[[0-9]{1,4}\])?)"
NAMED = re.compile(NAME + VALUE)
TOLD = re.compile(NAME + rb"(?: =)? ((?<= = )" + AMOUNT + rb"|(?<! = )(?:undefined|over))\n")
HEAD = re.compile(rb"household ([^\n]*)\n")
NOTED = re.compile(rb"noted [^ \n]+ [^ \n]+ (?:discordance|informative)\n")
NOTES = re.compile(rb"(?:" + NOTED.pattern + rb"[^\n]*\n)*")
FAILED = rb"failed [^ \n]+ [^ \n]+ (?:anomalie|discordance|informative)\n"
OVER = rb"over (?:verification [^ \n]+ [^ \n]+|driver line [0-9]+)\n"
STOP = re.compile(FAILED + rb"[^\n]*\n|" + OVER)
STOPPED = re.compile(FAILED + rb"|" + OVER)
AT_ONCE = 200


class Strange(Exception):
    """A line of an answer that `batch` doesn't print there, as where a piece of an answer is lost, or a table without whole records."""


def state(file: IO[bytes]) -> tuple[int, int] | None:
    """What changes when a file is changed while it is read; None of a pipe, which has no other state than what is read of it."""
    told = os.fstat(file.fileno())
    return (told.st_size, told.st_mtime_ns) if stat.S_ISREG(told.st_mode) else None


def unquoted(field: bytes) -> bytes:
    """The content of a field of a record."""
    match = QUOTED.match(field)
    return match[1].replace(b'""', b'"') + field[match.end() :] if match else field


def unlike_a_formula(text: bytes) -> bytes:
    """A text with a sign before it that keeps a spreadsheet from computing it."""
    return b"'" + text if text[:1] in (b"=", b"+", b"-", b"@", b"\t", b"\r") else text


def records(source: IO[bytes], longest: int, is_whole: bool = True) -> Iterator[tuple[bytes, bytes]]:
    """The records of a table, each without its end and with the text of its first field; blank lines are skipped. A record has at most so many bytes. A whole
    table may begin with a byte order mark."""
    for block in blocks(source, longest, is_whole):
        for record in block:
            yield record, unquoted(FIRST_FIELD(record)[0]) if record[:1] == b'"' else record.partition(b",")[0]  # type: ignore[index]


def blocks(source: IO[bytes], longest: int, is_whole: bool = True) -> Iterator[list[bytes]]:
    """The records of a table in lists, each without its end."""
    buffer, at, count, is_first, ended = b"", 0, 0, is_whole, False
    while True:
        match = RECORD.match(buffer, at)
        if match:
            at = match.end()
            if match[1]:
                count += 1
                yield [match[1]]
            continue
        if ended:
            if at < len(buffer):
                raise Strange(f"record {count + 1} has a quote that is never closed")
            return
        if len(buffer) - at > longest:
            raise Strange(f"record {count + 1} has more than {longest:,} bytes, or a quote that is never closed")
        more = source.read(PIECE)
        buffer, at = buffer[at:] + more, 0
        if is_first and len(buffer) >= len(MARK) or not more:
            at = len(MARK) if is_first and buffer.startswith(MARK) else 0
            is_first = False
        if not more:
            ended = True
            if at < len(buffer) and not buffer.endswith((b"\r", b"\n")):
                buffer += b"\n"
        end = buffer.rfind(b"\n") + 1
        if not is_first and end > at and b'"' not in buffer and b"\r" not in buffer:
            # (without quotes and carriage returns each line is a record)
            lines = [line for line in buffer[at : end - 1].split(b"\n") if line]
            count += len(lines)
            yield lines
            at = end


def households_of(lines: Iterable[bytes]) -> Iterator[Told]:
    """The records of `answers`, without a look at the names."""
    label: bytes | None = None
    notes: list[Pair] = []
    pairs: list[Pair] = []
    numbered = enumerate(lines, 1)

    def text() -> bytes:
        at, told = next(numbered, (number + 1, b""))
        if not told.endswith(b"\n"):
            raise Strange(f"line {at} is cut off")
        return told[:-1]

    for number, line in numbered:
        value = TOLD.match(line)
        if value and label is not None:
            pairs.append((value[1], value[2]))
        elif not line.endswith(b"\n"):
            raise Strange(f"line {number} is cut off")
        elif line.startswith(b"household "):
            if label is not None:
                yield label, notes, pairs, None
            label, notes, pairs = line[10:-1], [], []
        elif label is not None and not pairs and NOTED.fullmatch(line):
            notes.append((b" ".join(line.split(b" ")[1:3]), text()))
        elif label is not None and not pairs and not notes and STOPPED.fullmatch(line):
            yield label, [], [], (line[:-1], text() if line.startswith(b"failed") else b"")
            label = None
        else:
            raise Strange(f"line {number} is no line of households: {line[:-1].decode('utf-8', 'replace')}")
    if label is not None:
        yield label, notes, pairs, None


def answers(lines: Iterable[bytes], names: list[bytes] | None = None) -> Iterator[Told]:
    """Each household of the lines of a batch: its label, its notes, its values as pairs of a name and an amount, `undefined` or `over`, and its stop, which is
    a line and a text, or None. All that aren't stopped have values of the same names, those that are given or else the first's."""
    others = "the first" if names is None else "those asked for"
    for label, notes, pairs, stop in households_of(lines):
        own = [name for name, _ in pairs]
        if stop is None and names is None:
            names = own
        if stop is None and own != names:
            raise Strange(f"the household {label.decode('utf-8', 'replace')} has other values than {others}")
        yield label, notes, pairs, stop


def values_of(names: Sequence[bytes]) -> list[re.Pattern[bytes]]:
    """The forms that the lines of these values have, a few hundred lines to a form."""
    lines = [re.escape(name) + VALUE for name in names]
    return [re.compile(b"".join(lines[k : k + AT_ONCE])) for k in range(0, len(lines), AT_ONCE)]


def whole_form(names: Sequence[bytes]) -> re.Pattern[bytes]:
    """The form of a household's lines where all is as it must be: its label, and its stop, which is the second group, or its notes and values."""
    lines = b"".join(re.escape(name) + VALUE for name in names)
    return re.compile(HEAD.pattern + b"(?:(" + STOP.pattern + b")|" + NOTES.pattern + lines + b")")


def strange(text: Text, at: int) -> Strange:
    """The error of an invalid answer, at the first line at or after this byte."""
    number = text[:at].count(b"\n") + 1
    line = text[at : at + 80].split(b"\n")[0].decode("utf-8", "replace")
    return Strange(f"line {number} or one of the same household isn't what batch prints there: {line}")


class Forms:
    """The forms of a household's lines with values of some names: `whole` that of all lines, where the names are few, and `parts` those of the values."""

    def __init__(self, names: list[bytes]):
        self.names, self.parts = names, values_of(names)
        self.whole = whole_form(names) if len(names) <= AT_ONCE else None


def read_answer(path: str, names: list[bytes] | None = None) -> tuple[list[bytes], list[bytes] | None, int]:
    """The labels of an answer of `batch`, the names of its values, where they aren't given, and how many households stopped. Each household has its notes
    and then a line for each name, in one order, or a stop and nothing else."""
    labels: list[bytes] = []
    stops = 0
    forms = None if names is None else Forms(names)
    with open(path, "rb") as file:
        if os.fstat(file.fileno()).st_size == 0:
            return labels, names, stops
        with mmap.mmap(file.fileno(), 0, access=mmap.ACCESS_READ) as text:
            at = 0
            while at < len(text):
                found = forms.whole.match(text, at) if forms is not None and forms.whole is not None else None
                if found:
                    labels.append(found[1])
                    stops += found[2] is not None
                    at = found.end()
                    continue
                head = HEAD.match(text, at)
                if head is None:
                    raise strange(text, at)
                labels.append(head[1])
                stop = STOP.match(text, head.end())
                if stop:
                    stops += 1
                    at = stop.end()
                    continue
                at, forms = end_of_values(text, head.end(), forms)
    return labels, names if forms is None else forms.names, stops


def end_of_values(text: Text, at: int, forms: Forms | None) -> tuple[int, Forms]:
    """Where the notes and values of a household that isn't stopped end, and the forms of the values; where none are given, those of the names here."""
    notes = NOTES.match(text, at)
    at = at if notes is None else notes.end()
    forms = forms or Forms(names_at(text, at))
    for form in forms.parts:
        found = form.match(text, at)
        if found is None:
            raise strange(text, at)
        at = found.end()
    return at, forms


def names_at(text: Text, at: int) -> list[bytes]:
    """The names of the lines of values here."""
    names = []
    while found := NAMED.match(text, at):
        names.append(found[1])
        at = found.end()
    return names
