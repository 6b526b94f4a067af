"""Turns the output of `batch` into a csv table: a row for each household, a column for each request.

    m_tax batch LIST DRIVER REQUESTS TABLE | table-out --of TABLE [--french] [--bare] [--requests REQUESTS | --list LIST] > FILE

The columns are `name`, the requests in their order, `undefined` and `over` (the requests that are so, with a blank between; their fields
are empty), `notes` (the verifications that were noted, as `2000 A20`, with `; ` between), `stop` (the line of the verification or condition that stopped
the run; all other fields are empty) and `text` (the error's text). All is UTF-8; labels and texts that aren't are taken as Latin-1.

    --of TABLE           checks that the output has the households of the table, each once and in their order: else one that was cut off between two households
                         can't be distinguished from a whole one
    --french             for French Excel and LibreOffice: `;` between fields, decimal commas, carriage returns, and a byte order mark
    --bare               leaves labels and texts as they are, for programs; else one that begins with = + - @ has a ' before it, since spreadsheets
                         take it as a formula
    --requests FILE      the columns are those of this request file; --list LIST: the returned variables of this list. The first answer has them
                         too, so this is for outputs in which all households stopped

The status is 0; 1 where the input is no whole output of `batch`, as an error line, one that was cut off, one without households or one of another table; 2
for wrong words; 3 where a file can't be read; 4 where the output was closed. Where it isn't 0 don't use what was printed.
"""
import itertools
import re
import sys

from .. import records, source
from ..endings import Wrong, ended
from ..records import Strange

BYTES = 16_777_216  # the longest record of a table

def rows(found, french, names, guarded):
    """The fields of each household. Where the names aren't given the first answer has them, and what stops before it waits for them."""
    waiting, is_empty = [], True
    for label, notes, pairs, stop in found if names is None else ():
        waiting.append((label, notes, pairs, stop))
        if stop is None:
            names = [name for name, _ in pairs]
            break
    if names is None:
        raise Strange("all households stopped, so nothing tells the columns: give --requests REQUESTS or --list LIST" if waiting else "no households")
    yield [b"name", *names, b"undefined", b"over", b"notes", b"stop", b"text"]
    empty = [b""] * len(names)
    for label, notes, pairs, stop in itertools.chain(waiting, found):
        is_empty, shown = False, guarded(label)
        if stop is not None:
            yield [shown, *empty, b"", b"", b"", stop[0], guarded(stop[1])]
            continue
        values, marked = [value for _, value in pairs], {b"undefined": [], b"over": []}
        if b"undefined" in values or b"over" in values:
            for k, (name, value) in enumerate(pairs):
                if value in marked:
                    marked[value].append(name)
                    values[k] = b""
        if french:
            values = [value.replace(b".", b",") for value in values]
        yield [shown, *values, b" ".join(marked[b"undefined"]), b" ".join(marked[b"over"]), b"; ".join(note for note, _ in notes), b"", b""]
    if is_empty:
        raise Strange("no households")


def labels_of(path):
    """The labels of a table, one after the other."""
    try:
        with open(path, "rb") as file:
            yield from itertools.islice((label for _, label in records.records(file, BYTES)), 1, None)
    except OSError as fault:
        raise source.Refused(f"unreadable {path}") from fault
    except Strange as fault:
        raise Strange(f"{path}: {fault}") from fault


def held_to(found, path):
    """The answers, which are those of the households of a table, in their order."""
    labels, shown = labels_of(path), lambda label: label.decode("utf-8", "replace")
    number = 0
    for number, answer in enumerate(found, 1):
        wanted = next(labels, None)
        if wanted is None:
            raise Strange(f"{path} has {number - 1} households, and the output goes on with {shown(answer[0])}")
        if answer[0] != wanted:
            raise Strange(f"the household {number} of {path} is {shown(wanted)}, and the output has {shown(answer[0])} there")
        yield answer
    wanted = next(labels, None)
    if wanted is not None:
        raise Strange(f"the output is cut off: it has {number} households, and {path} goes on with {shown(wanted)}")


def names_of(words):
    """The columns that the options give, if any."""
    if "--requests" in words:
        return [line for line in re.split(rb"\r?\n", source.fetch(words["--requests"])) if line]
    if "--list" not in words:
        return None
    cells = []
    for variable in source.RuleBase(words["--list"]).variables:
        if "restituee" in variable.words:
            cells += [variable.name] if variable.size is None else [f"{variable.name}[{k}]" for k in range(variable.size)]
    return [cell.encode("latin-1") for cell in cells]


def quoted(field, delimiter):
    """A field as csv has it, in UTF-8; what isn't UTF-8 is taken as Latin-1."""
    if not field.isascii():
        try:
            field.decode("utf-8")
        except UnicodeDecodeError:
            field = field.decode("latin-1").encode("utf-8")
    if delimiter in field or b'"' in field or b"\r" in field:
        return b'"' + field.replace(b'"', b'""') + b'"'
    return field


def read_words(words):
    """The options, each with its file; None where the words are wrong."""
    options = {}
    while words:
        word = words.pop(0)
        if word in options or word not in ("--french", "--bare") and (word not in ("--of", "--requests", "--list") or not words):
            return None
        options[word] = True if word in ("--french", "--bare") else words.pop(0)
    return None if {"--requests", "--list"} <= set(options) else options


def work(words):
    """Does what the words say."""
    options = read_words(words)
    if options is None:
        raise Wrong("words: table-out [--of TABLE] [--french] [--bare] [--requests REQUESTS | --list LIST]; see --help", 2)
    french, out = "--french" in options, sys.stdout.buffer
    delimiter, end = (b";", b"\r\n") if french else (b",", b"\n")
    guarded = (lambda text: text) if "--bare" in options else records.unlike_a_formula
    try:
        names = names_of(options)
        found = records.answers(iter(source.standard_input()), names)
        if "--of" in options:
            found = held_to(found, options["--of"])
        for number, fields in enumerate(rows(found, french, names, guarded)):
            if number == 0 and french:
                out.write(b"\xef\xbb\xbf")
            out.write(delimiter.join([quoted(field, delimiter) for field in fields]) + end)
    except (Strange, source.Refused) as fault:
        out.flush()
        raise Wrong(str(fault), 1 if isinstance(fault, Strange) else 3) from fault
    return 0


def main(words):
    """The command: see above."""
    return ended(words, __doc__, work)
