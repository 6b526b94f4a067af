"""Writes a copy of a rule base in which constants have other values.

    variant LIST NAME=VALUE.. FOLDER

NAME is a constant (`DEC_SEUL : const = 873 ;`), or a variable or a table's cell whose only formula is a number (`SEUIL[2] = 28797 ;`). VALUE is
spelled as rules spell numbers, with `-` in front if negative. All else of the files stays as it is, byte by byte. The copy's list is
FOLDER/rules.list; it names the copy's files as they are seen from where this command is run, which is where the program is to be started.

A line is printed for each change: NAME, its value before and now, and the place. Nothing is written where a name isn't there, occurs more
than once, is computed, has the value already, or has it by a rule of another application or a chained one, or where a value is no number of rules: these
are reported on standard error, with the status 1. FOLDER must not exist, and its name must be valid in a list; it gets its name once all files are written.
The status is 2 for wrong words, 3 where a file can't be read or written, and 4 where the output is closed.
"""
import os

from .. import source
from ..constants import change_of, changed, places_of, spelled
from ..endings import Wrong, ended, files_named
from ..limits import FILE_NAME_BYTES
from ..program import whole_folder


def copy_names(files):
    """A name for each file in the copy: its own, and a number after it if an earlier one has that name."""
    names, used = [], set()
    for file in files:
        stem, kind = os.path.splitext(os.path.basename(file.name))
        name, number = stem + kind, 1
        while name in used or name == "rules.list":
            number += 1
            name = f"{stem}-{number}{kind}"
        used.add(name)
        names.append(name)
    return names


def line_of_list(path):
    """The line of a list that names a file."""
    line = os.fsencode(path)
    if b"\n" in line or b"\r" in line or len(line) > FILE_NAME_BYTES:
        raise Wrong(f"{path!r} is no name for a list: it has line ends, or more than {FILE_NAME_BYTES:,} bytes")
    try:
        line.decode("utf-8")
    except UnicodeDecodeError as fault:
        raise Wrong(f"{path} is no name for a list: it isn't UTF-8") from fault
    return line + b"\n"


def write_copy(base, pieces, folder):
    """Writes the files with their pieces replaced, and the list; the folder gets its name once all are written."""
    names = copy_names(base.files)
    lines = [line_of_list(os.path.join(folder, name)) for name in names]
    with whole_folder(folder) as room:
        for file, name in zip(base.files, names):
            with open(os.path.join(room, name), "wb") as out:
                out.write(changed(file.bytes, pieces.get(id(file), [])))
        with open(os.path.join(room, "rules.list"), "wb") as out:
            out.write(base.application.encode() + b"\n")
            out.writelines(lines)


def work(words):
    """Does what the words say."""
    changes = [word.split("=", 1) for word in words[1:-1]]
    if len(words) < 3 or not all(len(change) == 2 for change in changes) or "=" in words[-1] or words[0].startswith("-"):
        raise Wrong("words: variant LIST NAME=VALUE.. FOLDER; see --help", 2)
    folder = words[-1]
    with files_named(folder):
        if os.path.lexists(folder):
            raise Wrong(f"{folder} is there already")
        names = [name for name, _ in changes]
        if len(set(names)) < len(names):
            raise Wrong("a name is given twice")
        base = source.RuleBase(words[0])
        if len({file.name for file in base.files}) < len(base.files):
            raise Wrong(f"{words[0]} names a file twice")
        places, pieces, told = places_of(base.files), {}, []
        for name, value in changes:
            if not spelled(value):
                raise Wrong(f"{name}: {value} is no number of rules")
            file, (begin, end, before) = change_of(places, name, value, base.application)
            pieces.setdefault(id(file), []).append((begin, end, value))
            told.append(f"{name}: {before} is {value} now, {file.place(begin)}")
        write_copy(base, pieces, folder)
    for line in told:
        print(line)
    print(f"the copy's list: {os.path.join(folder, 'rules.list')}")
    return 0


def main(words):
    """The command: see above."""
    return ended(words, __doc__, work)
