"""The folder of a table that `scale` cut: its parts and their answers, what is noted of both, and files that are written whole or not at all."""
import contextlib
import fcntl
import hashlib
import os
import re
import tempfile

from . import csv_answers, records, runs, source
from .errors import Failed
from .program import digest_of
from .runs import file_digest


def remove_dead(path):
    """Removes what runs that were killed had begun of a file: nobody holds its lock."""
    folder, name = os.path.split(path)
    for other in os.listdir(folder or "."):
        if other.startswith(name + ".") and other.endswith(".new"):
            with contextlib.suppress(OSError), open(os.path.join(folder, other), "rb") as file:
                fcntl.flock(file, fcntl.LOCK_EX | fcntl.LOCK_NB)
                os.unlink(file.name)


def begun(path):
    """A new file with its lock. One that another run took for dead before it was locked is begun again."""
    folder, name = os.path.split(path)
    while True:
        number, made = tempfile.mkstemp(prefix=name + ".", suffix=".new", dir=folder or ".")
        with contextlib.suppress(OSError):  # (a disk without locks has what killed runs left until `drop`)
            fcntl.flock(number, fcntl.LOCK_EX)
        if os.path.exists(made):
            return number, made
        os.close(number)


@contextlib.contextmanager
def unfinished(path):
    """A file under a name that no other run has. It gets its own name by `os.replace`, and goes where something fails. It is locked for as long as it is
    written, so that what killed runs left is distinguished from what others write."""
    remove_dead(path)
    number, made = begun(path)
    try:
        os.fchmod(number, 0o666 & ~source.MASK)
        with os.fdopen(number, "wb") as out:
            yield out, made
    except OSError as fault:
        # (the error of a full disk has no name)
        fault.filename = fault.filename or path
        raise
    finally:
        with contextlib.suppress(FileNotFoundError):
            os.unlink(made)


def write_whole(path, content):
    with unfinished(path) as (out, made):
        out.write(content)
        out.flush()
        os.fsync(out.fileno())
        os.replace(made, path)


def part_path(folder, number, kind):
    return os.path.join(folder, f"part-{number:06}.{kind}")


class Plan:
    """What `cut` wrote of the whole table: the number of households, the digest of their labels, and that of each part."""

    def __init__(self, folder):
        path = os.path.join(folder, "table")
        words = source.fetch(path, 1 << 40).decode("latin-1").split()
        if len(words) < 3 or words[0] != str(len(words) - 3) or not re.fullmatch("[0-9]{1,18}", words[1]):
            raise Failed(f"{path} isn't whole: cut the table again", False)
        self.parts, self.total, self.labels, self.digests = len(words) - 3, int(words[1]), words[2], words[3:]


def look_at(table, wanted, what):
    """Refuses a part that isn't what `cut` wrote."""
    try:
        what = None if file_digest(table) == wanted else what
    except FileNotFoundError:
        what = "isn't there"
    if what is not None:
        raise Failed(f"{table} {what}: cut the table again", False)


READERS = {"lines": records.read_answer, "csv": csv_answers.read_csv}  # what looks through an answer of this form


class Made:
    """The record of an answer: the digest of its source, that of the names of its values (`-` if they are unknown), its own, its form, and how many
    households it has and how many of them stopped."""

    def __init__(self, path):
        words = source.fetch(path).decode("latin-1").split() if os.path.exists(path) else []
        is_whole = len(words) == 6 and words[3] in READERS and words[4].isdigit() and words[5].isdigit()
        self.source, self.names, self.answer, self.form = words[:4] if is_whole else ("", "", "", "")
        self.households, self.stops = (int(word) for word in words[4:]) if is_whole else (0, 0)


def missing(folder, plan):
    return [number for number in range(1, plan.parts + 1) if not os.path.exists(part_path(folder, number, "out"))]


def looked_through(path, noted, form):
    """The labels of an answer, which is as it was when it was checked, each with a line end."""
    if file_digest(path) != noted:
        raise Failed(f"{path} was changed since it was checked: remove it, and compute it again")
    try:
        return b"".join([label + b"\n" for label in READERS[form](path)[0]])
    except records.Strange as fault:
        raise Failed(f"{path}: {fault}") from fault


def whole(folder, plan):
    """What is noted of each answer, where all are there as they were checked, of one source, with the households of the table in their order."""
    absent = missing(folder, plan)
    if absent:
        raise Failed(f"{len(absent)} of {plan.parts} parts have no answer, the first is {absent[0]}")
    numbers = range(1, plan.parts + 1)
    notes = [Made(part_path(folder, number, "of")) for number in numbers]
    sources = {(note.source, note.form) for note in notes}
    if len(sources) > 1 or ("", "") in sources or len({note.names for note in notes} - {"-"}) > 1:
        raise Failed(f"the parts were made of several sources: scale drop {folder} removes all answers", False)
    seen, count = hashlib.sha256(), 0
    with runs.workers() as pool:
        paths = [part_path(folder, number, "out") for number in numbers]
        for labels in pool.map(looked_through, paths, [note.answer for note in notes], [note.form for note in notes]):
            seen.update(labels)
            count += labels.count(b"\n")
    if (count, seen.hexdigest()) != (plan.total, plan.labels):
        raise Failed(f"the answers have {count} households and not the {plan.total} of the table in their order", False)
    return notes


def digest_there(path):
    """The digest of a file, and nothing of one that isn't there."""
    try:
        return file_digest(path)
    except FileNotFoundError:
        return None


def summary(folder, plan, notes):
    """What people keep of all answers: their number, the households and those that stopped, and digests of the table, of the source and of the answers."""
    stops = sum(note.stops for note in notes)
    yield f"{plan.parts} parts, {plan.total} households, {stops} of them stopped"
    yield f"table {file_digest(os.path.join(folder, 'table'))}"
    yield f"source {notes[0].source}"
    yield f"answers {digest_of(*(note.answer.encode() for note in notes))}"
