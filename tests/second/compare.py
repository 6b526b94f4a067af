"""Compares the reference implementation with the worked rows, and with a program on changed rows.

    python3 compare.py                           the rows of crates/rows/data by the reference alone, but those with failing calls
    python3 compare.py PROGRAM [COUNT [SEED]]    these, and COUNT changed rows by the program and by the reference

The rows whose names begin with `survey_` are those of `m_survey`. A program is the path of one that takes the words of `m_tax`, as `out/m_tax` does.
Its text and its status must be those of the reference, byte by byte; of several cycles or recursions it may show another true one, `compile` may print any code
file of the source, and the lines of a reason may be in any order in which each comes after those that it reads. Each row
in which they differ is kept in a folder of its own, in the form of crates/rows/data, with the reference's answer;
the program's answer is in `program_text` and `program_status`. The status is 0 where nothing differs.
"""

import collections
import os
import re
import shutil
import sys
import tempfile
import threading

sys.dont_write_bytecode = True
sys.path.insert(0, os.path.dirname(os.path.abspath(__file__)))

from changing.drawing import Draw  # noqa: E402
from changing.naming import Row  # noqa: E402
from changing.rows import changed_row  # noqa: E402
from reading.commands import output  # noqa: E402
from reading.surveys import survey_output  # noqa: E402
from rooms import Folder, Room  # noqa: E402, F401
from starting import built_forks  # noqa: E402

ROOT = os.path.dirname(os.path.dirname(os.path.dirname(os.path.abspath(__file__))))
DATA = os.path.join(ROOT, "crates", "rows", "data")
KEPT = os.path.join(ROOT, "out", "second")
WORDS = b"run l.txt - - h.csv"
MOST_BYTES = 7_000
SLOW = {"drivers_calls_that_double_18_times", "loops_2000000_parts", "loops_2000002_parts", "large_5000"}
SECONDS = 60
MEMORY = 4 << 30


# ---- rows


def read_folder(path):
    """The files of a folder by their names."""
    files = {}
    for name in sorted(os.listdir(path)):
        with open(os.path.join(path, name), "rb") as file:
            files[os.fsencode(name)] = file.read()
    return files


def names_of_rows(program=b"m_tax"):
    """The names of a program's worked rows, but those whose calls fail or whose files are changed; and the number of these."""
    names = [name for name in sorted(os.listdir(os.path.join(DATA, "rows"))) if program_of(name) == program]
    plain = [name for name in names if not os.path.exists(os.path.join(DATA, "rows", name, "mishaps"))]
    return plain, len(names) - len(plain)


def program_of(name):
    """The program of a worked row, by its name."""
    return b"m_survey" if name.startswith("survey_") else b"m_tax"


def read_rows(program=b"m_tax"):
    """Each worked row of a program without failing calls by its name, with the text and the status that it expects."""
    shared = read_folder(os.path.join(DATA, "shared"))
    rows = {}
    for name in names_of_rows(program)[0]:
        own = read_folder(os.path.join(DATA, "rows", name))
        own.pop(b"tried", None)
        text = own.pop(b"text", b"")
        status = int(own.pop(b"status", b"0"))
        words = own.pop(b"words", WORDS).split()
        typed = own.pop(b"typed", b"")
        size = sum(map(len, own.values()))
        rows[name] = (Row(words, {**shared, **own}, typed), text, status, size)
    return rows


def compare_rows(rows):
    """How many worked rows the reading answers otherwise; each is printed."""
    different = 0
    for name, (row, text, status, _) in rows.items():
        said = output(row.words, row.files, row.typed)
        several = said.compiled is not None or said.findings is not None or said.replies is not None
        same = said.is_one_with(text, status) if several else (said.text, said.status) == (text, status)
        if not same:
            different += 1
            print("second: row %s: the reading says %r with status %d" % (name, said.text[:200], said.status))
    return different


# ---- changed rows


NAMED = re.compile(
    r"(declared twice|alias twice|unknown name|not a table|is a table|bad target|defined twice|unknown error"
    r"|function twice|file too long|too large|recursion|cycle|failed|over verification|over driver|unreadable"
    r"|usage:|mismatch) .*"
)


def answer_kind(said):
    """The kind of an answer, without places, names and numbers."""
    if said.status == 0:
        return "answered"
    line = said.text.split(b"\n")[0].decode("latin-1")
    line = re.sub(r"^refused .* line \d+ byte \d+: ", "refused rules: ", line)
    line = re.sub(r"^refused (driver|household|list|requests|code|report) line \d+", r"refused \1", line)
    return NAMED.sub(r"\1", re.sub(r"^(refused driver: unknown) .*", r"\1", line))


def write_files(files, folder):
    """Writes files into an empty folder."""
    shutil.rmtree(folder, ignore_errors=True)
    os.makedirs(folder)
    for name, text in files.items():
        with open(os.path.join(os.fsencode(folder), name), "wb") as file:
            file.write(text)


def keep(name, row, said, text, status):
    """Keeps a row in which program and reference differ, and prints where."""
    folder = os.path.join(KEPT, name)
    own = {b"words": b" ".join(row.words) + b"\n", b"typed": row.typed}
    wanted = {b"text": said.text, b"status": b"%d\n" % said.status}
    told = {b"program_text": text, b"program_status": b"%s\n" % str(status).encode()}
    write_files({**row.files, **own, **wanted, **told}, folder)
    print("second: different: %s: the program says %r, the reading %r" % (folder, text[:100], said.text[:100]))


def compare_changed(program, rows, count, seed):
    """How many of `count` changed rows the program answers otherwise, and how many answers of each kind there are."""
    pool = [(row, status) for name, (row, _, status, size) in rows.items() if size <= MOST_BYTES and name not in SLOW]
    good = [row for row, status in pool if status in (0, 6)]
    bad = [row for row, status in pool if status not in (0, 6)]
    kinds = collections.Counter()
    different = 0
    with tempfile.TemporaryDirectory() as folder, Room(program, SECONDS, MEMORY, program and built_forks(folder, program)) as room:
        for number in range(count):
            row = changed_row(number, Draw("%d:%d" % (seed, number)), good, bad)
            room.put(row)
            said = output(row.words, room.files(), row.typed)
            kinds[answer_kind(said)] += 1
            text, status = room.said(row) if program else (said.text, said.status)
            if program and not said.is_one_with(text, status):
                different += 1
                keep("%d_%d" % (seed, number), row, said, text, status)
    return different, kinds


def compare_surveys(rows):
    """How many worked rows of m_survey the reading answers otherwise; each is printed."""
    different = 0
    for name, (row, text, status, _) in rows.items():
        said = survey_output(row.words, row.files)
        if not said.is_one_with(text, status):
            different += 1
            print("second: row %s: the reading says %r with status %d" % (name, said.text[:200], said.status))
    return different


def main():
    """Does what the words of the command line say."""
    rows, surveys = read_rows(), read_rows(b"m_survey")
    different = compare_rows(rows) + compare_surveys(surveys)
    left = names_of_rows()[1] + names_of_rows(b"m_survey")[1]
    print("second: rows: %d passed, %d failed, %d left out that a mishap befalls" % (len(rows) + len(surveys) - different, different, left))
    if len(sys.argv) > 1:
        program = os.path.abspath(sys.argv[1]) if sys.argv[1] != "-" else None
        count = int(sys.argv[2]) if len(sys.argv) > 2 else 1000
        seed = int(sys.argv[3]) if len(sys.argv) > 3 else 1
        changed_different, kinds = compare_changed(program, rows, count, seed)
        for kind, number in kinds.most_common():
            print("second: %6d %s" % (number, kind))
        print("second: changed rows: %d passed, %d failed" % (count - changed_different, changed_different))
        different += changed_different
    return different


def run():
    """Runs `main` on a thread whose stack is deep enough for the deepest terms and blocks."""
    sys.setrecursionlimit(1_000_000)
    threading.stack_size(256 * 1024 * 1024)
    ended = []
    thread = threading.Thread(target=lambda: ended.append(main()))
    thread.start()
    thread.join()
    sys.exit(0 if ended == [0] else 1)


if __name__ == "__main__":
    run()
