"""Changed rows: which of their files are changed, and how often."""

from .codes import code_row
from .drawing import chance, flip_byte
from .drivers import change_driver, new_driver
from .files import change_household, change_list, new_cases, new_report, new_requests, new_session, new_table
from .naming import Names, Row, listed
from .rules import change_rules


def changed_row(number, random, good, bad):
    """The row with this number: each eighth is one of `exec`, another one of `compile` or `lint`, some of `check` and `cases`."""
    if number % 8 == 7:
        return code_row(random, good)
    row = changed(random, good, bad)
    if number % 8 == 3 and len(row.words) == 5:
        return Row([random.choice([b"compile", b"compile", b"lint"]), *row.words[1:4]], row.files, b"")
    if number % 8 == 5 and len(row.words) == 5 and chance(random, 40):
        return checked_row(random, row)
    return row


def checked_row(random, row):
    """The row as one of `check`, or as one of `cases`."""
    names = Names(row)
    if chance(random, 50):
        return Row([b"check", row.words[1], row.words[4], b"p.txt"], {**row.files, b"p.txt": new_report(random, names)}, b"")
    return Row([b"cases", *row.words[1:4], b"t.csv"], {**row.files, b"t.csv": new_cases(random, names)}, b"")


def changed(random, good, bad):
    """One of the rows with one to four changes: mostly one that has an answer, and sometimes one that is refused."""
    row = random.choice(good if chance(random, 92) else bad)
    wild = chance(random, 22)
    row = other_command(random, row, Names(row), wild)
    for _ in range(random.choice([1, 1, 2] if wild else [1, 2, 3, 4])):
        row = one_change(random, row, Names(row), wild)
    return row


def other_command(random, row, names, wild):
    """The row, sometimes with other words: a driver, a session, a table, requests, or no command."""
    words, files, typed = list(row.words), dict(row.files), row.typed
    if len(words) != 5 or chance(random, 60):
        return row
    form = random.randrange(9)
    if form > 6 and words[2] == b"-":
        words[2] = b"d.txt"
        files[b"d.txt"] = new_driver(random, names)
    elif form < 2:
        words[0], typed = b"serve", new_session(random, names)
    elif form < 4:
        words[0], words[4] = b"batch", b"t.csv"
        files[b"t.csv"] = new_table(random, names)
    elif form < 6:
        words[3] = b"r.txt"
        files[b"r.txt"] = new_requests(random, names, wild)
    elif form == 6 and wild:
        at = random.randrange(len(words))
        words[at:at + 1] = random.choice([[], [words[at]] * 2, [b"-"], [b"large", b"7"], [b"x"], [b"run"]])
    return Row(words, files, typed)


def one_change(random, row, names, wild):
    """The row with one change in one of its files."""
    words, files = row.words, dict(row.files)
    if len(words) != 5:
        return row
    rule_files = listed(row)
    form = random.randrange(10)
    if wild and chance(random, 12):
        name = random.choice(sorted(name for name in files if name in words or name in rule_files) or [b"h.csv"])
        files[name] = flip_byte(random, files.get(name, b""))
    elif form < 6 and rule_files and (words[2] not in files or chance(random, 50)):
        name = random.choice(rule_files)
        files[name] = change_rules(random, files[name], names, wild)
    elif form < 8 and words[2] in files:
        files[words[2]] = change_driver(random, files[words[2]], names, wild)
    elif (form < 9 or chance(random, 70)) and words[4] in files:
        files[words[4]] = change_household(random, files[words[4]], names, wild)
    elif rule_files and chance(random, 50):
        split_rules(random, files, words[1], random.choice(rule_files))
    elif words[1] in files:
        files[words[1]] = change_list(random, files[words[1]], wild)
    return Row(words, files, row.typed)


def split_rules(random, files, list_name, name):
    """Moves the last lines of a rule file into another one, which the list names after the others."""
    lines = files[name].split(b"\n")
    at = random.randrange(len(lines) + 1)
    other = b"s%d.m" % random.randrange(10)
    files[name] = b"\n".join(lines[:at])
    files[other] = b"\n".join(lines[at:])
    files[list_name] = files[list_name].rstrip(b"\r\n") + b"\n" + other
