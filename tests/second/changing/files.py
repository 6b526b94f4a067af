"""Changes of lists, requests, households and tables, and of what is typed."""

from .drawing import AMOUNTS, SPOILT_AMOUNTS, chance, change_lines, change_pieces, some

APPLICATIONS = b"iliad batch autre 2023 si X a-b oceans .".split()
LABELS = b'dupont martin 1 "x,y" "q""r" "z'.split() + [b"a b"]
ENDS = [b"\n", b"\n", b"\n", b"\r\n", b"\r"]
SPOILT_FIELDS = b'code name a"b "a "a""b"'.split()
SPOILT_REQUESTS = [b"", b" IRN"] + b"T T[00] T[1]x REV[0] ZZ [ T[9999] T[10000]".split()
SPOILT_COMMANDS = [b"", b"set 1AJ", b"show all", b"\tshow", b"show\r", b"x" * 4096, b"x" * 4097, b"clear", b"SHOW"]


def change_list(random, text, wild):
    """A list with one change."""
    if wild and chance(random, 30):
        return change_pieces(random, text, APPLICATIONS)
    if wild:
        return change_lines(random, text)
    return text.replace(b"\n", random.choice([b"\n\n", b"\r\n", b"\n"]))


def change_household(random, text, names, wild):
    """A household or a table with one change."""
    if wild and chance(random, 50):
        return change_lines(random, text)
    if wild:
        return change_field(random, text, SPOILT_AMOUNTS + SPOILT_FIELDS + names.codes)
    if chance(random, 25):
        return new_table(random, names) if text.startswith(b"name") else new_household(random, names)
    return change_field(random, text, AMOUNTS)


def change_field(random, text, stock):
    """A text of which one field is replaced: mostly the last of a line after the first."""
    lines = text.split(b"\n")
    at = random.randrange(len(lines))
    if not lines[at] or at == 0 and not chance(random, 10):
        return text
    fields = lines[at].split(b",")
    column = random.randrange(len(fields)) if chance(random, 20) else len(fields) - 1
    fields[column] = random.choice(stock)
    lines[at] = b",".join(fields)
    return b"\n".join(lines)


def new_household(random, names):
    """A household of some of the codes."""
    chosen = random.sample(names.codes, random.randrange(len(names.codes) + 1))
    return b"code,amount\n" + b"".join(b"%s,%s\n" % (code, random.choice(AMOUNTS)) for code in chosen)


def new_table(random, names):
    """A table of some of the codes, with a few rows."""
    chosen = random.sample(names.codes, random.randrange(len(names.codes) + 1))
    rows = [[b"name"] + chosen]
    for label in random.sample(LABELS, random.randrange(4)):
        stock = AMOUNTS + [b""] * 5 if chance(random, 90) else SPOILT_AMOUNTS
        rows.append([label] + [random.choice(stock) for _ in chosen])
    return b"".join(b",".join(row) + random.choice(ENDS) for row in rows)


def new_requests(random, names, wild):
    """Requests of some names."""
    lines = []
    for _ in range(random.randrange(5)):
        lines.append(requested(random, names))
    if wild:
        lines.append(random.choice(SPOILT_REQUESTS))
    return b"".join(line + random.choice([b"\n", b"\n", b"\r\n"]) for line in lines)


def requested(random, names):
    """The name of a cell, as requests have it; now and then one that is none."""
    name = some(random, names.all, b"REV")
    return name + b"[%d]" % random.randrange(5) if name in names.tables else name


def new_report(random, names):
    """A report, mostly of an input and of what reads it."""
    lines = []
    for _ in range(random.randrange(1, 5)):
        said = random.choice([b"undefined", b"over", b"= " + random.choice(AMOUNTS)])
        lines.append(requested(random, names) + b" " + said)
    if chance(random, 30):
        lines.append(random.choice([b".", b"", b".", b"REV", b"= 1", b"REV  = 1", b"REV =1", b"REV = ", b"REV = 1 "]))
    return b"\n".join(lines) + random.choice([b"", b"\n"])


def new_cases(random, names):
    """A table of cases: codes and requested names, and a few rows."""
    codes = random.sample(names.codes, random.randrange(len(names.codes) + 1))
    outputs = [b"=" + requested(random, names) for _ in range(random.randrange(3))]
    header = random.sample(codes + outputs, len(codes + outputs))
    rows = [[b"name"] + header]
    for label in random.sample(LABELS, random.randrange(4)):
        expected = AMOUNTS + [b"", b"undefined", b"over", b"stop", b"0", b"0"]
        given = AMOUNTS + [b""] * 5 if chance(random, 90) else SPOILT_AMOUNTS
        rows.append([label] + [random.choice(expected if field.startswith(b"=") else given) for field in header])
    return b"".join(b",".join(row) + random.choice(ENDS) for row in rows)


def new_session(random, names):
    """What may be typed in a session."""
    lines = []
    for _ in range(random.randrange(1, 8)):
        code = some(random, names.codes, b"1AJ") if chance(random, 95) else b"9ZZ"
        amount = random.choice(AMOUNTS if chance(random, 90) else SPOILT_AMOUNTS)
        edits = [b"set %s  %s" % (code, amount), b"clear %s" % code]
        lines.append(random.choice([b"show", b" show ", b"why %s" % some(random, names.all, b"IRN"), *edits]))
    if chance(random, 15):
        lines.insert(random.randrange(len(lines)), random.choice(SPOILT_COMMANDS))
    return b"\n".join(lines) + random.choice([b"", b"\n", b"\r\n"])
