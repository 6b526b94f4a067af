"""Reports whether two rule bases give every household the same answer.

    same LIST1 DRIVER1 LIST2 DRIVER2 REQUESTS [--tries COUNT] [--seed SEED]
    same --code CODE1 LIST2 DRIVER2 REQUESTS      `--code FILE` in the place of a list and a driver: a code file, which has its requests in it
    same --code CODE1 --code CODE2

Both are compiled. Where the two code files have the same bytes it prints `same`, and then the answers are the same for all households: a code file is what
gives the answers. Else it looks for a household in which they differ, among COUNT made-up ones (20,000, and 500 where a side is a code file, which computes
one household at a time) whose amounts are near the numbers that the rules have, makes it small, and prints it as a household's
file with both answers; or it reports that it found none, which proves nothing.

List, rule files, drivers and requests are read once, so edits of the rules meanwhile have no effect. `-` means no driver or no
requests.

The status is 0 where they are the same, 1 where they differ, 5 where no difference was found, 2 for wrong words, 3 where a file can't be read, and 6 where
one of the two is rejected or the program fails. The program is ./m_tax of this repository, or the one that M_TAX names.
"""
import csv
import io
import os
import random
import re
import sys
import tempfile

sys.dont_write_bytecode = True
from .. import runs, source
from ..endings import Wrong, ended, files_named
from ..errors import Failed
from ..limits import AMOUNT

AT_ONCE = 2_000
TRIES, TRIES_OF_CODE = 20_000, 500
BYTES = 8_000_000
LINE = re.compile(rb"household r([0-9]+)\n")


class Compiled:
    """A side that is a code file, read once."""

    def __init__(self, path, room):
        self.code, self.room = source.fetch(path, 1 << 30), room
        self.path = os.path.join(room, "code")
        source.put(self.path, self.code)

    def answers(self, households):
        """What `exec` prints for each household."""
        found = []
        for household in households:
            path = os.path.join(self.room, "household.csv")
            source.put(path, "\n".join(["code,amount", *(f"{code},{amount}" for code, amount in household.items()), ""]).encode("latin-1"))
            text, status = runs.printed("exec", self.path, path)
            if status not in (0, 6):
                raise Wrong(runs.fault_of(text, status), 3 if status == 3 else 6)
            found.append(text)
        return found


def said(origin, name, command, *more):
    """What the program prints to a command over a source, whose list has this name."""
    out = io.BytesIO()
    status = origin.output(out, command, *more)
    if status != 0:
        raise Wrong(f"{name}: {origin.original_names(runs.fault_of(out.getvalue(), status))}", 3 if status == 3 else 6)
    return out.getvalue()


def compiled(origin, name):
    """The code file of a source. One that was compiled already is taken once the program has read it."""
    if isinstance(origin, Compiled):
        try:
            origin.answers([{}])
        except Wrong as wrong:
            raise Wrong(f"{name}: {wrong}", wrong.status) from wrong
        return origin.code
    code = said(origin, name, "compile")
    if not code.endswith(b"\nend\n"):
        raise Wrong(f"{name}: the program prints no whole code file", 6)
    return code


def inputs_of(code):
    """The codes of the inputs of a code file, each with its type."""
    words = [line.split() for line in code.split(b"\ncode\n")[0].decode("latin-1").split("\n") if line.startswith("input ")]
    return {line[1]: line[2] if len(line) > 2 else "" for line in words}


def numbers_of(*codes):
    """The numbers that code files have, in whole units, each with its neighbours."""
    found = {0, 1, 2, 1000}
    for code in codes:
        for text in re.findall(rb"\nlit [0-9]+ (-?[0-9]+)", code):
            found.add(int(text) // 1_000_000)
    return sorted(value for value in {value + step for value in found for step in (-1, 0, 1)} if abs(value) < AMOUNT)


def drawn(draw, inputs, numbers):
    """A made-up household: codes with amounts."""
    household = {}
    share = draw.choice([0.2, 0.5, 0.9])
    for code, kind in inputs.items():
        if draw.random() < share:
            if kind == "truth":
                household[code] = str(draw.randrange(2))
            else:
                amount = draw.choice(numbers) if draw.random() < 0.6 else draw.randrange(draw.choice([10, 1000, 60_000, 1_000_000]))
                household[code] = f"{amount}" if kind == "whole" or draw.random() < 0.8 else f"{amount}.{draw.randrange(100):02}"
    return household


def tables_of(households):
    """The households as tables that are short enough for the program, each with how many it has."""
    codes = sorted({code for household in households for code in household})
    out, count = io.StringIO(), 0
    writer = csv.writer(out, lineterminator="\n")
    for household in households:
        if count == 0:
            writer.writerow(["name", *codes])
        writer.writerow([f"r{count}", *(household.get(code, "") for code in codes)])
        count += 1
        if out.tell() > BYTES or household is households[-1]:
            yield out.getvalue().encode("latin-1"), count
            out.seek(0)
            out.truncate()
            count = 0


def answers(origin, name, households, room):
    """The answers of a source to the households."""
    if isinstance(origin, Compiled):
        return origin.answers(households)
    path, found = os.path.join(room, "table.csv"), []
    for table, count in tables_of(households):
        source.put(path, table)
        text = said(origin, name, "batch", path)
        parts = re.split(rb"(?m)^household r[0-9]+\n", text)[1:]
        if len(parts) != count or LINE.findall(text) != [b"%d" % k for k in range(count)]:
            raise Wrong(f"{name}: the program's answer isn't one for each household")
        found += parts
    return found


def first_difference(sources, households, room):
    """The first household whose answers differ, with these; or nothing."""
    one, other = (answers(origin, name, households, room) for origin, name in sources)
    return next(((household, a, b) for household, a, b in zip(households, one, other) if a != b), None)


def smaller(sources, found, room):
    """A household in which they differ too, of which no code can be left out. Halves of it are left out first, then quarters and so on."""
    size = max(len(found[0]) // 2, 1)
    while True:
        codes = list(found[0])
        pieces = [set(codes[at : at + size]) for at in range(0, len(codes), size)]
        less = first_difference(sources, [{code: amount for code, amount in found[0].items() if code not in piece} for piece in pieces], room)
        if less is not None:
            found = less
        elif size == 1:
            return found
        else:
            size //= 2


def words_of(words):
    """The two sides, each a list with its driver or a code file alone, the requests if there are any, how many tries, and the seed."""
    said, options = [], {"--tries": None, "--seed": 1}
    while words:
        word = words.pop(0)
        if word == "--code" and words and len(said) < 4:
            said += [words.pop(0), None]
            continue
        if word in options and words and re.fullmatch("[0-9]{1,7}", words[0]):
            options[word] = int(words.pop(0))
        elif word.startswith("--"):
            return None
        else:
            said.append(word)
    codes = [said[at] for at in (0, 2) if said[at + 1 : at + 2] == [None]]
    if len(said) != (4 if len(codes) == 2 else 5):
        return None
    tries = options["--tries"] if options["--tries"] is not None else TRIES_OF_CODE if codes else TRIES
    return [*said, *([None] if len(codes) == 2 else [])], tries, options["--seed"]


def sides_of(words, room):
    """The two sides, each with its name."""
    names, folder = words[0:4:2], lambda: tempfile.mkdtemp(dir=room)
    if None not in words:
        return list(zip(runs.two_sources(names, words[1:4:2], words[4], room), names))
    side = lambda name, driver: Compiled(name, folder()) if driver is None else runs.Source([name, driver, words[4]], folder())
    return [(side(name, driver), name) for name, driver in zip(names, words[1:4:2])]


def compare(words, tries, seed, room):
    """Prints the result, and returns the status."""
    sources = sides_of(words, room)
    one, other = (compiled(*origin) for origin in sources)
    if one == other:
        print("same")
        return 0
    inputs, others = inputs_of(one), inputs_of(other)
    for code in [*inputs, *others]:
        if inputs.get(code) != others.get(code):
            print(f"different: the input {code} isn't of both, or has another type")
            return 1
    draw, numbers = random.Random(seed), numbers_of(one, other)
    for first in range(0, tries, AT_ONCE):
        households = [drawn(draw, inputs, numbers) for _ in range(min(AT_ONCE, tries - first))]
        found = first_difference(sources, households, room)
        if found is not None:
            household, *texts = smaller(sources, found, room)
            print("different, as for this household:")
            print("\n".join(["code,amount", *(f"{code},{amount}" for code, amount in household.items())]))
            for name, text in zip(words[0:4:2], texts):
                print(f"by {name}:")
                print(text.decode("utf-8", "surrogateescape"), end="")
            return 1
    print(f"no difference found in {tries} households; the compiled programs differ, which may or may not matter")
    return 5


def work(words):
    """Does what the words say."""
    words = words_of(words)
    if words is None:
        raise Wrong("words: same LIST1 DRIVER1 LIST2 DRIVER2 REQUESTS [--tries COUNT] [--seed SEED]; --code FILE for a list and a driver; see --help", 2)
    try:
        with files_named(), tempfile.TemporaryDirectory() as room:
            return compare(*words, room)
    except Failed as fault:
        raise Wrong(str(fault), 6) from fault
    except source.Refused as fault:
        raise Wrong(str(fault), 3 if str(fault).startswith("unreadable ") else 6) from fault


def main(words):
    """The command: see above."""
    return ended(words, __doc__, work)
