"""Draws the marginal and the mean rate of what rules give along one amount, for any household.

    marginal LIST DRIVER HOUSEHOLD CODE FROM TO STEP --of NAME.. [--rules LIST DRIVER] [--household HOUSEHOLD] [--csv] [--lang en|fr] > FILE
    marginal LIST DRIVER HOUSEHOLD CODE FROM TO STEP --drops NET [--rules LIST DRIVER] [--household HOUSEHOLD]

The household is computed with the amounts FROM, FROM + STEP and so on up to TO for CODE, and its other amounts unchanged. At each amount the
marginal rate of NAME is what one STEP more adds to it, over STEP, and the mean rate is NAME over the amount. The picture is an SVG of its own, without
scripts: marginal rates as lines, mean rates as dashes, both in per cent. --csv prints the figures instead: the amount, and for each NAME its value, its
mean rate and its marginal rate; a field is empty where there is no number. --rules adds other rules and --household other households, each as often as
wanted: the picture and the figures have all of them by each other. DRIVER is - for none.

--drops prints the amounts at which what is kept falls though the amount rises, as csv: the rules, the household, the amount, and how much less than one STEP
before is kept. NET says what is kept, as `1AJ - TOTAL`: codes, names of values and numbers.

Where a run stops, or NAME is undefined or over, the line has a gap; standard error has the number of these amounts. Any number of steps may be. The
households are first run unchanged, so that their own faults are reported with their places. Lists, rule files, drivers and households are read once. The
status is 0, 1 where the program refuses or no amount has a number, 2 for wrong words, 3 where a file can't be read, and 4 where the output is closed or full.
The program is ./m_tax of this repository, or the one that M_TAX names.
"""
import argparse
import collections
import csv
import io
import os
import sys
import tempfile
from decimal import Decimal, InvalidOperation
from typing import NamedTuple

from .. import source
from ..endings import Wrong, ended, files_named
from ..expressions import UNIT, Expression
from ..limits import AMOUNT
from ..rate_pictures import Curve, picture, plain
from ..rules import Rules
from ..sweeps import exact, sweep
from ..texts import TEXTS, language_of, said


class Series(NamedTuple):
    """A value by one of the rules of one of the households: its label, its name, and at each amount its value, its mean rate and its marginal rate."""

    name: str
    of: str
    values: list
    mean: list
    marginal: list


def amount(text, what):
    """An amount of the command line."""
    try:
        value = Decimal(text)
    except InvalidOperation as fault:
        raise Wrong(said("marginal.no_amount", what=what, text=text), 2) from fault
    if not value.is_finite() or abs(value) > AMOUNT or value != round(value, 6):
        raise Wrong(said("marginal.no_amount", what=what, text=text), 2)
    return value


def pairs_of(path):
    """The codes and amounts of a household, as they are spelled."""
    try:
        text = source.fetch(path).removeprefix(source.MARK).decode("latin-1")
        entries = [record for record in csv.reader(io.StringIO(text, newline=""), strict=True) if record]
    except csv.Error as fault:
        raise Wrong(f"{path}: {fault}") from fault
    if not entries or entries[0] != ["code", "amount"] or any(len(record) != 2 for record in entries):
        raise Wrong(said("marginal.no_household", path=path))
    counts = collections.Counter(code for code, _ in entries[1:])
    twice = next((code for code, count in counts.items() if count > 1), None)
    if twice is not None:
        raise Wrong(said("marginal.twice", path=path, code=twice))
    empty = next((code for code, spelled in entries[1:] if not spelled), None)
    if empty is not None:
        raise Wrong(said("marginal.no_amount", what=f"{path}: {empty}", text='""'))
    return dict(entries[1:])


def bases(words, names, households, code):
    """The rules that the words name, with requests for some names; each has run each household unchanged."""
    found = []
    with tempfile.TemporaryDirectory() as room:
        requests = os.path.join(room, "names")
        source.put(requests, "".join(name + "\n" for name in names).encode("utf-8", "surrogateescape"))
        for listed, driver in words:
            rules = Rules(listed, None if driver == "-" else driver, requests)
            for pairs in households:
                rules.run(pairs)
            if code not in rules.types():
                raise Wrong(said("marginal.code", code=code))
            found.append(rules)
    return found


def called_of(value, rules, path, is_csv):
    """The label of a value by its rules and its household, where there are several; in csv in English."""
    text = (lambda key, **values: TEXTS[key][0].format(**values)) if is_csv else said
    by = value if rules is None else text("marginal.by", name=value, rules=rules)
    return by if path is None else text("marginal.of", name=by, household=path)


def curves(along, of, names, step):
    """The series of each name by each of the rules, which have the labels of `names`."""
    for base, called in enumerate(names):
        for value in of:
            rates = along.rates(base, value)
            found = [one if isinstance(one, Decimal) else None for one in along.values_of(value, base)]
            yield Series(called(value), value, found[:-1], [mean for _, _, mean in rates[:-1]], [marginal for _, marginal, _ in rates[1:]])


def figures(amounts, series, code):
    """The rates as csv."""
    out = io.StringIO()
    writer = csv.writer(out, lineterminator="\n")
    writer.writerow([code, *(f"{one.name}{kind}" for one in series for kind in ("", " mean", " marginal"))])
    for at, number in enumerate(amounts):
        shown = []
        for one in series:
            rates = (rate[at] for rate in (one.mean, one.marginal))
            shown += ["" if one.values[at] is None else plain(one.values[at]), *("" if rate is None else plain(exact(rate * UNIT)) for rate in rates)]
        writer.writerow([plain(number), *shown])
    return out.getvalue()


def drawn(words, amounts, sweeps, labels):
    """Prints the picture or the figures; a status."""
    series = [one for along, names in zip(sweeps, labels) for one in curves(along, words.of, names, amounts[1] - amounts[0])]
    gaps = sum(any(one.values[at] is None for one in series) for at in range(len(amounts) - 1))
    if gaps:
        print(f"marginal: {said('marginal.gaps', gaps=gaps, count=len(amounts) - 1)}", file=sys.stderr)
    if not any(rate is not None for one in series for rate in one.marginal):
        raise Wrong(said("marginal.no_rate"))
    if words.csv:
        sys.stdout.write(figures(amounts[:-1], series, words.code))
    else:
        sys.stdout.write(picture(amounts[:-1], [Curve(one.name, one.of, one.marginal, one.mean) for one in series], words.code))
    return 0


def dropped(words, sweeps, listed, households):
    """Prints the amounts at which what is kept falls; a status."""
    writer = csv.writer(sys.stdout, lineterminator="\n")
    writer.writerow(["rules", "household", words.code, "change"])
    for along, household in zip(sweeps, households):
        for base, (name, _) in enumerate(listed):
            writer.writerows([name, household, plain(drop.amount), plain(drop.change)] for drop in along.drops(words.drops, base))
    return 0


def draw(words):
    """Does what the words say."""
    first, last, step = (amount(word, what) for word, what in zip((words.first, words.last, words.step), ("FROM", "TO", "STEP")))
    if step <= 0 or last <= first:
        raise Wrong(said("marginal.step"), 2)
    listed, files = [(words.list, words.driver), *words.rules], [words.household_file, *words.household]
    households = [pairs_of(path) for path in files]
    codes = {words.code, *(code for pairs in households for code in pairs)}
    kept = [name for name in Expression(words.drops).names if name not in codes] if words.drops is not None else []
    of = words.of or kept
    if not of:
        raise Wrong(said("marginal.net"), 2)
    names = list(dict.fromkeys([*of, *kept]))
    found = bases(listed, names, households, words.code)
    amounts = [first + step * number for number in range(int((last - first) / step) + (1 if words.drops is not None else 2))]
    sweeps = [sweep(found, pairs, words.code, amounts, of[0], stops="keep") for pairs in households]
    if words.drops is not None:
        return dropped(words, sweeps, listed, files)
    calling = lambda rules, path: lambda value: called_of(value, rules if len(listed) > 1 else None, path if len(files) > 1 else None, words.csv)
    labels = [[calling(name, path) for name, _ in listed] for path in files]
    return drawn(words, amounts, sweeps, labels)


def work(words):
    """Does what the words say."""
    reader = argparse.ArgumentParser(prog="marginal")
    for name, shown in (
            ("list", "LIST"), ("driver", "DRIVER"), ("household_file", "HOUSEHOLD"), ("code", "CODE"), ("first", "FROM"), ("last", "TO"), ("step", "STEP")):
        reader.add_argument(name, metavar=shown)
    what = reader.add_mutually_exclusive_group(required=True)
    what.add_argument("--of", metavar="NAME", nargs="+")
    what.add_argument("--drops", metavar="NET")
    reader.add_argument("--rules", metavar=("LIST", "DRIVER"), nargs=2, action="append", default=[])
    reader.add_argument("--household", metavar="HOUSEHOLD", action="append", default=[])
    reader.add_argument("--csv", action="store_true")
    with files_named():
        return draw(reader.parse_args(language_of(words)))


def main(words):
    """The command: see above."""
    return ended(words, __doc__, work)
