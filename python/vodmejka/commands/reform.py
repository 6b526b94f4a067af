"""Reports what a change of rules does to the households of a table: who gains, who loses, how much.

    reform BEFORE AFTER DRIVER REQUESTS TABLE --of NAME [--weight COLUMN] [--by COLUMN] [--groups COLUMN]
           [--step CODE=AMOUNT] [--driver-after DRIVER] [--inputs] [--less-is-gain | --more-is-gain] [--lang en|fr] --into FOLDER

BEFORE and AFTER are lists of rule files (tools/variant makes one of the other), DRIVER and REQUESTS as the program takes them, and TABLE a table of
households of any length, which may have columns that are no codes: a weight for each household, and what they are ordered or grouped by. NAME is one of the
requests, or a sum as `TOTAL + LEVIES`. --by takes a column of the table, or a request, whose value before the change counts, and makes tenths; --groups takes
a column, and may be repeated. --driver-after names another driver for AFTER. --step computes each household once
more with so much more of one code, for marginal rates. --less-is-gain says that less of NAME is a gain, as of a tax,
and --more-is-gain that more of it is, as of a benefit. Without either less of it counts as a gain, and the page, summary.csv and the last line say so.

FOLDER, which must not be there, gets
    households.csv   name, weight, by, before, after, difference, with --step marginal before and marginal after, the groups, and with --inputs the
                     amounts of all codes; a row for each household. A text that a spreadsheet would compute has a ' before it
    summary.csv      sums, winners, losers, unchanged and stopped, of all, of each tenth and of each group, with the digests of the rules and of the program
    report.html      the same as a page with pictures, which needs no network and no script

All rule files, the drivers and the requests are read once at the beginning, so that a change in the middle of a run changes nothing; a table that is changed
meanwhile is refused. It is computed in parts by all processors, and memory is that of some parts. A weight is an amount of 0 or more. A household whose run
stops before or after, or whose NAME has no number, has empty fields, and counts as stopped. Sums are exact, and printed to the millionth. A tenth has a tenth
of the weight; a household is in the tenth in which its own weight begins, and those without a value of COLUMN are a line of their own. The status is 0, 1
where the program or a check refuses, 2 for wrong words, 3 where a file can't be read or written, and 4 where the output is closed or full. The program is
m_survey of this repository, or the one that M_SURVEY names.
"""
import argparse
import csv
import os
from fractions import Fraction

from .. import source
from ..amounts import UNIT, plain
from ..comparisons import TENTH
from ..endings import ended, files_named
from ..errors import Refused
from ..file_comparisons import compare_file
from ..long_tables import column_named
from ..program import whole_folder
from ..reform_page import page
from ..rules import Rules
from ..texts import language_of, said

SUMMARY = ["group", "households", "weight", "before", "after", "difference", "mean difference", "winners", "losers", "unchanged", "stopped", "a gain is"]
MORE = ["relative difference", "gained", "lost", "rules before", "rules after", "program"]


def line_of(group, by, digests):
    """The line of a group in summary.csv, in which a tenth has its number alone."""
    change = group.after - group.before
    mean = change * UNIT / group.weight if group.weight else Fraction(0)
    relative = plain(change / group.before * UNIT) if group.before else ""
    sums = [plain(sum_) for sum_ in (group.before, group.after, change, mean)]
    weights = [plain(weight) for weight in (group.winners, group.losers, group.unchanged, group.apart_weight)]
    gain = "less" if group.sign < 0 else "more"
    name = group.name.removesuffix(f" of {by}") if by is not None else group.name
    return [name, group.households, plain(group.weight + group.apart_weight), *sums, *weights, gain, relative, plain(group.gained), plain(group.lost), *digests]


def two_rules(words):
    """The rules before and after. What both have is read once."""
    before = Rules(words.before, *(None if word == "-" else word for word in (words.driver, words.requests)))
    after = before.with_list(words.after)
    if words.driver_after is None:
        return before, after
    return before, after.variant(driver=source.fetch(words.driver_after))


def written(words, room):
    """Writes the three files into a folder, and gives the comparison."""
    before, after = two_rules(words)
    groups = [*([TENTH + column_named(words.by)] if words.by is not None else []), *map(column_named, words.groups)]
    step = tuple(words.step.partition("=")[::2]) if words.step is not None else None
    weight = None if words.weight is None else column_named(words.weight)
    with open(os.path.join(room, "households.csv"), "wb") as lines:
        found = compare_file(
            before, after, words.table, of=words.of, weight=weight, by=groups, gain="more" if words.more_is_gain else "less", step=step,
            inputs=words.inputs, lines=lines,
        )
    whole = found.comparison.all
    if not whole.households:
        raise Refused(said("reform.none", table=words.table))
    if whole.apart == whole.households:
        raise Refused(said("reform.no_number", name=words.of))
    by = None if words.by is None else column_named(words.by)
    lines = [line_of(group, by, (*found.comparison.digests, found.comparison.program)) for group in found.comparison.groups]
    with open(os.path.join(room, "summary.csv"), "w", encoding="latin-1", newline="") as out:
        csv.writer(out, lineterminator="\n").writerows([SUMMARY + MORE, *lines])
    with open(os.path.join(room, "report.html"), "w", encoding="utf-8", errors="replace") as out:
        out.write(page(words, found, step, SUMMARY, [line[: len(SUMMARY)] for line in lines]))
    return found.comparison


def made(words):
    """Writes the folder, which gets its name when all is written, and returns the sums of all."""
    parent = os.path.dirname(os.path.abspath(words.into))
    if os.path.lexists(words.into):
        raise Refused(said("reform.there", folder=words.into))
    if not os.access(parent, os.W_OK):
        raise source.Refused(said("reform.unwritable", folder=parent))
    with whole_folder(words.into) as room:
        return written(words, room).all


def work(words):
    """Does what the words say."""
    reader = argparse.ArgumentParser(prog="reform")
    for name in ("before", "after", "driver", "requests", "table"):
        reader.add_argument(name, metavar=name.upper())
    reader.add_argument("--of", required=True, metavar="NAME")
    reader.add_argument("--into", required=True, metavar="FOLDER")
    for name in ("--weight", "--by"):
        reader.add_argument(name, metavar="COLUMN")
    reader.add_argument("--groups", metavar="COLUMN", action="append", default=[])
    reader.add_argument("--driver-after", metavar="DRIVER")
    reader.add_argument("--step", metavar="CODE=AMOUNT")
    reader.add_argument("--inputs", action="store_true")
    signs = reader.add_mutually_exclusive_group()
    signs.add_argument("--less-is-gain", action="store_true")
    signs.add_argument("--more-is-gain", action="store_true")
    words = reader.parse_args(language_of(words))
    with files_named(words.into):
        whole = made(words)
    print(said("reform.households", count=whole.households, stopped=whole.apart, name=words.of, before=plain(whole.before), after=plain(whole.after)))
    print(said("reform.winners", winners=plain(whole.winners), losers=plain(whole.losers), unchanged=plain(whole.unchanged), folder=words.into))
    if not words.more_is_gain and not words.less_is_gain:
        print(said("reform.taken", name=words.of))
    return 0


def main(words):
    """The command: see above."""
    return ended(words, __doc__, work)
