"""Tells what holds of the requested values for all households within ranges, as `m_survey facts` does; with --split on the parts of a range.

    facts [--split CODE=N].. LIST DRIVER REQUESTS RANGES

RANGES is `-` or csv, whose first record is `code,given,least,greatest`; docs/FACTS.md has its form, and what the lines say. --split cuts the range of an input
into N parts, and computes each of them; an input that may have no amount is a part of its own. With several codes each part of one is computed with each of the
others; there are at most 10,000 of them. Each household within the ranges is within a part. So what is printed holds for all: of each value the least
and the greatest amount of all parts, and `undefined` or `over` where a part has it; a verification never stops where it does in no part; and a value depends
on the codes of all parts, and on those that are split where it does without --split, unless it is the same in all parts.

The amounts of the parts of a BOOLEEN or an ENTIER are whole. The status is 0, that of the program where it refuses, 2 for wrong words, 3 where a file can't be
read, and 4 where the output is closed or full. The program is m_survey of this repository, or the one that M_SURVEY names.
"""
import csv
import io
import itertools
import os
import re
import subprocess
import sys
import tempfile
from collections import Counter
from decimal import Decimal

from .. import source
from ..endings import Wrong, ended
from ..errors import Broken
from ..facts import HEAD, Fact, facts_of
from ..limits import AMOUNT
from ..program import ENCODING, program_path

MOST_PARTS = 10_000
MILLIONTH = Decimal("0.000001")
WORDS = "words: facts [--split CODE=N].. LIST DRIVER REQUESTS RANGES; see --help"


class Ended(Exception):
    """The program refused: what it printed, and its status."""

    def __init__(self, text, status):
        super().__init__(text)
        self.status = status


def words_of(words):
    """The counts of parts by their codes, and the four other words."""
    splits = {}
    while words and words[0] == "--split":
        found = re.fullmatch("([^=]+)=([0-9]{1,5})", words[1]) if len(words) > 1 else None
        if found is None or int(found[2]) < 1:
            raise Wrong(WORDS, 2)
        if found[1] in splits:
            raise Wrong(f"{found[1]} is split twice", 2)
        splits[found[1]] = int(found[2])
        words = words[2:]
    if len(words) != 4 or any(word.startswith("--") for word in words):
        raise Wrong(WORDS, 2)
    return splits, words


def said(words):
    """What the program prints of a source and ranges."""
    done = subprocess.run([program_path(None, "m_survey"), "facts", *words], stdout=subprocess.PIPE, check=False)
    text = done.stdout.decode(ENCODING)
    if done.returncode != 0:
        raise Ended(text, done.returncode)
    return text


def records_of(path):
    """The records of ranges after the first, which the program has taken already."""
    if path == "-":
        return []
    text = source.fetch(path).removeprefix(source.MARK).decode(ENCODING)
    return [record for record in csv.reader(io.StringIO(text, newline="")) if record][1:]


def parts_of(record, kind, count):
    """The parts of a range, as records: so many with an amount, and one without where that may be."""
    code, given, least, greatest = record
    if given == "no":
        return [record]
    if not least:
        least, greatest = (0, 1) if kind == "BOOLEEN" else (-AMOUNT, AMOUNT)
    low, high = Decimal(least), Decimal(greatest)
    step = Decimal(1) if kind in ("BOOLEEN", "ENTIER") else MILLIONTH
    steps = int((high - low) / step)
    ends = sorted({low + steps * number // count * step for number in range(1, count)} | {high})
    parts = []
    for end in ends:
        if end >= low:
            parts.append([code, "yes", f"{low:f}", f"{end:f}"])
            low = end + step
    return parts + ([[code, "no", "", ""]] if given == "maybe" else [])


def grid(words, splits):
    """The parts of all codes that are split, each with each of the others, as whole files of ranges."""
    types = {variable.code: variable.type for variable in source.RuleBase(words[0]).variables if variable.code is not None}
    given = {record[0]: record for record in records_of(words[3])}
    for code in splits:
        if code not in types:
            raise Wrong(f"{code} is the code of no input", 2)
    cut = [parts_of(given.get(code, [code, "maybe", "", ""]), types[code], count) for code, count in splits.items()]
    others = [record for code, record in given.items() if code not in splits]
    total = 1
    for parts in cut:
        total *= len(parts)
    if total > MOST_PARTS:
        raise Wrong(f"{total} parts, and at most {MOST_PARTS:,} may be", 2)
    return [[HEAD, *others, *some] for some in itertools.product(*cut)]


def text_of(records):
    """Records as csv."""
    out = io.StringIO()
    csv.writer(out, lineterminator="\n").writerows(records)
    return out.getvalue().encode(ENCODING)


def joined(facts, splits, order):
    """What holds of a value in one of the parts, of which these are the facts, where it depends on these of the codes that are split."""
    ends = [fact for fact in facts if fact.least is not None]
    whole = Fact(
        min((fact.least for fact in ends), default=None), max((fact.greatest for fact in ends), default=None),
        any(fact.undefined for fact in facts), any(fact.over for fact in facts), (),
    )
    kinds = [whole.least is not None, whole.undefined, whole.over].count(True)
    if kinds == 1 and whole.least == whole.greatest:
        return whole
    read = {code for fact in facts for code in fact.depends} | splits
    return whole._replace(depends=tuple(code for code in order if code in read))


def join(whole, texts, splits, order):
    """The lines of the parts as those of their whole, of which it is known what holds without them."""
    whole, parts = facts_of(whole, ("", "")), [facts_of(text, ("", "")) for text in texts]
    names = [line.split(" ")[0] for line in texts[0].split("\n")[:-1]]
    names = names[:len(names) - len(parts[0].never_stops) - len(parts[0])]
    facts = {name: joined([part[name] for part in parts], splits & set(whole[name].depends), order) for name in parts[0]}
    silent = Counter(parts[0].never_stops)
    for part in parts[1:]:
        silent &= Counter(part.never_stops)
    lines = [f"{name} {facts[name]}" for name in names]
    for label in parts[0].never_stops:
        if silent[label]:
            silent[label] -= 1
            lines.append(f"never stops {label[0]} {label[1]}")
    lines += [" ".join(["depends", name, *fact.depends]) for name, fact in facts.items()]
    return "".join(line + "\n" for line in lines)


def tell(words):
    """Prints what holds of the values."""
    splits, words = words_of(words)
    whole = said(words)
    if splits:
        order = [variable.code for variable in source.RuleBase(words[0]).variables if variable.code is not None]
        texts = []
        with tempfile.TemporaryDirectory() as room:
            path = os.path.join(room, "ranges.csv")
            for records in grid(words, splits):
                source.put(path, text_of(records))
                texts.append(said([*words[:3], path]))
        whole = join(whole, texts, set(splits), order)
    sys.stdout.write(whole)


def work(words):
    """Does what the words say."""
    try:
        tell(words)
    except Ended as refused:
        sys.stdout.write(str(refused))
        return refused.status
    except Broken as fault:
        raise Wrong(str(fault), 3) from fault
    return 0


def main(words):
    """The command: see above."""
    return ended(words, __doc__, work)
