"""Reports which formulas, branches, cells, verifications and commands of a driver no case reaches.

    coverage LIST DRIVER CASES.. [--least PERCENT] [--except FILE] [--page FILE] [--lcov FILE] [--lang en|fr] [--here]

LIST and DRIVER are those of `m_tax run`; CASES are tables of cases or of households. Each household is computed by the program, with all variables requested,
and by an interpreter here that counts; where the two differ in a value, no coverage is reported. What counts:

    formula         of a variable: its value is a number other than 0 in a case; without a variable in it, it is computed
    branch          of a conditional: it is taken. Without sinon the condition is 0 in a case
    bound           of max and min: each argument decides in a case
    cell            of a table, with a formula: a formula, a verification or the driver reads it
    verification    it fails in a case
    command         of the driver: it is done; of an if, both ways

Instances of loops count one by one, and what one `somme` repeats counts once. What no case reaches is printed with its place, and then how much is reached.

    --least PERCENT     the status is 1 where less is reached
    --except FILE       what needn't be reached, a line each, as it is printed: cell TAUX[0]. A line of what is reached, or doesn't exist, is rejected
    --page FILE         writes a page with the sources, coloured by what is reached
    --lcov FILE         writes what LCOV and what reads its files take
    --lang en|fr        the language of the messages, else that of the machine
    --here              the names in LIST count from its folder

It doesn't look at what cases expect: `cases` does. The status is 0, 1 where the program rejects a file or less than --least is reached, 2 for wrong words,
3 where a file can't be read, and 4 where one can't be written. The program is ./m_tax of this repository, or the one that M_TAX names.
"""
from __future__ import annotations

import re
import tempfile

from .. import case_tables, coverage, coverage_page, here, lcov, records, source, texts
from ..endings import Wrong, ended
from ..options import read_options
from ..points import Point

OPTIONS = ("--least", "--except", "--page", "--lcov")


def options(words: list[str]) -> tuple[list[str], dict[str, str]]:
    """The words without options, and the options with their values."""
    read = read_options(words, OPTIONS, ["--here"])
    if read is None or len(read[0]) < 3:
        raise Wrong(texts.said("coverage.words"), 2)
    said, found = read[0], {option: "".join(values) for option, values in read[1].items()}
    if "--least" in found and not re.fullmatch(r"(100|[0-9]{1,2})(\.[0-9]{1,3})?", found["--least"]):
        raise Wrong(texts.said("coverage.least", text=found["--least"]), 2)
    return said, found


def exceptions(name: str | None, followed: coverage.Coverage) -> set[str]:
    """What needn't be reached: each must be a point, and must not be reached."""
    if name is None:
        return set()
    reached: dict[str, bool] = {}
    for k in followed.counted():
        key = followed.points.all[k].key
        reached[key] = reached.get(key, True) and followed.points.hits[k] > 0
    found = set()
    for number, line in enumerate(source.lines_of(source.fetch(name)), 1):
        key = line.decode("latin-1").partition(" # ")[0].strip()
        if not key or key.startswith("#"):
            continue
        if key not in reached or reached[key]:
            raise Wrong(texts.said("coverage.exception.none" if key not in reached else "coverage.exception.reached", name=name, line=number, point=key))
        found.add(key)
    return found


def told(followed: coverage.Coverage, point: Point) -> str:
    path, line = followed.place(point)
    return f"{path}:{line}: {point.key}: {texts.said(point.why)}"


def is_enough(reached: int, of: int, least: str | None) -> bool:
    """Whether this percentage is reached, exactly."""
    if least is None:
        return True
    whole, _, decimals = least.partition(".")
    return reached * 10 ** (len(decimals) + 2) >= int(whole + decimals) * of


def follow(said: list[str], found: dict[str, str], room: str) -> int:
    list_name = here.list_here(said[0], room) if "--here" in found else said[0]
    tables = [case_tables.CaseTable(name) for name in said[2:]]
    followed = coverage.Coverage(list_name, said[1], tempfile.mkdtemp(dir=room))
    households = followed.follow(tables)
    excepted = exceptions(found.get("--except"), followed)
    for point in followed.missing(excepted):
        print(told(followed, point))
    summary = followed.summary(excepted)
    for kind, reached, of in summary:
        if of:
            print(texts.said(f"coverage.of.{kind}", reached=reached, of=of))
    reached, of = sum(one for _, one, _ in summary), sum(one for _, _, one in summary)
    print(texts.said("coverage.all", households=households, reached=reached, of=of, percent=coverage.percent_of(reached, of)))
    if "--page" in found:
        source.put(found["--page"], coverage_page.page(followed, excepted, said, households).encode("utf-8", "replace"))
    if "--lcov" in found:
        source.put(found["--lcov"], lcov.tracefile(followed, excepted))
    return 0 if is_enough(reached, of, found.get("--least")) else 1


def work(words: list[str]) -> int:
    """Does what the words say."""
    said, found = options(texts.language_of(words))
    try:
        with tempfile.TemporaryDirectory(prefix="coverage-") as room:
            return follow(said, found, room)
    except (coverage.Differs, records.Strange) as differs:
        raise Wrong(texts.said("coverage.differs", what=differs)) from differs


def main(words: list[str]) -> int:
    """The command: see above."""
    return ended(words, __doc__, work)
