"""Prints what a report proves of a claimed value, and what it doesn't prove.

    check LIST HOUSEHOLD REPORT --claims "NAME = AMOUNT" [--driver DRIVER]

REPORT has the lines that `tools/why --report` or `why` of a session printed. The program's own `check` verifies that each follows from those above it,
and no more. This command applies that to the claim, and looks at what `check` doesn't: a report may be empty, may end in another cell, a verification may
stop the call of the rules, and a driver may give the cell another value. A claim may also be "NAME undefined" or "NAME over"; --claims may be given several
times.

    proved      follows from the report: the value is what the rules give in one call at the start of a run, for the household's amounts
    computed    what a run of the program gives
    not sound   a line of the report doesn't follow: a cell twice, a cell that its formula reads and no line above has, or another value than the formula's
    not proved  the report is sound, and doesn't have what is claimed
    stopped     a verification or a condition of the driver stops the run
    differs     the driver's run gives another value
    not said    what none of this proves

The status is 0 where all that is claimed is proved, no verification stops the call, and the driver, where one is given, gives the same; 1 where not, or where
the program refuses a file; 2 for wrong words; and 3 where a file can't be read.
"""
from __future__ import annotations


from .. import source
from ..claims import judged, read_claim
from ..copies import copied
from ..endings import Wrong, ended

WORDS = 'words: check LIST HOUSEHOLD REPORT --claims "NAME = AMOUNT" [--driver DRIVER]; see --help'


def read_words(words: list[str]) -> tuple[list[str], list[str], str | None]:
    """The three files, the claims, and the driver."""
    files, claims, driver = [], [], None
    while words:
        word = words.pop(0)
        if word == "--claims" and words:
            claims.append(words.pop(0))
        elif word == "--driver" and words and driver is None:
            driver = words.pop(0)
        elif word.startswith("--"):
            raise Wrong(WORDS, 2)
        else:
            files.append(word)
    if len(files) != 3 or not claims:
        raise Wrong(WORDS, 2)
    return files, claims, driver


def work(words: list[str]) -> int:
    """Does what the words say."""
    (list_name, household, report), claims, driver = read_words(words)
    told = [read_claim(claim) for claim in claims]
    with copied(list_name, household, driver) as (rules, copies):
        content = None if copies.driver == "-" else source.fetch(copies.driver)
        verdict = judged(rules, copies, source.fetch(report, 1 << 30), report, told, driver, content)
    print("\n".join(verdict.lines))
    return 0 if verdict.holds else 1


def main(words: list[str]) -> int:
    """The command: see above."""
    return ended(words, __doc__, work)
