"""Makes a folder with a rule base that runs: rules, a driver, a household, cases that reach all of it, and a check for continuous integration.

    new FOLDER [--lang en|fr]

FOLDER must not exist, or be empty. The names in its list count from the folder, so start the program there, or give the commands of this package `--here`.

    rules.list, rules.m     the rules; put your own in their place
    driver.mpp              what is computed, and in which order
    household.csv           a household, for `m_tax run`
    cases.csv               households with what is expected of them, for `cases`
    check.sh                the check: slips, cases, and that the cases reach all
    .gitlab-ci.yml          the same for GitLab; other services start check.sh in the same way
    README.md               the commands

The status is 0, 1 where FOLDER isn't free, 2 for wrong words, and 4 where a file can't be written; then nothing is left of it.
"""
from __future__ import annotations

import os

from .. import beginnings, source, texts
from ..endings import Wrong, ended
from ..program import whole_folder

FILES = {"rules.list": beginnings.LIST, "rules.m": beginnings.RULES, "driver.mpp": beginnings.DRIVER, "household.csv": beginnings.HOUSEHOLD,
         "cases.csv": beginnings.CASES, "check.sh": beginnings.CHECK, ".gitlab-ci.yml": beginnings.GITLAB, "README.md": beginnings.README}
WORDS = ("title", "readme", "heading", "replace", "wages", "children", "gifts", "deduction", "allowance", "gift_rate", "thresholds", "rates", "net", "gross",
         "reduction", "tax", "without", "gain", "more", "negative", "limited", "driver", "check", "gitlab")


def is_free(folder: str) -> bool:
    return not os.path.lexists(folder) or os.path.isdir(folder) and not os.listdir(folder)


def make(folder: str) -> None:
    """Writes the files. A folder of the name is complete."""
    said = {word: texts.said(f"new.{word}") for word in WORDS}
    with whole_folder(folder) as room:
        for name, text in FILES.items():
            path = os.path.join(room, name)
            source.put(path, (text.format(**said) if name not in ("cases.csv", "household.csv", "rules.list") else text).encode("utf-8"))
            if name == "check.sh":
                os.chmod(path, 0o777 & ~source.MASK)


def work(words: list[str]) -> int:
    """Does what the words say."""
    words = texts.language_of(words)
    if len(words) != 1 or words[0].startswith("--"):
        raise Wrong(texts.said("new.words"), 2)
    if not is_free(words[0]):
        raise Wrong(texts.said("new.exists", folder=words[0]))
    make(words[0])
    print(texts.said("new.made", folder=words[0]))
    return 0


def main(words: list[str]) -> int:
    """The command: see above."""
    return ended(words, __doc__, work)
