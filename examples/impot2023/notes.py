#!/usr/bin/env python3
"""Compares what is noted of the households that are worked out by hand with what a person wrote: python3 examples/impot2023/notes.py

At the top of the repository, after ./build; M_TAX names another program. Cases say nothing of notes, so this does: it computes the households of worked/*.txt
by one call of the rules, and counts those that each verification stops or notes. The status is 0 where nothing differs, and else 1.
"""
import sys
import tempfile
from collections import Counter

import check
import worked
from household import Household


def noted_otherwise(households, answers):
    """The households whose notes or stop aren't those that a person wrote."""
    said = [answer if isinstance(answer, int) else answer["noted"] for answer in answers]
    return [f"{one.name}: noted {noted}" for one, noted in zip(households, said, strict=True) if noted != (one.stop or one.notes)]


def main():
    households = worked.households()
    with tempfile.TemporaryDirectory() as room:
        answers = check.answers([Household(one.boxes) for one in households], room, "-")
    differ = noted_otherwise(households, answers)
    for line in differ:
        print(line)
    verifications = Counter(number for answer in answers for number in ([answer] if isinstance(answer, int) else answer["noted"]))
    print("verifications: " + ", ".join(f"{number} in {count}" for number, count in sorted(verifications.items())))
    print(f"{len(households)} households: {len(differ)} differ")
    sys.exit(1 if differ or not households else 0)


if __name__ == "__main__":
    main()
