#!/usr/bin/env python3
"""Looks for households that refute what `m_survey facts` prints: python3 examples/impot2023/within.py

At the top of the repository, after ./build. The ranges are ranges.csv, or those that --ranges names. It computes --count random households, and those
that have a billion in one box or in many, by the command `batch` of m_tax: each of them with the nearest amounts within the ranges. Each value must be one
that its line has, no verification that never stops may stop a household or be noted, and where the boxes that aren't listed after `depends` are those of
another household, the value must be the same. This is done for what the driver returns, and for all computed cells by one call of the rules, of which it
also counts those that may be over. The status is 0 if no household refutes a line, 1 where one does, and 2 where a program is missing or
doesn't answer. M_TAX and M_SURVEY name other programs than those of ./build. The first refutation of a line is printed.
"""
import argparse
import csv
import os
import random
import re
import sys
import tempfile
from collections import Counter
from fractions import Fraction

from check import HERE, answers, started
from drawn import extremes, random_household
from household import Household

COMPUTED = re.compile(r"(\w+) : (?:tableau\[(\d+)\] )?calculee ")
CONDITION = re.compile(r"verif (\d+) :|\balors erreur ")
PAIRS = 20


def rule_lines():
    """The lines of all rule files."""
    with open(f"{HERE}/rules.list") as names:
        for name in names.read().split()[1:]:
            with open(name, encoding="latin-1") as file:
                yield from file


def computed_cells():
    """The names of all computed variables, and of the cells of tables."""
    for declared in filter(None, map(COMPUTED.match, rule_lines())):
        name, size = declared.groups()
        yield from [name] if size is None else [f"{name}[{k}]" for k in range(int(size))]


def conditions():
    """How many conditions each verification has, by its number."""
    count, verification = Counter(), None
    for found in CONDITION.finditer("".join(rule_lines())):
        verification = int(found[1]) if found[1] else verification
        count[verification] += found[1] is None
    return count


class Facts:
    """What `facts` prints: the words of each name, the verifications that never stop, and the codes on which each name depends."""

    def __init__(self, driver, requests, ranges):
        text, status = started("facts", f"{HERE}/rules.list", driver, requests, ranges, named_by="M_SURVEY")
        if status != 0:
            print(f"within: facts: {text[:200].strip()} (status {status})", file=sys.stderr)
            sys.exit(2)
        self.possible, self.depends, silent = {}, {}, Counter()
        for line in text.splitlines():
            first, name, *codes = line.split(" ")
            if first == "depends":
                self.depends[name] = codes
            elif line.startswith("never stops "):
                silent[int(codes[0])] += 1
            else:
                self.possible[first] = line.removeprefix(first + " ")
        self.silent = {number for number, count in conditions().items() if silent[number] == count}

    def over(self):
        """The names that may be over."""
        return [name for name, words in self.possible.items() if words.endswith("over")]

    def against(self, answer):
        """What an answer refutes of it."""
        if isinstance(answer, int):
            return [f"{answer} stops"] if answer in self.silent else []
        noted = [f"{number} is noted" for number in answer["noted"] if number in self.silent]
        return noted + [f"{name} is {answer[name]}, not {words}" for name, words in self.possible.items() if not is_possible(words, answer[name])]


def is_possible(words, value):
    """Whether a value is one that a line has, as `0 to 9000 or undefined`."""
    kinds = words.split(" or ")
    if isinstance(value, str):
        return value.split(" ")[-1] in kinds
    if kinds[0] in ("undefined", "over"):
        return False
    ends = [Fraction(end) for end in kinds[0].split(" to ")]
    return ends[0] <= value <= ends[-1]


def read_ranges(path):
    """The least and the greatest amount of each code that may be given."""
    with open(path, newline="") as file:
        return {row["code"]: (int(row["least"]), int(row["greatest"])) for row in csv.DictReader(file) if row["given"] != "no"}


def within(household, ranges):
    """The household within the ranges: without the boxes that have no amount there, and with the nearest amounts that the others may have."""
    amounts = {code: min(max(amount, ranges[code][0]), ranges[code][1]) for code, amount in household.boxes.items() if code in ranges}
    return Household(amounts)


def mixed(household, other, codes):
    """A household that agrees with one on these codes, and on all others with another one."""
    kept = {code: amount for code, amount in household.boxes.items() if code in codes}
    return Household({**{code: amount for code, amount in other.boxes.items() if code not in codes}, **kept})


def told_against(facts, households, driver, requests, room):
    """What households refute of facts, how many of them have values, and of how many pairs neither is stopped."""
    pairs = [(name, one, mixed(one, other, codes)) for one, other in zip(households[:PAIRS], households[1:]) for name, codes in facts.depends.items()]
    found = answers(households + [both for _, _, both in pairs], room, driver, requests)
    wrong = [line for answer in found for line in facts.against(answer)]
    compared = 0
    for k, (name, one, both) in enumerate(pairs):
        before, after = found[k // len(facts.depends)], found[len(households) + k]
        if not isinstance(before, int) and not isinstance(after, int):
            compared += 1
            wrong += [f"{name} is {before[name]} of {one}, and {after[name]} of {both}"] if before[name] != after[name] else []
    return wrong, sum(not isinstance(answer, int) for answer in found[: len(households)]), compared


def main():
    parser = argparse.ArgumentParser(description=__doc__)
    parser.add_argument("--ranges", default=f"{HERE}/ranges.csv")
    parser.add_argument("--seed", type=int, default=2023)
    parser.add_argument("--count", type=int, default=1000)
    told = parser.parse_args()
    chance, ranges = random.Random(told.seed), read_ranges(told.ranges)
    households = [within(one, ranges) for one in [*(random_household(chance) for _ in range(told.count)), *extremes()]]
    failed = told.count < 2
    with tempfile.TemporaryDirectory() as room:
        cells = os.path.join(room, "cells")
        with open(cells, "w") as file:
            file.write("".join(f"{name}\n" for name in computed_cells()))
        for what, driver, requests in (("values of the driver", f"{HERE}/driver.mpp", f"{HERE}/all.txt"), ("computed cells", "-", cells)):
            facts = Facts(driver, requests, told.ranges)
            wrong, valued, compared = told_against(facts, households, driver, requests, room)
            for line in {line.split(" ")[0]: line for line in reversed(wrong)}.values():
                print(line)
            print(
                f"{len(facts.possible)} {what}, {len(facts.over())} over; {len(facts.silent)} verifications never stop; {len(households)} households "
                f"({valued} with values) and {compared} pairs: {len(wrong)} tell against it"
            )
            failed |= bool(wrong or facts.over() or not valued or not compared)
    sys.exit(1 if failed else 0)


if __name__ == "__main__":
    main()
