#!/usr/bin/env python3
"""Compares the rules with the second calculation on random households: python3 examples/impot2023/check.py

At the top of the repository, after ./build. It computes --count households at once by the command `batch`, and compares all that is returned, and of
a declaration that a verification stops the verification. The households come from the seed alone. The status is 0 where none differs, 1 where one
does, and 2 where the program is missing or doesn't answer.

With --picture FILE it also draws the marginal rate over the income of a single person, from a table of its own. With --cases FILE it starts no program, and
writes the households as a table of cases, with the results of the second calculation. With --extremes the households are those that have a billion in one
box or in many, in the place of random ones.
"""
import argparse
import os
import random
import re
import subprocess
import sys
import tempfile
from fractions import Fraction

from drawn import CODES, extremes, mistaken, random_household
from household import Household
from verifications import answer

HERE = "examples/impot2023"
PROGRAMS = {"M_TAX": os.environ.get("M_TAX", "out/m_tax"), "M_SURVEY": os.environ.get("M_SURVEY", "out/m_survey")}
PART = 50_000  # households of one batch: a table has at most 100,000 rows and 16,777,216 bytes


def fields(household):
    """The amount of each code, nothing for 0."""
    return ["" if household[code] == 0 else spelled(household[code]) for code in CODES]


def started(*words, named_by="M_TAX"):
    """What a program prints, and its status."""
    program = PROGRAMS[named_by]
    try:
        run = subprocess.run([program, *words], capture_output=True, check=False)
    except OSError as fault:
        why = f"{program} can't be started ({fault.strerror})"
        print(f"check: {why}: ./build makes it, at the top of the repository; or name a program by {named_by}", file=sys.stderr)
        sys.exit(2)
    return run.stdout.decode("latin-1"), run.returncode


def read_answer(lines):
    """The values by their names, and what is noted by its number; or the number of the verification that stopped the run."""
    stop = re.fullmatch("failed ([0-9]+) .*", lines[0])
    if stop:
        return int(stop[1])
    notes = [k for k, line in enumerate(lines) if re.fullmatch("noted [0-9]+ .*", line)]
    values = [line for k, line in enumerate(lines) if line and k not in notes and k - 1 not in notes]
    answer = {line.split(" ")[0]: Fraction(line.split(" = ")[1]) if " = " in line else line for line in values}
    return {**answer, "noted": [int(lines[k].split(" ")[1]) for k in notes]}


def answers(households, room, driver=f"{HERE}/driver.mpp", requests=f"{HERE}/all.txt"):
    """The answers to all households, by batches."""
    parts = [households[start : start + PART] for start in range(0, len(households), PART)]
    return [one for part in parts for one in answers_of_part(part, room, driver, requests)]


def answers_of_part(households, room, driver, requests):
    """The answers to the households of one table."""
    table = os.path.join(room, "table.csv")
    with open(table, "w") as file:
        file.write("name," + ",".join(CODES) + "\n")
        for number, household in enumerate(households):
            file.write(f"h{number}," + ",".join(fields(household)) + "\n")
    text, status = started("batch", f"{HERE}/rules.list", driver, requests, table)
    blocks = re.split("^household h[0-9]+\n", text, flags=re.MULTILINE)[1:]
    if status != 0 or len(blocks) != len(households):
        print(f"check: batch: {text[:200].strip()} (status {status}, {len(blocks)} of {len(households)} households)", file=sys.stderr)
        sys.exit(2)
    return [read_answer(block.split("\n")) for block in blocks]


def draw(file_name, points):
    """Points of income and marginal rate in per cent as a picture."""
    width, height, left, low = 860, 420, 60, 370
    greatest = max(income for income, _ in points)
    place = lambda income, rate: f"{left + income * (width - left - 20) / greatest:.1f},{low - rate * 5.5:.1f}"
    lines = [f'<svg xmlns="http://www.w3.org/2000/svg" viewBox="0 0 {width} {height}" font-family="sans-serif" font-size="13">']
    lines.append(f'<rect width="{width}" height="{height}" fill="white"/>')
    for rate in range(0, 61, 10):
        at = low - rate * 5.5
        lines.append(f'<line x1="{left}" y1="{at}" x2="{width - 20}" y2="{at}" stroke="#dddddd"/>')
        lines.append(f'<text x="{left - 8}" y="{at + 4}" text-anchor="end">{rate} %</text>')
    for income in range(0, greatest + 1, 25000):
        at = left + income * (width - left - 20) / greatest
        lines.append(f'<text x="{at:.1f}" y="{low + 20}" text-anchor="middle">{income:,}</text>')
    lines.append(f'<text x="{width / 2}" y="{low + 42}" text-anchor="middle">taxable income of a single person, euros</text>')
    lines.append(f'<polyline fill="none" stroke="#1f4e9e" stroke-width="2" points="{" ".join(place(*p) for p in points)}"/>')
    lines.append("</svg>")
    with open(file_name, "w") as file:
        file.write("\n".join(lines) + "\n")


def picture(file_name, room):
    """Wages a thousand apart, so that one step of the taxable income is 900 or 1,000."""
    households = [Household({"1AJ": wage}) for wage in range(0, 221000, 1000)]
    results = answers(households, room)
    points = []
    for before, after in zip(results, results[1:]):
        step = after["RNI"] - before["RNI"]
        if step > 0:
            points.append((after["RNI"], 100 * (after["TOTAL"] - before["TOTAL"]) / step))
    draw(file_name, points)


def spelled(amount):
    """An amount as tables have it."""
    millionths = Fraction(amount) * 1_000_000
    if millionths.denominator != 1:
        sys.exit(f"check: {amount} has more than six decimals")
    return f"{'-' if amount < 0 else ''}{abs(millionths.numerator) // 1_000_000}.{abs(millionths.numerator) % 1_000_000:06}".rstrip("0").rstrip(".")


def write_cases(file_name, households):
    """A table of cases: the households, and the calculation's result for each value."""
    names = [name for name in answer(Household()) if name != "noted"]
    with open(file_name, "w") as file:
        file.write(",".join(["name", *CODES, *(f"={name}" for name in names)]) + "\n")
        for number, household in enumerate(households):
            said = answer(household)
            expected = ["stop"] * len(names) if isinstance(said, int) else [spelled(said[name]) for name in names]
            file.write(",".join([f"h{number}", *fields(household), *expected]) + "\n")


def main():
    parser = argparse.ArgumentParser(description=__doc__)
    parser.add_argument("--seed", type=int, default=2023)
    parser.add_argument("--count", type=int, default=20000)
    parser.add_argument("--picture")
    parser.add_argument("--cases")
    parser.add_argument("--extremes", action="store_true")
    told = parser.parse_args()
    chance = random.Random(told.seed)
    households = list(extremes()) if told.extremes else [mistaken(random_household(chance), chance) for _ in range(told.count)]
    if told.cases:
        write_cases(told.cases, households)
        return
    with tempfile.TemporaryDirectory() as room:
        results = answers(households, room)
        if told.picture:
            picture(told.picture, room)
    differ = 0
    for household, result in zip(households, results):
        wanted = answer(household)
        if result != wanted:
            differ += 1
            if differ <= 5:
                print(f"{household}: the rules say {result}, the calculation {wanted}")
    stopped = sum(isinstance(result, int) for result in results)
    drawn = "of a billion" if told.extremes else f"seed {told.seed}"
    print(f"{len(results)} households, {drawn}, of which {stopped} are stopped by a verification: {differ} differ")
    sys.exit(0 if differ == 0 and len(results) == len(households) > 0 else 1)


if __name__ == "__main__":
    main()
