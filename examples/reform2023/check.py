#!/usr/bin/env python3
"""Compares what tools/reform wrote with the second calculation of examples/impot2023: python3 examples/reform2023/check.py FOLDER [REFORM]

FOLDER is what make.sh made, of REFORM (thresholds, children or capital). Each household of table.csv is computed before and after the reform by
calculation.py, in exact fractions, and compared with its line of households.csv; so are the sums, weighted, with the first line of summary.csv, and those of
each tenth with its own. The status is 0 where nothing differs.
"""
import csv
import os
import sys
from fractions import Fraction

sys.path.insert(0, os.path.join(os.path.dirname(os.path.dirname(os.path.abspath(__file__))), "impot2023"))
from calculation import taxable_income, total  # noqa: E402
from household import Household, Law  # noqa: E402

REFORMS = {
    "thresholds": Law(begin_of_30=29797, half_part=1559),
    "children": Law(for_each_child=1500),
    "capital": Law(capital_by_scale=True),
}


def household_of(row):
    """The household of a row of the table."""
    return Household({code: int(text) for code, text in row.items() if text and code not in ("name", "weight")})


def computed(path, law):
    """For each household of a table its label, weight, taxable income, and what it pays before and after."""
    with open(path, encoding="latin-1", newline="") as file:
        for row in csv.DictReader(file):
            household = household_of(row)
            yield row["name"], Fraction(row["weight"]), taxable_income(household), total(household), total(household, law)


def lines_of(path):
    with open(path, encoding="latin-1", newline="") as file:
        return list(csv.DictReader(file))


def sums(rows):
    """The figures of a line of summary.csv."""
    return {
        "households": len(rows),
        "weight": sum(weight for _, weight, *_ in rows),
        "before": sum(weight * before for _, weight, _, before, _ in rows),
        "after": sum(weight * after for _, weight, _, _, after in rows),
        "difference": sum(weight * (after - before) for _, weight, _, before, after in rows),
        "winners": sum(weight for _, weight, _, before, after in rows if after < before),
        "losers": sum(weight for _, weight, _, before, after in rows if after > before),
        "unchanged": sum(weight for _, weight, _, before, after in rows if after == before),
        "stopped": 0,
    }


def tenths(rows):
    """The rows of each tenth of the weight, by the taxable income; those of equal income are in the order of the table."""
    whole, passed, found = sum(weight for _, weight, *_ in rows), 0, [[] for _ in range(10)]
    for row in sorted(rows, key=lambda row: row[2]):
        found[min(9, int(passed * 10 / whole))].append(row)
        passed += row[1]
    return found


def main():
    folder = sys.argv[1]
    law = REFORMS[sys.argv[2] if len(sys.argv) > 2 else "thresholds"]
    rows = list(computed(os.path.join(folder, "table.csv"), law))
    told = lines_of(os.path.join(folder, "report", "households.csv"))
    wanted = [(name, weight, income, before, after, after - before) for name, weight, income, before, after in rows]
    said = [(row["name"], *(Fraction(row[column]) for column in ("weight", "by", "before", "after", "difference"))) for row in told]
    differ = sum(one != other for one, other in zip(wanted, said)) + abs(len(wanted) - len(said))
    groups = [sums(rows), *map(sums, tenths(rows))]
    lines = lines_of(os.path.join(folder, "report", "summary.csv"))
    wrong = (any(Fraction(line[column]) != figure for column, figure in group.items()) for line, group in zip(lines, groups))
    others = sum(wrong) + abs(len(lines) - len(groups))
    print(f"{len(rows)} households by the calculation: {float(groups[0]['before']):.1f} before, {float(groups[0]['after']):.1f} after")
    print(f"{differ} households differ, {others} of {len(lines)} lines of the summary")
    sys.exit(1 if differ or others or not rows else 0)


if __name__ == "__main__":
    main()
