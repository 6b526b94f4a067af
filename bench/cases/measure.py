#!/usr/bin/env python3
"""Times a hostile table of cases: each row expects 1,000 values, a fifth of which isn't met.

    measure.py [PROGRAM]

It writes tables of 800, 4,000 and 8,000 rows over a base of 1,000 sums into a folder of its own, and prints user and system seconds of `cases`,
the least of three runs, and the times of the time for the times of the rows, the last of which is a figure. The last line of each answer
is compared with the count that follows from how the table is made.
"""
import os
import resource
import subprocess
import sys
import tempfile

BENCH = os.path.dirname(os.path.dirname(os.path.abspath(__file__)))
sys.path.append(BENCH)
from measured import figure  # noqa: E402

ROOT = os.path.dirname(BENCH)
OUTPUTS, ROWS = 1_000, (800, 4_000, 8_000)


def write_rules(folder):
    names = [f"V{k:04d}" for k in range(OUTPUTS)]
    with open(os.path.join(folder, "a.m"), "w", encoding="ascii") as out:
        out.write('application iliad;\nXX : saisie alias 1AJ : "x";\n')
        out.writelines(f'{name} : calculee restituee : "v";\n' for name in names)
        out.write("regle 1 :\napplication : iliad;\n")
        out.writelines(f"{name} = XX + {k % 7};\n" for k, name in enumerate(names))
    with open(os.path.join(folder, "l.txt"), "w", encoding="ascii") as out:
        out.write("iliad\na.m\n")
    return names


def write_table(folder, names, rows):
    """A table whose row r expects one too much of output k where r + k is a multiple of 5."""
    with open(os.path.join(folder, "t.csv"), "w", encoding="ascii") as out:
        out.write("name,1AJ," + ",".join("=" + name for name in names) + "\n")
        for r in range(rows):
            out.write(f"h{r},1," + ",".join(str(1 + k % 7 + ((r + k) % 5 == 0)) for k in range(len(names))) + "\n")


def seconds(program, folder, rows):
    least = None
    for _ in range(3):
        before = resource.getrusage(resource.RUSAGE_CHILDREN)
        done = subprocess.run([program, "cases", "l.txt", "-", "-", "t.csv"], cwd=folder, stdout=subprocess.PIPE, check=False)
        after = resource.getrusage(resource.RUSAGE_CHILDREN)
        wanted = b"cases %d mismatches %d" % (rows, rows * OUTPUTS // 5)
        if done.returncode != 6 or done.stdout.rstrip(b"\n").split(b"\n")[-1] != wanted:
            sys.exit(f"{rows} rows: status {done.returncode}, {done.stdout[-80:]!r}, not {wanted!r}")
        took = after.ru_utime + after.ru_stime - before.ru_utime - before.ru_stime
        least = took if least is None else min(least, took)
    return least


def main():
    program = os.path.abspath(sys.argv[1] if len(sys.argv) > 1 else os.path.join(ROOT, "out/m_tax"))
    print("| rows of 1,000 expectations | MB | mismatches | seconds | times the rows | times the time |\n|---:|---:|---:|---:|---:|---:|")
    with tempfile.TemporaryDirectory() as folder:
        names = write_rules(folder)
        first = None
        for rows in ROWS:
            write_table(folder, names, rows)
            took = seconds(program, folder, rows)
            first = first or took
            size = os.path.getsize(os.path.join(folder, "t.csv")) / 1e6
            print(f"| {rows:,} | {size:.1f} | {rows * OUTPUTS // 5:,} | {took:.2f} | {rows / ROWS[0]:.0f} | {took / first:.1f} |", flush=True)
    figure("cases.8000_rows_to_800", took / first, "<=11")


main()
