#!/usr/bin/env python3
"""Computes a table of made-up households over examples/impot2023 with tools/scale, each step timed, to csv.

    measure.py PROGRAM FOLDER [HOUSEHOLDS [STEP..]]

PROGRAM is m_survey.

The steps are make, cut, run, join, in this order (all of them, where none is named), each of which needs those before it in the same FOLDER. HOUSEHOLDS is
38,000,000 by default, for which FOLDER needs 12 GB. The table is made by households.c; `cut` checks that no label occurs twice,
`run` looks at each record of the answers, and `join` looks through all of them again and prints one csv into a file. For each step:
seconds by the clock, seconds of all processors, and bytes.
"""
import os
import resource
import subprocess
import sys
import time

HERE = os.path.dirname(os.path.abspath(__file__))
ROOT = os.path.dirname(os.path.dirname(HERE))
sys.path.insert(0, os.path.dirname(HERE))
from measured import figure  # noqa: E402

WORDS = [f"examples/impot2023/{name}" for name in ("rules.list", "driver.mpp")] + ["-"]
NATION = 38_000_000
STEPS = ["make", "cut", "run", "join"]
LIMIT = 300


def sizes(folder, ending):
    return sum(entry.stat().st_size for entry in os.scandir(folder) if entry.name.endswith(ending))


def done(name, words, out, households):
    """Does a step, and prints what it took. What runs in other processes is counted with it."""
    before, begin = resource.getrusage(resource.RUSAGE_CHILDREN), time.monotonic()
    child = subprocess.run(words, stdout=out, cwd=ROOT, check=False)
    elapsed, after = time.monotonic() - begin, resource.getrusage(resource.RUSAGE_CHILDREN)
    if child.returncode != 0:
        sys.exit(f"{name}: status {child.returncode}")
    used = after.ru_utime + after.ru_stime - before.ru_utime - before.ru_stime
    print(f"| {name} | {elapsed:.1f} | {used:.1f} | {households / elapsed:,.0f} |", flush=True)
    return elapsed


def counted(path):
    """How many households a csv has. (Labels have no line ends.)"""
    with open(path, "rb") as text:
        return sum(1 for _ in text) - 1


def main():
    program, room = os.path.abspath(sys.argv[1]), os.path.abspath(sys.argv[2])
    households = int(sys.argv[3]) if len(sys.argv) > 3 else NATION
    steps = sys.argv[4:] or STEPS
    os.environ["M_SURVEY"] = program
    os.makedirs(room, exist_ok=True)
    table, parts, answers = (os.path.join(room, name) for name in ("table.csv", "parts", "answers.csv"))
    total = 0
    print("| step | seconds by the clock | seconds of the processors | households a second |\n|---|---:|---:|---:|")
    if "make" in steps:
        maker = os.path.join(room, "households")
        subprocess.run(["gcc", "-O2", "-o", maker, os.path.join(HERE, "households.c")], check=True)
        with open(table, "wb") as out:
            done("making the table", [maker, str(households)], out, households)
    if "cut" in steps:
        total += done("`scale cut --once`", ["tools/scale", "cut", table, parts, "--once"], subprocess.DEVNULL, households)
    if "run" in steps:
        total += done("`scale run`", ["tools/scale", "run", parts, *WORDS, "--csv"], subprocess.DEVNULL, households)
    if "join" in steps:
        with open(answers, "wb") as out:
            total += done("`scale join`", ["tools/scale", "join", parts, "--csv"], out, households)
        sizes_now = [os.path.getsize(table), sizes(parts, ".csv"), sizes(parts, ".out"), os.path.getsize(answers)]
        print("\nThe table, the parts, their answers and the joined answers have " + ", ".join(f"{size / 1e9:.2f}" for size in sizes_now) + " GB.")
    if steps == STEPS:
        if households == counted(answers):
            figure(f"scale.{households}_households_s", total, f"<={LIMIT * households / NATION:.4g}")
        else:
            sys.exit("other households")


main()
