#!/usr/bin/env python3
"""Times `facts` against `lint`: measure.py M_TAX M_SURVEY FOLDER

At the top of the repository. Of examples/impot2023 with its driver by the clock, as a user waits for it: 30 runs of each by turns, and an empty table
of households, which only compiles. Of the base of `large N` (bench/flat/generate.py) with 100,000 rules, with ranges for its 100,000 inputs and without: user
and system seconds, the least of three runs. What is printed must be what the rules give by hand.
"""
import os
import statistics
import subprocess
import sys
import time

HERE = os.path.dirname(os.path.abspath(__file__))
BENCH = os.path.dirname(HERE)
sys.path.insert(0, BENCH)
from measured import figure, least, machine

YEAR = [f"examples/impot2023/{name}" for name in ("rules.list", "driver.mpp", "all.txt")]
N, RUNS = 100_000, 30


def waited(command):
    """Seconds by the clock of one run, and what it prints."""
    begin = time.perf_counter()
    done = subprocess.run(command, stdout=subprocess.PIPE, check=True)
    return time.perf_counter() - begin, done.stdout


def of_the_year(program, survey, folder):
    """Seconds of facts and of lint of the real year, by turns."""
    table = os.path.join(folder, "none.csv")
    with open(table, "w") as out:
        out.write("name,1AJ\n")
    commands = {
        "`facts` within ranges.csv": [survey, "facts", *YEAR, "examples/impot2023/ranges.csv"],
        "`facts` without ranges": [survey, "facts", *YEAR, "-"],
        "`lint`": [program, "lint", *YEAR],
        "`batch` of no household": [program, "batch", *YEAR, table],
    }
    seconds = {name: [] for name in commands}
    for _ in range(RUNS):
        for name, command in commands.items():
            spent, text = waited(command)
            seconds[name].append(spent)
            if name == "`facts` within ranges.csv" and b"\nCHR 0 to 832002500\n" not in text:
                sys.exit(f"facts of the year: {text[:200]}")
    print(f"| `examples/impot2023` | least, ms | median, ms |\n|---|---:|---:|")
    for name, some in seconds.items():
        print(f"| {name} | {1000 * min(some):.1f} | {1000 * statistics.median(some):.1f} |")
    print()
    figure("facts.impot2023_ms", 1000 * statistics.median(seconds["`facts` within ranges.csv"]), "<=20")


def of_many_rules(program, survey, folder):
    """Seconds of facts and of lint of 100,000 rules. Each input is from 0 to 10,000, so that each rule adds 9,000 at most."""
    subprocess.run([sys.executable, f"{BENCH}/flat/generate.py", str(N), "0", folder], check=True)
    with open(os.path.join(folder, "ranges.csv"), "w") as out:
        out.write("code,given,least,greatest\n" + "".join(f"C{k},yes,0,10000\n" for k in range(N)))
    source = ["list.txt", "-", "requests.txt"]
    commands = {
        "`facts` within 100,000 ranges": ([survey, "facts", *source, "ranges.csv"], f"T{N - 1} 0 to {9000 * N}\nnever stops 1 E1\ndepends T{N - 1} C0 C1 "),
        "`facts` without ranges": ([survey, "facts", *source, "-"], f"T{N - 1} "),
        "`lint`": ([program, "lint", *source], ""),
    }
    print("| `large 100000` | seconds | peak, MB |\n|---|---:|---:|")
    times = {}
    for name, (command, wanted) in commands.items():
        times[name], peak, status, text = least(command, folder)
        if status != 0 or not text.startswith(wanted.encode()):
            sys.exit(f"{name}: status {status}, {text[:200]}")
        print(f"| {name} | {times[name]:.3f} | {peak / 1e6:.0f} |", flush=True)
    print()
    figure("facts.large_100000_to_lint", times["`facts` without ranges"] / times["`lint`"], "<=1.3")
    figure("facts.large_100000_within_ranges_to_lint", times["`facts` within 100,000 ranges"] / times["`lint`"], "<=1.3")


def main():
    program, survey, folder = (os.path.abspath(word) for word in sys.argv[1:4])
    print(f"{machine()}\n")
    of_the_year(program, survey, folder)
    of_many_rules(program, survey, folder)


main()
