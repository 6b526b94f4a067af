#!/usr/bin/env python3
"""Times whole runs over the base of `large N`, without a driver and with one of 20 calls of the rules.

    measure.py PROGRAM FOLDER

The weight of a base of N is 9 N + 6 or so for each call; a node of the flat program is an input, a literal or an operator.
Each line has the least time of the processor (user and system) of three runs and the peak of resident memory.
"""
import os
import subprocess
import sys

sys.path.insert(0, os.path.dirname(os.path.dirname(os.path.abspath(__file__))))
from measured import figure, least

HERE = os.path.dirname(os.path.abspath(__file__))
SHAPES = [(10_000, 0), (100_000, 0), (1_000, 20), (10_000, 20)]


def wanted(n, calls):
    """The one line that is printed, worked out again from the formulas."""
    first = 1000 + calls - 1 if calls else 0
    amounts = [first] + [997 * k % 5000 for k in range(1, n)]
    return f"T{n - 1} = {sum(max(0, amount - 1000) for amount in amounts)}\n".encode()


def main():
    program, room = sys.argv[1:3]
    print("| N | calls of the rules | seconds | peak, MB |\n|---:|---:|---:|---:|")
    times = {}
    for n, calls in SHAPES:
        folder = os.path.join(room, f"{n}_{calls}")
        subprocess.run([sys.executable, f"{HERE}/generate.py", str(n), str(calls), folder], check=True)
        command = [program, "run", "list.txt", "driver.mpp" if calls else "-", "requests.txt", "household.csv"]
        seconds, peak, status, text = least(command, folder)
        if (status, text) != (0, wanted(n, calls)):
            sys.exit(f"{n}, {calls}: status {status}, {text[:200]}")
        print(f"| {n:,} | {max(calls, 1)} | {seconds:.3f} | {peak / 1e6:.0f} |", flush=True)
        times[n, calls] = seconds
    figure("flat.large_100000_to_10000", times[100_000, 0] / times[10_000, 0], "<=12")
    figure("flat.large_100000_s", times[100_000, 0])


main()
