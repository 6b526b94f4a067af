#!/usr/bin/env python3
"""Times two programs by turns over one table: measure.py M_TAX M_SURVEY TABLE, in the repository.

On one processor seconds of the processor count, on all the clock's.
"""
import os
import resource
import statistics
import subprocess
import sys
import time

sys.path.insert(0, os.path.join(os.path.dirname(os.path.abspath(__file__)), os.pardir))
from measured import figure  # noqa: E402

M_TAX, M_SURVEY, TABLE = sys.argv[1:]
SOURCE = ["examples/impot2023/rules.list", "examples/impot2023/driver.mpp", "-", TABLE]
TURNS = 15


def took(words):
    """Seconds by the clock and of the processors."""
    before, begin = resource.getrusage(resource.RUSAGE_CHILDREN), time.monotonic()
    subprocess.run(words, stdout=subprocess.DEVNULL, check=True)
    after = resource.getrusage(resource.RUSAGE_CHILDREN)
    return time.monotonic() - begin, after.ru_utime + after.ru_stime - before.ru_utime - before.ru_stime


def main():
    print(f"load {os.getloadavg()[0]:.1f}, {os.cpu_count()} processors, {TURNS} turns, medians\n")
    print("| 100,000 households | `batch`, s | `table`, s | `table` to `batch` |")
    print("|---|---:|---:|---:|")
    for what, front, which in (("one processor, its seconds", ["taskset", "-c", "0"], 1), ("all, by the clock", [], 0)):
        found = [(took([*front, M_TAX, "batch", *SOURCE])[which], took([*front, M_SURVEY, "table", *SOURCE])[which]) for _ in range(TURNS)]
        batch, table = (statistics.median(one[k] for one in found) for k in (0, 1))
        print(f"| {what} | {batch:.3f} | {table:.3f} | {table / batch:.2f} |")
        figure(f"survey.table_to_batch_{'one' if front else 'all'}", table / batch, "<=1.1")


main()
