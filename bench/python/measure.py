#!/usr/bin/env python3
"""Times a million households by `.batch` of python/vodmejka against the command `batch` alone: measure.py PROGRAM FOLDER [ROWS]

At the top of the repository. The rules are those of examples/impot2023 with their driver: nine codes, eight values.
The command computes ROWS (1,000,000) in tables of 100,000, which is the most that one takes, and its output is dropped.
Python is handed the same households one after the other, and reads of each answer nothing, one value, or all. Seconds are user and system
of the process and of what it starts, one run each. Since the machine may be loaded, the command is run again before each of these,
and a ratio is that to the run right before. The sums of what is paid are compared. What the bench's own loop takes (it makes no household,
but hands them out, reads and adds) is measured over dicts instead of answers, and printed on a line of its own:
it is a part of Python's seconds, and of the ratio.
"""
import collections
import itertools
import os
import re
import resource
import sys
import time
from decimal import Decimal
from types import SimpleNamespace

HERE = os.path.dirname(os.path.abspath(__file__))
ROOT = os.path.dirname(os.path.dirname(HERE))
sys.path[:0] = [os.path.dirname(HERE), os.path.join(ROOT, "python"), os.path.join(ROOT, "examples", "reform2023")]
from households import CODES, SEED, drawn  # noqa: E402
from measured import figure, machine, timed  # noqa: E402

WORDS = ["examples/impot2023/rules.list", "examples/impot2023/driver.mpp"]
MADE, PART = 10_000, 100_000
READ = {"nothing": lambda answer: 0, "one value": lambda answer: answer["TOTAL"], "all values": lambda answer: answer.values["TOTAL"]}


def made():
    """Some thousand households, which are handed out over and over, so that making them takes no time that counts."""
    import random

    draw = random.Random(SEED)
    return [drawn(draw)[0] for _ in range(MADE)]


def by_package(program, what, rows, folder):
    """The part of a process of its own: the sum of what is paid, where it is read, and seconds of this process, of the programs
    that it started, by the clock, and of the bench's own loop."""
    from vodmejka import Rules

    rules, households, read = Rules(*WORDS, program=program, cache=os.path.join(folder, "cache")), made(), READ[what]
    begun = seconds_of(resource.RUSAGE_SELF), seconds_of(resource.RUSAGE_CHILDREN), time.monotonic()
    paid = sum(read(answer) for answer in rules.batch(households[k % MADE] for k in range(rows)))
    spent = seconds_of(resource.RUSAGE_SELF) - begun[0], seconds_of(resource.RUSAGE_CHILDREN) - begun[1], time.monotonic() - begun[2]
    print(paid, *spent, by_loop(read, households, rows))


def by_loop(read, households, rows):
    """Seconds of the bench's own loop: households are handed out, and as much is read of as many dicts in the place of answers."""
    ready = [SimpleNamespace(values={"TOTAL": Decimal(k)}) for k in range(MADE)]
    if read is READ["one value"]:
        ready = [one.values for one in ready]
    begun = seconds_of(resource.RUSAGE_SELF)
    collections.deque((households[k % MADE] for k in range(rows)), maxlen=0)
    sum(read(answer) for answer in itertools.chain.from_iterable(itertools.repeat(ready, rows // MADE)))
    return seconds_of(resource.RUSAGE_SELF) - begun


def seconds_of(who):
    """Seconds of the processor, user and system."""
    usage = resource.getrusage(who)
    return usage.ru_utime + usage.ru_stime


def by_command(program, rows, folder):
    """Seconds of the command over all tables, of the processor and by the clock, and the sum of what is paid."""
    households = made()
    table = os.path.join(folder, "table.csv")
    with open(table, "w", encoding="ascii") as out:
        out.write(",".join(["name", *CODES]) + "\n")
        out.writelines(",".join([f"h{k}", *(str(households[k % MADE].get(code, "")) for code in CODES)]) + "\n" for k in range(min(PART, rows)))
    seconds = clock = paid = 0
    for _ in range(max(1, rows // PART)):
        spent, _, status, text, elapsed = timed([program, "batch", *WORDS, "-", table], ROOT)
        if status or text.count(b"household ") != min(PART, rows):
            sys.exit(f"batch: status {status}: {text[:200]!r}")
        seconds, clock = seconds + spent, clock + elapsed
        paid += sum(map(int, re.findall(rb"\nTOTAL = ([0-9]+)\n", text)))
    return seconds, clock, paid


def main():
    program, folder = os.path.abspath(sys.argv[1]), sys.argv[2]
    rows = int(sys.argv[3]) if len(sys.argv) > 3 else 1_000_000
    if len(sys.argv) > 4:
        return by_package(program, sys.argv[4], rows, folder)
    if rows % min(PART, rows):
        sys.exit("measure: a whole number of tables")
    print(f"{machine()}\n\n| {rows:,} households | seconds | of these Python's | of the command's | by the clock |\n|---|---:|---:|---:|---:|")
    ratios = {}
    for what in READ:
        alone, alone_clock, paid = by_command(program, rows, folder)
        print(f"| the command `batch` | {alone:.2f} | | 1.00 | {alone_clock:.2f} |", flush=True)
        _, _, status, text, _ = timed([sys.executable, "-B", __file__, program, folder, str(rows), what], ROOT)
        told = text.split()
        if status or int(told[0]) not in (paid, 0 if what == "nothing" else paid):
            sys.exit(f"{what}: status {status}, {text!r}, where the command says {paid}")
        own, children, clock, loop = map(float, told[1:])
        print(f"| `.batch`, reading {what} of each answer | {own + children:.2f} | {own:.2f} | {(own + children) / alone:.2f} | {clock:.2f} |", flush=True)
        print(f"| of these the bench's own loop | {loop:.2f} | {loop:.2f} | | |", flush=True)
        ratios[what] = (own + children) / alone, clock / alone_clock
    print()
    for what, name in (("nothing", "nothing"), ("one value", "one_value"), ("all values", "all_values")):
        figure(f"python.batch_reading_{name}_to_command", ratios[what][0], "<=1.5" if what == "one value" else "-")
    figure("python.batch_reading_one_value_to_command_by_the_clock", ratios["one value"][1], "-")
    return None


main()
