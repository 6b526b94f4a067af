#!/usr/bin/env python3
"""Times one table of 100,000 households on one processor and on four: `taskset -c 0` against `taskset -c 0-3`, in turn.

    threads.py PROGRAM FOLDER [RUNS]

Times are of the clock, the least and the median of the runs (10). What the source costs is measured by a table of no rows and taken off. Both must
print the same bytes. Run it on a machine that does nothing else: what other programs take counts here.
"""
import os
import shutil
import statistics
import subprocess
import sys
import tempfile
import time

HERE = os.path.dirname(os.path.abspath(__file__))
ROOT = os.path.dirname(os.path.dirname(HERE))
ROWS = 100_000
ONE, FOUR = "0", "0-3"


def taken(command, folder, processors):
    """Seconds of the clock of a command that must end with the status 0, and what it printed."""
    with tempfile.TemporaryFile() as out:
        begun = time.perf_counter()
        status = subprocess.run(["taskset", "-c", processors, *command], cwd=folder, stdout=out, stdin=subprocess.DEVNULL, check=False).returncode
        seconds = time.perf_counter() - begun
        if status != 0:
            sys.exit(f"{command}: status {status}")
        out.seek(0)
        return seconds, out.read()


def write(path, header, rows):
    with open(path, "w") as out:
        out.write(header + "\n")
        out.writelines(row + "\n" for row in rows)


def impots(room):
    """The source of examples/impots with its driver, and a table of 8 columns."""
    folder = os.path.join(room, "impots")
    os.makedirs(folder, exist_ok=True)
    for name in ("impots.m", "driver.mpp"):
        shutil.copy(os.path.join(ROOT, "examples/impots", name), folder)
    with open(os.path.join(folder, "list.txt"), "w") as out:
        out.write("iliad\nimpots.m\n")
    header = "name,A01,A02,A03,A04,B01,B02,B03,B04"
    rows = [f"h{r}," + ",".join(str((r * 7919 + c * 104729) % 40000) for c in range(8)) for r in range(ROWS)]
    return folder, ["list.txt", "driver.mpp", "-"], header, rows


def impot2023():
    """The source of examples/impot2023 with its driver, and its households over and over, with other salaries."""
    with open(os.path.join(ROOT, "examples/impot2023/households.csv")) as given:
        header, *households = given.read().splitlines()
    place = header.split(",").index("1AJ")
    rows = []
    for r in range(ROWS):
        fields = households[r % len(households)].split(",")
        if fields[place]:
            fields[place] = str(10_000 + r * 7919 % 90_000)
        rows.append(",".join([f"h{r}", *fields[1:]]))
    sources = [os.path.join(ROOT, "examples/impot2023", name) for name in ("rules.list", "driver.mpp")]
    return ROOT, [*sources, "-"], header, rows


def compare(program, name, folder, source, header, rows, room, runs):
    table, none = os.path.join(room, name + ".csv"), os.path.join(room, name + ".none.csv")
    write(table, header, rows)
    write(none, header, [])
    times = {ONE: [], FOUR: []}
    empty = {ONE: [], FOUR: []}
    texts = set()
    for _ in range(runs):
        for processors in (ONE, FOUR):
            empty[processors].append(taken([program, "batch", *source, none], folder, processors)[0])
            seconds, text = taken([program, "batch", *source, table], folder, processors)
            times[processors].append(seconds)
            texts.add(text)
    if len(texts) != 1 or texts.pop().count(b"household ") != len(rows):
        sys.exit(f"{name}: not the same answers on one processor and on four")
    for word, of in (("least", min), ("median", statistics.median)):
        one, four = (of(times[p]) - of(empty[p]) for p in (ONE, FOUR))
        print(f"| {name} | {word} | {one:.3f} | {four:.3f} | {one / four:.2f} | {one / len(rows) * 1e6:.2f} | {four / len(rows) * 1e6:.2f} |", flush=True)


def main():
    program, room = os.path.abspath(sys.argv[1]), os.path.abspath(sys.argv[2])
    runs = int(sys.argv[3]) if len(sys.argv) > 3 else 10
    if len(os.sched_getaffinity(0)) < 4:
        sys.exit("four processors are needed")
    print("| Base | Of the runs | seconds on one processor | on four | times as fast | microseconds a row on one | on four |\n"
          "|---|---|---:|---:|---:|---:|---:|")
    for name, (folder, source, header, rows) in (("impots", impots(room)), ("impot2023", impot2023())):
        compare(program, name, folder, source, header, rows, room, runs)


main()
