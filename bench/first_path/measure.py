#!/usr/bin/env python3
"""Times a program and the plain interpreter on the same files, and compares what they print.

    measure.py PROGRAM FOLDER N..

FOLDER/N holds what generate.py wrote for N. Each line has the time of the processor (user and
system) and of the clock, the least of a few runs, and the peak of resident memory.
"""
import fcntl
import os
import select
import subprocess
import sys
import time

RUNS = 5
TIME_AIM = 13
MEMORY_AIM = 60
HERE = os.path.dirname(os.path.abspath(__file__))


class Run:
    """One run of a command: what it printed, its status, times and peak memory."""

    def __init__(self, command, folder):
        began = time.perf_counter()
        child = subprocess.Popen(command, cwd=folder, stdout=subprocess.PIPE, pipesize=4096)
        select.select([child.stdout], [], [])
        # Both commands print at their end, and all at once. So the peak is reached here, and a pipe
        # of one page keeps the child there. The peak that wait4 reports counts the parent too, which
        # hides a small one.
        peak = own_peak(child.pid)
        fcntl.fcntl(child.stdout, fcntl.F_SETPIPE_SZ, 1 << 20)
        self.text = child.stdout.read()
        _, status, used = os.wait4(child.pid, 0)
        child.returncode = self.status = os.waitstatus_to_exitcode(status)
        self.clock = time.perf_counter() - began
        self.processor = used.ru_utime + used.ru_stime
        self.peak = peak if peak is not None else used.ru_maxrss * 1024


def own_peak(pid):
    """The most memory that a process had resident so far, in bytes. None once it has ended."""
    with open(f"/proc/{pid}/status") as status:
        for line in status:
            if line.startswith("VmHWM:"):
                return int(line.split()[1]) * 1024
    return None


class Figures:
    def __init__(self, runs):
        self.processor = min(run.processor for run in runs)
        self.clock = min(run.clock for run in runs)
        self.peak = max(run.peak for run in runs)


def measure(program, folder):
    """The figures of the program and of the interpreter, run by turns, and the bytes read."""
    commands = [
        [program, "run", "list.txt", "-", "-", "household.csv"],
        [sys.executable, f"{HERE}/interpret.py", "list.txt", "household.csv"],
    ]
    rounds = [[Run(command, folder) for command in commands] for _ in range(RUNS)]
    texts = {run.text for runs in rounds for run in runs}
    if len(texts) != 1 or any(run.status for runs in rounds for run in runs):
        sys.exit(f"{folder}: the two don't print the same")
    read = sum(os.path.getsize(os.path.join(folder, name)) for name in os.listdir(folder))
    lines = texts.pop().count(b"\n")
    return [Figures(runs) for runs in zip(*rounds)], read, lines


def show(n, who, figures, read):
    print(
        f"{n:>8} {who:<12} {figures.processor:>10.3f} {figures.clock:>10.3f}"
        f" {figures.peak / 1e6:>10.1f} {figures.peak / read:>12.1f}",
        flush=True,
    )


def main():
    program, folder, sizes = os.path.abspath(sys.argv[1]), sys.argv[2], sys.argv[3:]
    print(f"load of the machine: {os.getloadavg()[0]:.1f} on {os.cpu_count()} processors")
    print("       N who           processor      clock       peak  peak by read")
    print("                         seconds    seconds         MB              ")
    found = {}
    for n in sizes:
        both, read, lines = measure(program, os.path.join(folder, n))
        if lines != int(n):
            sys.exit(f"{n}: {lines} lines were printed")
        for who, figures in zip(["m_tax", "interpreter"], both):
            show(n, who, figures, read)
        found[n] = both[0], read
    for less, more in zip(sizes, sizes[1:]):
        by = found[more][0].processor / found[less][0].processor
        print(f"time for {more} by that for {less}: {by:.1f} (the aim is at most {TIME_AIM})")
        print(f"figure first_path.{more}_to_{less} {by:.3g} <={TIME_AIM}")
    last, read = found[sizes[-1]]
    print(f"peak memory by the bytes read, {read}: {last.peak / read:.1f} (the aim is at most {MEMORY_AIM})")
    print(f"figure first_path.memory_to_bytes_read {last.peak / read:.3g} <={MEMORY_AIM}")
    print(f"load of the machine: {os.getloadavg()[0]:.1f}")


main()
