#!/usr/bin/env python3
"""Runs the gate and writes what each crate takes: bench/gate/measure.py [--anew] [FIGURES]

Starts `rt ci` at the top of the repository, hands on what it prints, and looks at its processes five times a second. FIGURES
(out/figures.txt, if it isn't named) gets a line for each crate: its name, and the seconds of CPU of its check, of its tests and
of its must-fail edits; then come the seconds that the whole took, the processors it ran on, and its last line. A run that is
stopped (SIGTERM, SIGINT) writes what it saw, with no verdict. tests/budget.sh FIGURES compares them with the budget.
With --anew all is proved and tried again, even if an earlier run on this machine passed: it is handed to `rt ci` in a kit that keeps
what passed, and another kit does so each time. `taskset -c 0,1` as prefix measures a machine of two processors.
"""
import collections
import os
import re
import shutil
import signal
import subprocess
import sys
import threading
import time

TICK = os.sysconf("SC_CLK_TCK")


def processes():
    """Returns each process's parent, words and seconds of CPU, with those of its ended children."""
    found = {}
    for pid in filter(str.isdigit, os.listdir("/proc")):
        try:
            with open(f"/proc/{pid}/stat", encoding="utf-8", errors="replace") as it:
                stat = it.read().rpartition(")")[2].split()
            with open(f"/proc/{pid}/cmdline", "rb") as it:
                words = it.read().decode(errors="replace").split("\0")
            folder = os.readlink(f"/proc/{pid}/cwd")
        except OSError:
            continue
        found[int(pid)] = (int(stat[1]), words, folder, sum(map(int, stat[11:15])) / TICK)
    return found


def kind_of(words, folder):
    """Returns the crate and the column of a process that proves, or None."""
    if not words[0].endswith("/rattle") or "--crate-name" not in words:
        return None
    crate = words[words.index("--crate-name") + 1]
    if "rt-edit-" in folder:
        return crate, "edits"
    return crate, "tests" if "--test" in words else "check"


def below(found, root):
    """Returns whether a process descends from the root."""

    def is_below(pid):
        while pid in found and pid != root:
            pid = found[pid][0]
        return pid == root

    return is_below


def keeps_what_passed():
    """Whether the kit's `rt ci` keeps what passed, and takes --anew."""
    with open(shutil.which("rt"), encoding="utf-8", errors="replace") as it:
        return "--anew" in it.read()


def seconds_below(gate):
    """The seconds of CPU of each process that proves below the gate, by its id and its crate and column, looked at until the gate ends."""
    seen = {}
    while gate.poll() is None:
        found = processes()
        is_below = below(found, gate.pid)
        for pid, (parent, words, folder, seconds) in found.items():
            kind = kind_of(words, folder)
            outer = found.get(parent)
            if kind and is_below(pid) and not (outer and kind_of(outer[1], outer[2])):
                # (a process that forked counts its children once they ended; those that run are added)
                running = sum(s for p, (up, w, f, s) in found.items() if up == pid)
                seen[pid, kind] = max(seen.get((pid, kind), 0), seconds + running)
        time.sleep(0.2)
    return seen


def main():
    words = [word for word in sys.argv[1:] if word != "--anew"]
    anew = ["--anew"] if "--anew" in sys.argv and keeps_what_passed() else []
    figures = words[0] if words else "out/figures.txt"
    began = time.time()
    gate = subprocess.Popen(["rt", "ci", *anew], stdout=subprocess.PIPE, text=True, errors="replace")
    for stop in (signal.SIGTERM, signal.SIGINT):
        signal.signal(stop, lambda *_: gate.terminate())
    said = []

    def hand_on():
        for line in gate.stdout:
            said.append(line.rstrip("\n"))
            print(f"{time.time() - began:7.0f} s  {line}", end="", flush=True)

    reader = threading.Thread(target=hand_on)
    reader.start()
    seen = seconds_below(gate)
    reader.join()
    table = collections.defaultdict(lambda: collections.Counter())
    for (_, (crate, column)), seconds in seen.items():
        table[crate][column] += seconds
    os.makedirs(os.path.dirname(figures) or ".", exist_ok=True)
    with open("crates.txt", encoding="utf-8") as it:
        order = re.findall(r"(?m)^([a-z]\w*)[^:#\n]*:", it.read())
    with open(figures, "w", encoding="utf-8") as it:
        for crate in order:
            row = table[crate]
            print(crate, *(round(row[it]) for it in ("check", "tests", "edits")), file=it)
        last = next((line for line in reversed(said) if re.fullmatch(r"\d+ passed, \d+ failed", line)), "no verdict")
        print(f"# {time.time() - began:.0f} s on {len(os.sched_getaffinity(0))} processors: {last}", file=it)
    sys.exit(gate.returncode)


if __name__ == "__main__":
    main()
