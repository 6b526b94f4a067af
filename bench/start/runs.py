#!/usr/bin/env python3
"""Times `run` and `exec` of examples/impot2023 from their start to their end, and counts page faults and threads.

    runs.py [PROGRAM..] [--rounds=N]

PROGRAM is the built m_tax (out/m_tax); several are timed by turns. Prints a table: milliseconds by the clock, from the call that starts the process to its
end, the least and the median of N; milliseconds of the processor, user and system, their least and median; and page faults. With strace installed it counts
threads (those that the first one starts, and theirs) and calls of the system, of one run. The first row is `true`, which does nothing.
"""
import os
import shutil
import statistics
import subprocess
import sys
import tempfile
import time

sys.path.insert(0, os.path.dirname(os.path.dirname(os.path.abspath(__file__))))
from measured import figure, machine  # noqa: E402

ROOT = os.path.dirname(os.path.dirname(os.path.dirname(os.path.abspath(__file__))))
EXAMPLE = os.path.join(ROOT, "examples/impot2023")
SOURCE = ["examples/impot2023/rules.list", "examples/impot2023/driver.mpp", "-"]
HOUSEHOLD = "examples/impot2023/households/couple_two_children.csv"


def started(command):
    """Milliseconds by the clock and of the processor, and page faults, of one start."""
    begin = time.monotonic()
    child = os.posix_spawn(command[0], command, os.environ, file_actions=[(os.POSIX_SPAWN_OPEN, 1, "/dev/null", os.O_WRONLY, 0)])
    _, status, usage = os.wait4(child, 0)
    elapsed = time.monotonic() - begin
    if os.waitstatus_to_exitcode(status):
        sys.exit(f"{command}: status {os.waitstatus_to_exitcode(status)}")
    return elapsed * 1000, (usage.ru_utime + usage.ru_stime) * 1000, usage.ru_minflt


def traced(command):
    """Threads and calls of the system of one run, or a dash for each."""
    if not shutil.which("strace"):
        return "-", "-"
    with tempfile.NamedTemporaryFile("r") as told:
        subprocess.run(["strace", "-f", "-o", told.name, *command], stdout=subprocess.DEVNULL, check=True)
        calls = [line.split(None, 1)[1] for line in told if "resumed>" not in line]
    calls = [call for call in calls if call[0] not in "+-"]
    return 1 + sum(call.startswith(("clone(", "clone3(")) for call in calls), len(calls)


def main():
    words = [word for word in sys.argv[1:] if not word.startswith("--")]
    rounds = next((int(word.split("=")[1]) for word in sys.argv[1:] if word.startswith("--rounds=")), 200)
    programs = [os.path.abspath(word) for word in words] or [f"{ROOT}/out/m_tax"]
    os.chdir(ROOT)
    with tempfile.TemporaryDirectory() as folder:
        code = f"{folder}/code"
        with open(code, "wb") as out:
            subprocess.run([programs[0], "compile", *SOURCE], stdout=out, check=True)
        rows = [("true", [shutil.which("true")])]
        for program in programs:
            rows += [(f"run, {program}", [program, "run", *SOURCE, HOUSEHOLD]), (f"exec, {program}", [program, "exec", code, HOUSEHOLD])]
        taken = [[started(command) for _, command in rows] for _ in range(rounds)]
        print(f"{machine()}, {rounds} rounds\n\n| start | clock, ms: least, median | processor, ms: least, median | page faults | threads | system calls |")
        print("|---|---:|---:|---:|---:|---:|")
        least = {}
        for k, (name, command) in enumerate(rows):
            clock, processor, faults = zip(*(one[k] for one in taken))
            least[name] = min(clock)
            print(f"| {name} | {min(clock):.2f}, {statistics.median(clock):.2f} | {min(processor):.2f}, {statistics.median(processor):.2f}"
                  f" | {statistics.median(faults):.0f} | {' | '.join(map(str, traced(command)))} |")
    figure("start.run_ms", least[rows[1][0]], "<=4")
    figure("start.exec_ms", least[rows[2][0]], "<=1")


main()
