"""What one run of a command takes, and how a figure is reported: used by the benches that time whole runs of programs."""
import contextlib
import os
import subprocess
import sys
import tempfile
import time

RUNS = 3


def timed(command, folder, typed=b""):
    """Seconds of the processor (user and system), peak bytes of resident memory, the status, what was printed, and seconds by the clock, of one run.

    The peak is the one that GNU time prints: that of a child of Python isn't less than Python's own.
    """
    with tempfile.TemporaryFile() as printed, tempfile.TemporaryFile() as given, tempfile.NamedTemporaryFile() as told:
        given.write(typed)
        given.seek(0)
        begin = time.monotonic()
        child = subprocess.Popen(["/usr/bin/time", "-f", "%M", "-o", told.name, *command], cwd=folder, stdout=printed, stdin=given)
        _, status, usage = os.wait4(child.pid, 0)
        elapsed = time.monotonic() - begin
        child.returncode = os.waitstatus_to_exitcode(status)
        printed.seek(0)
        peak = int(told.read().split()[-1]) * 1024
        return usage.ru_utime + usage.ru_stime, peak, child.returncode, printed.read(), elapsed


def processors():
    """The numbers of the processors that this process may use."""
    return sorted(os.sched_getaffinity(0))


def alone(command, number=0):
    """The command on one processor."""
    return ["taskset", "-c", str(processors()[number]), *command]


def side_by_side(command, folder, wanted=None):
    """Seconds by the clock of one run of the command on each processor, all at once: until the last ends.

    This is what all processors together can give. Four virtual processors are often two cores, on which it is about twice as long as one run alone.
    Each run must end with the status and the text of `wanted`, where that is given.
    """
    count = len(processors())
    with contextlib.ExitStack() as files:
        outs = [files.enter_context(tempfile.TemporaryFile()) for _ in range(count)]
        begin = time.monotonic()
        children = [subprocess.Popen(alone(command, k), cwd=folder, stdout=out, stdin=subprocess.DEVNULL) for k, out in enumerate(outs)]
        statuses = [child.wait() for child in children]
        elapsed = time.monotonic() - begin
        for status, out in zip(statuses, outs):
            out.seek(0)
            if wanted is not None and (status, out.read()) != wanted:
                sys.exit(f"{command}: status {status}, or another text, where {count} run side by side")
    return elapsed


def used(command, folder, typed=b""):
    """The same without the seconds by the clock."""
    return timed(command, folder, typed)[:4]


def least(command, folder, typed=b""):
    """The same of three runs: the least seconds, the greatest peak, and the first run's status and text."""
    runs = [used(command, folder, typed) for _ in range(RUNS)]
    return min(run[0] for run in runs), max(run[1] for run in runs), runs[0][2], runs[0][3]


def scanned(scanner, files, folder):
    """Seconds of the processor that the plain scanner (bench/lexer/plain.rs) takes for files: the least of its five turns over each.

    It prints a count and the microseconds of each turn. What takes a time that depends on the machine is measured beside it, in the same run.
    """
    times = 0.0
    for name in files:
        printed = used([scanner, name], folder)[3].decode().split("\n")
        times += min(int(line.split()[1]) for line in printed if line) / 1e6
    return times


def figure(name, value, aim="-"):
    """Reports a figure to bench/all: a name without blanks, a number, and the aim, as `<=3` or `>=60`, or `-` for none."""
    print(f"figure {name} {value:.4g} {aim}" if value < 1000 else f"figure {name} {value:.0f} {aim}", flush=True)


def machine():
    """The page's line on the machine: its processors, and how many programs wanted one in the last minute."""
    return f"{os.cpu_count()} processors, load {os.getloadavg()[0]:.1f}, Python {sys.version.split()[0]}"
