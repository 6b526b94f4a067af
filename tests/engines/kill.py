"""Kills a worker in the middle of its work by SIGKILL: kill.py FOLDER [above WORD | from WORD | within NAMESPACE]

It waits until a part of FOLDER has its answer and another one is begun. The worker is the process of `scale one` of that part; with `above` the nearest process
above it that has WORD among its words, instead; with `from` that one and all below it; with `within` all processes of a network
namespace, if that worker is one. The file `killed` in the working folder has the number of the part.
"""
import contextlib
import os
import re
import signal
import subprocess
import sys
import time

SECONDS = 120
BEGUN = re.compile(r"part-([0-9]{6,})\.out\..*\.new")


def words_of(pid):
    try:
        with open(f"/proc/{pid}/cmdline", "rb") as file:
            return os.fsdecode(file.read()).split("\0")[:-1]
    except OSError:
        return []


def parent_of(pid):
    try:
        with open(f"/proc/{pid}/stat", encoding="latin-1") as file:
            return int(file.read().rsplit(")", 1)[1].split()[1])
    except OSError:
        return 0


def worker_of(folder, number):
    """The process that computes a part."""
    wanted = ["one", folder, number]
    for pid in filter(str.isdigit, os.listdir("/proc")):
        words = words_of(pid)
        if words[2:5] == wanted and words[1].endswith("scale"):
            return int(pid)
    return None


def above(pid, word):
    while pid > 1:
        pid = parent_of(pid)
        if any(word in one for one in words_of(pid)):
            return pid
    return None


def below(pid):
    """All processes below one."""
    parents = {int(one): parent_of(one) for one in filter(str.isdigit, os.listdir("/proc"))}
    found = [pid]
    for one in found:
        found += [child for child, parent in parents.items() if parent == one]
    return found[1:]


def victims(worker, way):
    """The processes that are killed, if there are any."""
    if way[:1] in (["above"], ["from"]):
        found = above(worker, way[1])
        return [] if found is None else [found, *(below(found) if way[0] == "from" else [])]
    if way[:1] == ["within"]:
        told = subprocess.run(["ip", "netns", "pids", way[1]], stdout=subprocess.PIPE, check=True, text=True).stdout
        found = [int(pid) for pid in told.split()]
        return found if worker in found else []
    return [worker]


def main():
    folder, way = os.path.abspath(sys.argv[1]), sys.argv[2:]
    until = time.monotonic() + SECONDS
    while time.monotonic() < until:
        names = os.listdir(folder)
        begun = [found[1] for found in map(BEGUN.fullmatch, names) if found]
        for number in begun if any(name.endswith(".out") for name in names) else []:
            worker = worker_of(folder, str(int(number)))
            killed = victims(worker, way) if worker else []
            for pid in killed:
                with contextlib.suppress(ProcessLookupError):
                    os.kill(pid, signal.SIGKILL)
            if killed and not os.path.exists(os.path.join(folder, f"part-{number}.out")):
                with open("killed", "w", encoding="ascii") as out:
                    out.write(number)
                print(f"engines: killed in part {int(number)}, {len(killed)} process{'' if len(killed) == 1 else 'es'}", flush=True)
                return 0
        time.sleep(0.01)
    print("engines: no worker was met in the middle", flush=True)
    return 1


sys.exit(main())
