#!/usr/bin/env python3
"""Computes the time of the gate from nothing by the order in which the kit's `rt` does its work: bench/gate/simulate.py FIGURES [PROCESSORS [MEMORY [CLOCK]]]

FIGURES are those that bench/gate/measure.py wrote (seconds of processors for each crate's check, tests and edits); one may change them by hand to see
what a change would bring. PROCESSORS are 4, MEMORY is 19.5 GB (0.85 of what is free) and CLOCK 1.05 seconds by the clock for one of a processor, if they
aren't named. As `rt ci`, it does first what has the longest chain of lines above it, then tests, and edits last; each starts once a processor is free and
the memory that it may need (`need` of rt), and none is interrupted. Prints the minutes, those of processors that are never idle, those that processors
were idle for want of memory, and what ran for over a minute in the last third. It reads the kit's command `rt`, of which it knows two forms: one tries
the edits of a crate side by side, and the other in turn. In a kit of another form it ends with Python's error.
"""
import importlib.machinery
import importlib.util
import inspect
import os
import shutil
import sys

ROOT = os.path.dirname(os.path.dirname(os.path.dirname(os.path.abspath(__file__))))


def kit():
    """The module of the kit's command `rt`."""
    sys.dont_write_bytecode = True
    loader = importlib.machinery.SourceFileLoader("rt", shutil.which("rt"))
    made = importlib.util.module_from_spec(importlib.util.spec_from_loader("rt", loader))
    sys.modules["rt"] = made
    loader.exec_module(made)
    return made


def read(path):
    """The seconds of each crate, of a run that went to its end."""
    with open(path, encoding="utf-8") as figures:
        *rows, last = figures.read().splitlines() or [""]
    if not last.endswith(" passed, 0 failed"):
        sys.exit(f"simulate: {path}: these are no figures of a run that passed")
    return {name: tuple(map(float, seconds)) for name, *seconds in map(str.split, rows)}


def crates_of(rt):
    """The crates, lowest first, as the kit's `rt ci` has them."""
    if len(inspect.signature(rt.crates_of).parameters) == 1:
        return rt.crates_of(ROOT)
    # (this form would set aside what earlier runs left)
    rt.Crate.allowed, rt.rtlib.Crate = rt.handles_of(ROOT), rt.Crate
    return sorted(rt.rtlib.crates_below(ROOT), key=lambda crate: len(crate.below()))


def edits_of(rt, crate, waits, lines, memory, figures):
    """The tasks of a crate's edits."""
    check, _, edits = figures
    own, count = [(crate.name, "proof"), (crate.name, "tests")], len(rt.edits_of(crate)[0])
    if count and (count == 1 or not hasattr(rt, "OVER")):
        yield (crate.name, "edits", 0), ([*waits, *own], lines, memory, edits)
    elif count:
        # (they begin with one check's work)
        seed = min(check, edits * 0.6)
        each = (edits - seed) / (count + 1)
        yield (crate.name, "seed"), (waits, 0, memory, seed)
        for number in range(count):
            yield (crate.name, "edits", number), ([*waits, *own, (crate.name, "seed")], lines, rt.OVER * memory, each)
        yield (crate.name, "sound"), ([(crate.name, "edits", number) for number in range(count)], 0, rt.OVER * memory, each)


def tasks_of(rt, figures):
    """Each task: what it waits for, its lines, its memory, its seconds of a processor."""
    tasks = {}
    crates = crates_of(rt)
    unlike = {crate.name for crate in crates if figures.get(crate.name, (0,))[0] == 0}
    if unlike:
        sys.exit(f"simulate: the run didn't prove these crates anew: {' '.join(sorted(unlike))}")
    for crate in crates:
        waits, lines, memory = [(it.name, "proof") for it in crate.below()], crate.count(rb"\n"), rt.need(crate)
        check, tests, _ = figures[crate.name]
        tasks[crate.name, "proof"] = (waits, lines, memory, check)
        tasks[crate.name, "tests"] = (waits, lines * bool(crate.has_tests()), memory, tests)
        tasks.update(edits_of(rt, crate, waits, lines, memory, figures[crate.name]))
    return tasks


def order_of(tasks, edits_last):
    """The tasks in the order in which they are looked at."""
    behind = {key: 0 for key in tasks}
    for key in reversed([*tasks]):
        behind[key] += tasks[key][1]
        for other in tasks[key][0]:
            behind[other] = max(behind[other], behind[key])
    return sorted(tasks, key=lambda key: (edits_last and key[1] in ("edits", "seed"), -behind[key]))


def begun(tasks, left, done, running, processors, memory, edits_last):
    """The tasks that start now."""
    waits_for_memory = False
    for key in [key for key in left if all(other in done for other in tasks[key][0])]:
        if edits_last and waits_for_memory and key[1] in ("edits", "seed"):
            return
        if len(running) < processors and (not running or tasks[key][2] + sum(tasks[other][2] for other in running) <= memory):
            left.remove(key)
            yield key
        else:
            waits_for_memory = waits_for_memory or len(running) < processors and key[1] in ("proof", "tests")


def simulated(tasks, processors, memory, clock, edits_last):
    """When each task began and ended, and the seconds of processors that were idle while a task that could start waited for memory."""
    left, done, running, now, times, lacked = order_of(tasks, edits_last), set(), {}, 0.0, {}, 0.0
    while left or running:
        for key in begun(tasks, left, done, running, processors, memory, edits_last):
            running[key] = now + clock * tasks[key][3]
            times[key] = now, running[key]
        first = min(running, key=running.get)
        waiting = sum(all(other in done for other in tasks[key][0]) and tasks[key][3] > 0 for key in left)
        lacked += min(waiting, processors - len(running)) * (running[first] - now)
        now = running.pop(first)
        done.add(first)
    return times, lacked


def main():
    if not 2 <= len(sys.argv) <= 5:
        sys.exit(__doc__)
    processors, memory, clock = (float(word) for word in [*sys.argv[2:], *("4", "19.5", "1.05")[len(sys.argv) - 2:]])
    rt = kit()
    tasks = tasks_of(rt, read(sys.argv[1]))
    times, lacked = simulated(tasks, processors, memory * 1e9, clock, hasattr(rt, "OVER"))
    end, work = max(end for _, end in times.values()), clock * sum(task[3] for task in tasks.values())
    print(f"{end / 60:.1f} minutes; {work / processors / 60:.1f} where no processor is ever idle; for want of memory idle {lacked / processors / 60:.1f}")
    for key, (begin, over) in sorted(times.items(), key=lambda item: item[1]):
        if over - begin > 60 and over > end * 2 / 3:
            print(f"{begin:6.0f} {over:6.0f} s  {' '.join(map(str, key))}, up to {tasks[key][2] / 1e9:.1f} GB")


if __name__ == "__main__":
    main()
