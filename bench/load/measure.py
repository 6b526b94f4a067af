#!/usr/bin/env python3
"""Runs the program on inputs that a hostile writer would choose, each at a tenth and at its full size.

    measure.py PROGRAM FOLDER [--stack=KB] [--memory=MB] [WORD..]

Each shape of shapes.py is written into FOLDER, with what must be printed for it, which was worked out by hand. The program
runs, and what it prints is compared byte by byte. A row is printed on standard output: user and system time at a tenth and at the full size, how
many times as much that is, the peak of memory, the answer (its first bytes) and the status. A shape runs once for each stack that it names, with 8 GB of
addresses, and one that says `little` once more with a stack of 512 KB and 200 MB of addresses. Only shapes with one of the WORDs in their names run, if any
are given. With --stack each shape runs once, with a stack of KB kilobytes; with --memory a run has MB megabytes of addresses instead of 8 GB. A shape fails
where it prints anything else, ends by a signal, or takes more than a minute of processor or five by the clock. It is slow where it takes more than 1.2 times
as long as its size suggests: more than 12 times for 10 times the size. The status is 1 where one failed or is slow.
"""
import filecmp
import json
import os
import resource
import shutil
import sys
import time

import shapes

sys.path.insert(0, os.path.dirname(os.path.dirname(os.path.abspath(__file__))))
from measured import figure  # noqa: E402

MINUTE = 60
GROWTH = 1.2
MEMORY = 8 << 30  # bytes that a run may take: past it the program reports by its status that there was no memory
LITTLE = 512, 200  # KB of stack and MB of addresses of a shape that is also run in little memory


def in_child(work):
    """Does some work in a process of its own, so that its memory isn't counted as that of the program."""
    child = os.fork()
    if child == 0:
        try:
            work()
            os._exit(0)
        except BaseException as fault:  # the parent stops by the status
            print(f"not written: {fault!r}", file=sys.stderr, flush=True)
            os._exit(1)
    if os.waitpid(child, 0)[1] != 0:
        sys.exit("a shape could not be written")


def write(path, pieces):
    with open(path, "wb", buffering=1 << 20) as out:
        for piece in [pieces] if isinstance(pieces, (str, bytes)) else pieces:
            out.write(piece.encode() if isinstance(piece, str) else piece)


def make(shape, size, folder):
    case = shape.make(size)
    for name, pieces in case["files"].items():
        write(os.path.join(folder, name), pieces)
    write(os.path.join(folder, "typed"), case.get("typed", ""))
    write(os.path.join(folder, "expected"), case["prints"])
    write(os.path.join(folder, "case"), json.dumps({"words": case["words"], "status": case["status"]}))


def run(program, words, folder, stack, memory):
    """The status (below zero for a signal, None past a minute), seconds of user and system, and the peak of memory in bytes."""
    child = os.fork()
    if child == 0:
        os.chdir(folder)
        for name, end, flags in (
            ("typed", 0, os.O_RDONLY),
            ("printed", 1, os.O_WRONLY | os.O_CREAT | os.O_TRUNC),
            ("told", 2, os.O_WRONLY | os.O_CREAT | os.O_TRUNC),
        ):
            os.dup2(os.open(name, flags, 0o644), end)
        resource.setrlimit(resource.RLIMIT_STACK, (stack << 10, stack << 10))
        resource.setrlimit(resource.RLIMIT_AS, (memory, memory))
        resource.setrlimit(resource.RLIMIT_CPU, (MINUTE, MINUTE + 1))
        os.execv(program, [program, *words])
    end = time.monotonic() + 5 * MINUTE
    while True:
        done, status, usage = os.wait4(child, os.WNOHANG)
        if done:
            break
        if time.monotonic() > end:
            os.kill(child, 9)
        time.sleep(0.005)
    return os.waitstatus_to_exitcode(status), usage.ru_utime + usage.ru_stime, usage.ru_maxrss * 1024


def measure(program, shape, size, room, stack, memory):
    folder = os.path.join(room, "shape")
    shutil.rmtree(folder, ignore_errors=True)
    os.makedirs(folder)
    in_child(lambda: make(shape, size, folder))
    with open(os.path.join(folder, "case")) as text:
        case = json.load(text)
    status, seconds, peak = run(program, case["words"], folder, stack, memory)
    again = 0 if seconds > 0.1 else 1
    for _ in range(again):
        seconds = min(seconds, run(program, case["words"], folder, stack, memory)[1])
    faults = []
    if status == -24:
        faults.append("more than a minute of processor")
    elif status == -9:
        faults.append("ended by the clock after five minutes")
    elif status < 0:
        faults.append(f"ended by the signal {-status}")
    elif status != case["status"]:
        faults.append(f"status {status} in place of {case['status']}")
    printed = os.path.join(folder, "printed")
    if not faults and not filecmp.cmp(printed, os.path.join(folder, "expected"), shallow=False):
        faults.append("another answer")
    with open(printed, "rb") as text:
        first = text.read(44).decode("utf-8", "replace").split("\n")
    length = os.path.getsize(printed)
    answer = first[0] + (" .." if length > len(first[0]) + 1 else "")
    if os.path.getsize(os.path.join(folder, "told")):
        with open(os.path.join(folder, "told"), "rb") as text:
            faults.append("on standard error: " + text.read(80).decode("utf-8", "replace").split("\n")[0])
    shutil.rmtree(folder, ignore_errors=True)
    return {"seconds": seconds, "peak": peak, "status": status, "answer": answer, "bytes": length, "faults": faults}


def told(program, shape, room, stack, memory):
    """Prints the row of one shape: its faults, whether it is slow, and what was measured at its full size."""
    small = measure(program, shape, shape.full // 10, room, stack, memory) if shape.grows else None
    big = measure(program, shape, shape.full, room, stack, memory)
    faults = [*(f"at a tenth: {f}" for f in (small["faults"] if small else [])), *big["faults"]]
    times = big["seconds"] / small["seconds"] if small else 0
    # Under some hundredths of a second the growth reflects the machine more than the program.
    if small and times > GROWTH * shape.grows and big["seconds"] > 0.05:
        small = min(small, measure(program, shape, shape.full // 10, room, stack, memory), key=lambda one: one["seconds"])
        big = min(big, measure(program, shape, shape.full, room, stack, memory), key=lambda one: one["seconds"])
        times = big["seconds"] / small["seconds"]
    slow = times > GROWTH * shape.grows and big["seconds"] > 0.05
    tenth = f"{small['seconds']:.3f}" if small else ""
    growth = f"{times:.1f}" if small else ""
    answer = big["answer"].replace("|", "\\|")
    verdict = "; ".join([*faults, *([f"{times:.1f} times for {shape.grows} times the size"] if slow else [])]) or "as it must be"
    room_of = f"{stack}" if memory == MEMORY else f"{stack}, of {memory >> 20} MB"
    print(f"| {shape.name} | {shape.full:,} | {room_of} | {tenth} | {big['seconds']:.3f} | {growth} | {big['peak'] / 1e6:.0f} "
          f"| `{answer}` ({big['bytes']:,}) | {big['status']} | {verdict} |", flush=True)
    return faults, slow, big


def runs_of(shape, stack, memory):
    """The stacks and memories with which a shape runs, each with the figure that counts its fault. (With --stack or --memory: once each, as these say.)"""
    if stack or memory:
        return [(one, memory << 20 if memory else MEMORY, "fail_as_asked") for one in ([stack] if stack else shape.stacks)]
    runs = [(one, MEMORY, "fail" if one > LITTLE[0] else f"fail_in_{one}_KB_of_stack") for one in shape.stacks]
    return [*runs, (LITTLE[0], LITTLE[1] << 20, f"fail_with_{LITTLE[1]}_MB_and_{LITTLE[0]}_KB_of_stack")] if shape.little else runs


def main():
    program, room, words = os.path.abspath(sys.argv[1]), os.path.abspath(sys.argv[2]), sys.argv[3:]
    limits = {"--stack": None, "--memory": None}
    for word in [word for word in words if word.startswith("--")]:
        name, _, number = word.partition("=")
        limits[name] = int(number)
        words.remove(word)
    print("| Shape | size | stack, KB | seconds at a tenth | seconds | times | peak, MB | answer (bytes) | status | verdict |\n"
          "|---|---:|---:|---:|---:|---:|---:|---|---:|---|")
    bad, slow, seconds, peak = {}, 0, 0, 0
    for shape in shapes.SHAPES:
        if words and not any(word in shape.name for word in words):
            continue
        for stack, memory, what in runs_of(shape, *limits.values()):
            faults, is_slow, big = told(program, shape, room, stack, memory)
            bad[what] = bad.get(what, 0) + bool(faults)
            slow += is_slow
            seconds, peak = max(seconds, big["seconds"]), max(peak, big["peak"])
    for what, count in bad.items():
        figure(f"load.shapes_that_{what}", count, "<=0")
    figure("load.shapes_that_take_more_than_12_times_a_tenth", slow, "<=0")
    figure("load.most_seconds", seconds, "<=60")
    figure("load.most_MB", peak / 1e6, f"<={MEMORY / 1e6:.0f}")
    sys.exit(1 if slow or any(bad.values()) else 0)


if __name__ == "__main__":
    main()
