#!/usr/bin/env python3
"""Times a million households as frames and as files, and what a reform does to them: frames.py PROGRAM FOLDER [ROWS]

At the top of the repository, by a Python that has pandas. The rules are those of examples/impot2023 with their driver: nine codes, eight values; PROGRAM is
m_tax, with m_survey in the same folder. Each line is a process of its own. Seconds are by the clock, and of the processor, of Python and of the programs that
it starts; the peak is that of the process, in MiB. A frame is made before the clock runs, and is part of the peak, which is also printed less
what the process had before. The same households are computed by columns of numpy, which give one value; how many of these differ is printed.
"""
import json
import os
import resource
import subprocess
import sys
import time

HERE = os.path.dirname(os.path.abspath(__file__))
ROOT = os.path.dirname(os.path.dirname(HERE))
sys.path[:0] = [os.path.dirname(HERE), HERE, os.path.join(ROOT, "python"), os.path.join(ROOT, "examples", "reform2023")]
from measured import figure, machine  # noqa: E402

WORDS = ["examples/impot2023/rules.list", "examples/impot2023/driver.mpp"]
AFTER = "examples/reform2023/children/rules.list"
DRAWN = 10_000


def columns(rows):
    """Some thousand drawn households over and over, by their codes."""
    import random

    import numpy
    from households import CODES, SEED, drawn

    draw = random.Random(SEED)
    made = [drawn(draw)[0] for _ in range(DRAWN)]
    return {code: numpy.resize(numpy.array([one.get(code, 0) for one in made], "int32"), rows) for code in CODES}


def written(path, rows):
    """The same as a table with weights and regions."""
    import numpy

    found = {name: column.astype(str) for name, column in columns(min(rows, DRAWN)).items()}
    lines = [",".join(cells) for cells in zip(*found.values())]
    weights = numpy.random.default_rng(7).integers(1_000, 6_000, rows)
    with open(path, "w", encoding="ascii") as out:
        out.write(",".join(["name", *found, "weight", "region"]) + "\n")
        out.writelines(f"f{k},{lines[k % len(lines)]},{weights[k] // 10}.{weights[k] % 10},{'nsew'[k % 4]}\n" for k in range(rows))


def spent(who):
    usage = resource.getrusage(who)
    return usage.ru_utime + usage.ru_stime, usage.ru_maxrss / 1024


def timed(what, folder, rows):
    """Does one thing in this process, and prints seconds and peaks."""
    import numpy
    import pandas
    from by_numpy import total
    from vodmejka import Rules, compare

    rules = Rules(*WORDS)
    table = os.path.join(folder, "table.csv")
    box = columns(rows) if what in ("float64", "micros", "numpy", "compare") else {}
    frame = pandas.DataFrame(box, copy=False)
    if what == "compare":
        frame["weight"] = numpy.random.default_rng(7).integers(1_000, 6_000, rows) / 10
        frame["region"] = pandas.Categorical.from_codes(numpy.arange(rows) % 4, list("nsew"))
    if what in ("float64", "micros"):
        rules.batch(frame[:10], numbers=what)
    (own, before), (programs, _), begin = spent(resource.RUSAGE_SELF), spent(resource.RUSAGE_CHILDREN), time.monotonic()
    differ = None
    if what in ("float64", "micros"):
        answers = rules.batch(frame, numbers=what)
    elif what == "numpy":
        answers = total({code: column.astype("float64") for code, column in box.items()})
    elif what == "compare":
        compare(rules, rules.with_list(AFTER), frame, of="TOTAL", weight="weight", by=["tenth:RNI", "region"])
    elif what == "file":
        rules.batch_file(table, os.path.join(folder, "out.csv"), keep=["weight", "region"])
    clock = time.monotonic() - begin
    (own_after, peak), (programs_after, _) = spent(resource.RUSAGE_SELF), spent(resource.RUSAGE_CHILDREN)
    if what == "numpy":
        differ = int((answers[:DRAWN] != rules.batch(frame[:DRAWN])["TOTAL"].to_numpy()).sum())
    print(json.dumps([clock, own_after - own, programs_after - programs, peak, peak - before, differ]))


def command(words):
    """The same of a command, with the peak of its processes."""
    begin, before = time.monotonic(), spent(resource.RUSAGE_CHILDREN)[0]
    done = subprocess.run(["/usr/bin/time", "-f", "%M", *words], cwd=ROOT, stdout=subprocess.DEVNULL, stderr=subprocess.PIPE, text=True, check=False)
    if done.returncode:
        sys.exit(f"{words}: status {done.returncode}: {done.stderr}")
    return time.monotonic() - begin, spent(resource.RUSAGE_CHILDREN)[0] - before, int(done.stderr.split()[-1]) / 1024


def main():
    os.environ["M_TAX"], folder = os.path.abspath(sys.argv[1]), sys.argv[2]
    rows = int(sys.argv[3]) if len(sys.argv) > 3 else 1_000_000
    os.environ.setdefault("XDG_CACHE_HOME", os.path.join(folder, "cache"))
    if len(sys.argv) > 4:
        return timed(sys.argv[4], folder, rows)
    written(os.path.join(folder, "table.csv"), rows)
    print(f"{machine()}\n\n| {rows:,} households | by the clock | Python's | the programs' | peak of Python | above what it was |")
    print("|---|---:|---:|---:|---:|---:|")
    found = {}
    for what, name in (("float64", "`batch` of a frame"), ("micros", "the same in millionths"), ("numpy", "one value by numpy"),
                       ("file", "`batch_file`, csv, two columns kept"), ("compare", "`compare` of a frame, tenths and groups")):
        words = [sys.executable, "-B", __file__, sys.argv[1], folder, str(rows), what]
        *measured, differ = json.loads(subprocess.run(words, cwd=ROOT, check=True, capture_output=True, text=True).stdout)
        found[what] = measured
        print("| " + " | ".join([name, *(f"{value:.2f}" for value in measured[:3]), *(f"{value:.0f}" for value in measured[3:])]) + " |", flush=True)
        if differ:
            print(f"(by numpy {differ} of {DRAWN:,} differ)")
    for name, more in (("`tools/reform`, tenths and groups", []), ("the same with `--step`", ["--step", "1AJ=1000"])):
        into = os.path.join(folder, f"into{len(more)}")
        words = ["tools/reform", WORDS[0], AFTER, WORDS[1], "-", os.path.join(folder, "table.csv"), "--of", "TOTAL", "--weight", "weight", "--by", "RNI"]
        clock, seconds, peak = command([*words, "--groups", "region", *more, "--into", into])
        found[f"reform{len(more)}"] = [clock]
        print(f"| {name} | {clock:.2f} | {seconds:.2f} with the programs | | {peak:.0f} | |", flush=True)
    print()
    figure("python.frame_seconds", found["float64"][0], "<=8")
    figure("python.frame_mebibytes", found["float64"][3], "<=300")
    figure("python.frame_to_numpy_seconds", found["float64"][0] / found["numpy"][0])
    figure("python.compare_less_batch_seconds", found["compare"][0] - found["float64"][0], "<=15")
    figure("python.reform_seconds", found["reform0"][0], "<=15")
    figure("python.reform_with_step_seconds", found["reform2"][0], "<=15")
    return None


if __name__ == "__main__":
    main()
