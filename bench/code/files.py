#!/usr/bin/env python3
"""Times code files: what `compile` and `exec` take, compared with `run`, and what a code file has.

    files.py PROGRAM FOLDER

Seconds are those of the processor (user and system), the least of three runs; the peak is that of resident memory. `exec` begins with the file on the
disk, so its time has the start of the program, the reading of the code file and of the household, and the run. Each answer of `exec` is compared with
`run`'s. The last two columns are of the reading: what `exec` with a household without rows takes for the whole file, less that for the smallest one.
"""
import os
import subprocess
import sys
import time

HERE = os.path.dirname(os.path.abspath(__file__))
ROOT = os.path.dirname(os.path.dirname(HERE))
sys.path.insert(0, os.path.dirname(HERE))
from measured import figure, least  # noqa: E402

EXAMPLES = ("examples/impots", "examples/impot2023")
LARGE = (10_000, 100_000)
SMALLEST = b"mcode 1\nslots 0\ncode\nend\n"


def example(name, folder):
    """The words of a source and a household of an example, with paths from the top of the repository."""
    household = os.path.join(folder, "household.csv")
    with open(household, "w", encoding="latin-1") as out:
        out.write("code,amount\n1AJ,33333\n" if name.endswith("2023") else open(os.path.join(ROOT, name, "household.csv"), encoding="latin-1").read())
    return [f"{name}/rules.list", f"{name}/driver.mpp", "-"], household, ROOT


def large(n, folder):
    """The words of the source of `large N` and its household."""
    place = os.path.join(folder, str(n))
    subprocess.run([sys.executable, os.path.join(os.path.dirname(HERE), "flat", "generate.py"), str(n), "0", place], check=True)
    return ["list.txt", "-", "requests.txt"], "household.csv", place


def counts(text):
    """Instructions, slots, stores, loads of a code file."""
    lines = text.split(b"\n")
    first = lines.index(b"code")
    instructions = lines[first + 1:-2]
    return (
        len(instructions),
        int(lines[1].split()[1]),
        sum(line.startswith(b"st ") for line in instructions),
        sum(line.startswith(b"ld ") for line in instructions),
    )


def asked(program, words, place, name):
    """What `least` measures of a command, which must have an answer."""
    seconds, peak, status, text = least([program, *words], place)
    if status not in (0, 6):
        sys.exit(f"{name}: {words[0]} ended with status {status}: {text[:200]}")
    return seconds, peak, text


def code_path(name, folder):
    return os.path.join(folder, name.split("/")[-1].replace(" ", "_").strip("`") + ".code")


def row(program, name, words, household, place, folder, smallest):
    code = code_path(name, folder)
    compiled, compile_peak, text = asked(program, ["compile", *words], place, name)
    with open(code, "wb") as out:
        out.write(text)
    run, run_peak, by_rules = asked(program, ["run", *words, household], place, name)
    done, exec_peak, by_code = asked(program, ["exec", code, household], place, name)
    if by_rules != by_code:
        sys.exit(f"{name}: run says {by_rules[:200]}, exec says {by_code[:200]}")
    instructions, slots, stores, loads = counts(text)
    empty, empty_peak, _ = asked(program, ["exec", code, os.path.join(folder, "none.csv")], place, name)
    reading = max(empty - smallest[0], 1e-9)
    print(
        f"| {name} | {len(text) / 1e6:.2f} | {instructions:,} | {slots:,} | {stores:,} | {loads:,} | {compiled:.3f} s, {compile_peak / 1e6:.0f} MB"
        f" | {run:.3f} s, {run_peak / 1e6:.0f} MB | {done:.4f} s, {exec_peak / 1e6:.0f} MB | {len(text) / 1e6 / reading:.0f}"
        f" | {(empty_peak - smallest[1]) / instructions:.0f} |",
        flush=True,
    )
    return done, run, len(text) / 1e6 / reading, (empty_peak - smallest[1]) / instructions, len(text) / instructions


def started(code, household, program, place):
    """Milliseconds by the clock from the start of `exec` to its end, the least of fifty."""
    found = []
    with open(os.devnull, "wb") as nothing:
        for _ in range(50):
            begin = time.perf_counter()
            child = os.posix_spawn(program, [program, "exec", code, household], os.environ, file_actions=[(os.POSIX_SPAWN_DUP2, nothing.fileno(), 1)])
            os.waitpid(child, 0)
            found.append(time.perf_counter() - begin)
    return min(found) * 1e3


def main():
    program, folder = os.path.abspath(sys.argv[1]), os.path.abspath(sys.argv[2])
    nothing, none = os.path.join(folder, "nothing.code"), os.path.join(folder, "none.csv")
    for path, text in ((nothing, SMALLEST), (none, b"code,amount\n")):
        with open(path, "wb") as out:
            out.write(text)
    smallest = asked(program, ["exec", nothing, none], folder, "the smallest")[:2]
    print(f"The smallest code file: `exec` takes {smallest[0] * 1e3:.1f} ms and {smallest[1] / 1e6:.1f} MB.\n")
    print("| Base | MB | instructions | slots | stores | loads | `compile` | `run` | `exec` | MB read a second, with the run "
          "| bytes of memory an instruction |")
    print("|---|---:|---:|---:|---:|---:|---:|---:|---:|---:|---:|")
    for name in EXAMPLES:
        words, household, place = example(name, folder)
        row(program, name, words, household, place, folder, smallest)
        figure(f"code.exec_{name.split('/')[1]}_ms", started(code_path(name, folder), os.path.join(place, household), program, place), "<=3")
    for n in LARGE:
        done, run, speed, memory, own = row(program, f"`large {n}`", *large(n, folder), folder, smallest)
    figure("code.exec_to_run_of_large_100000", done / run, "<=0.2")
    figure("code.read_MB_a_second", speed, ">=60")
    figure("code.read_bytes_an_instruction_with_the_file", memory, "<=40")
    figure("code.read_bytes_an_instruction_above_the_file", memory - own)


main()
