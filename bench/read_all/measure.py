#!/usr/bin/env python3
"""Times rule files of 64 MB in four files on all processors: measure.py PROGRAM FOLDER [MEGABYTES]

FOLDER gets the files of generate.py. A run of files is timed whose last line can't be read, which does no more than reading, of 64 MB and of 32, and a
whole `run`. Seconds by the clock, the least of three runs by turns, of one run on all processors, of one run on one processor (`taskset -c 0`), and of four
runs on a processor each at once. What all processors can give for one run's work is a quarter of the last: the aim for reading is 1.15 times that. The bytes
and the status of all must be equal, and those of the fault at its place.

Then the peak of resident memory is measured of files of the shortest formulas, of which an error ends the run once they are read: the aim is 60 bytes for a
byte of them.
"""
import os
import subprocess
import sys

HERE = os.path.dirname(os.path.abspath(__file__))
sys.path.append(os.path.dirname(HERE))
from measured import alone, figure, machine, processors, side_by_side, timed  # noqa: E402

RUNS = 3
HALF = "32"  # megabytes: of more than 33,554,432 bytes together the program reads one file after another
ONE, RULE = 'A : calculee restituee : "" ;\n', "regle 1 : application : iliad ;\n"
TWICE = f"refused s0.m line 3 byte {len(ONE) + len(RULE) + 4}: defined twice A\n"
MANY = "refused s1.m line 1 byte 0: too many parts\n"  # a formula is two parts: a file of 4 MB has as many as there may be
# How many files of how many bytes, whether on one processor, and what is printed.
SHORTEST = [(1, 1_000_000, False, TWICE), (4, 1_000_000, False, TWICE), (1, 4_000_000, False, TWICE), (4, 4_000_000, False, MANY), (4, 4_000_000, True, MANY)]


def clock(words, folder):
    """Seconds by the clock of one run, and its status and text."""
    _, _, status, text, seconds = timed(words, folder)
    return seconds, (status, text)


def ratio(name, program, folder, listed, wanted):
    words = [program, "run", listed, "-", "-", "household.csv"]
    many, one, each = [], [], []
    for _ in range(RUNS):
        (seconds, said), (single, other) = clock(words, folder), clock(alone(words), folder)
        if said != other or not wanted(*said):
            sys.exit(f"{listed}: {said} on all processors, {other} on one")
        many, one, each = [*many, seconds], [*one, single], [*each, side_by_side(words, folder, said)]
    count = len(processors())
    share = min(each) / count
    print(f"| {name} | {min(one):.2f} | {min(each):.2f} | {share:.2f} | {min(many):.2f} | {min(many) / share:.2f} | {min(many) / min(one):.2f} |", flush=True)
    return [(f"{name}_{count}_processors_to_a_share_of_{count}_runs", min(many) / share, "<=1.15" if name == "reading" else "-"),
            (f"{name}_{count}_processors_to_one", min(many) / min(one))]


def memory(program, folder):
    """The greatest peak for a byte of rules, of files of the shortest formulas."""
    print("\n| Files of `A=1;` | bytes | peak, MB | bytes of memory a byte |\n|---|---:|---:|---:|")
    most = 0
    for count, size, single, wanted in SHORTEST:
        for k in range(count):
            head = ONE * (k == 0) + RULE
            with open(os.path.join(folder, f"s{k}.m"), "w", encoding="ascii") as out:
                out.write(head + "A=1;" * ((size - len(head)) // 4))
        with open(os.path.join(folder, "short.txt"), "w", encoding="ascii") as out:
            out.write("\n".join(["iliad", *(f"s{k}.m" for k in range(count)), ""]))
        words = [program, "run", "short.txt", "-", "-", "household.csv"]
        _, peak, status, text, _ = timed(alone(words) if single else words, folder)
        if (status, text.decode("latin-1")) != (1, wanted):
            sys.exit(f"{count} files of {size}: status {status}, {text[:200]}")
        read = sum(os.path.getsize(os.path.join(folder, f"s{k}.m")) for k in range(count))
        print(f"| {count} of {size / 1e6:.0f} MB, on {'one processor' if single else 'all'} | {read:,} | {peak / 1e6:.0f} | {peak / read:.0f} |", flush=True)
        most = max(most, peak / read)
    print()
    return most


def generated(folder, *megabytes):
    """Makes the files, and returns what a run of fault.txt must print, and a head for the tables."""
    subprocess.run([sys.executable, os.path.join(HERE, "generate.py"), folder, *megabytes], check=True, stdout=subprocess.DEVNULL)
    names = [name for name in os.listdir(folder) if name.startswith("r") and name.endswith(".m")]
    size = sum(os.path.getsize(os.path.join(folder, name)) for name in names)
    with open(os.path.join(folder, "fault.m"), "rb") as file:
        text = file.read()
    place = f"line {text.count(10)} byte {text.rindex(b'RESULTAT = ;')}: syntax\n".encode()
    return b"refused fault.m " + place, f"{size / 1e6:.0f} MB in {len(names)} files"


def main():
    program, folder = os.path.abspath(sys.argv[1]), sys.argv[2]
    fault, head = generated(folder, *sys.argv[3:4])
    less = os.path.join(folder, "less")
    fault_of_less, head_of_less = generated(less, HALF)
    print(f"{head}, and {head_of_less}; {machine()}\n")
    print("| Work | one run on one processor, s | a run on each processor at once, s | a share of that, s | one run on all, s | to the share | to one |\n"
          "|---|---:|---:|---:|---:|---:|---:|")
    found = ratio("reading", program, folder, "fault.txt", lambda status, out: status == 1 and out == fault)
    found += ratio("reading_32_MB", program, less, "fault.txt", lambda status, out: status == 1 and out == fault_of_less)
    found += ratio("run", program, folder, "list.txt", lambda status, out: status == 0 and out.startswith(b"RESULTAT = "))
    found.append(("bytes_of_memory_a_byte_of_the_shortest_formulas", memory(program, folder), "<=60"))
    for name, *rest in found:
        figure(f"read_all.{name}", *rest)


main()
