#!/usr/bin/env python3
"""Times tables of households against C that computes the same tables, on one thread and on all processors, and their memory.

    measure.py PROGRAM FOLDER

At the top of the repository, which has the examples. A table has 100,000 rows of 8 columns (examples/impot2023: 9).
Each table is computed by `m_tax batch` on one processor (`taskset -c 0`), by the C that a plain translator makes of the rules and the driver (translate.py),
and by straight-line C for the code file (straight.py), whose outputs must be the same bytes. Seconds are user and system,
the least of three runs by turns. What a row takes is what is above a table without rows; the ratio of whole tables has the start and the reading of the rules
in it. On all processors it is seconds by the clock, since threads overlap, beside one run on each processor at once: a share of that is what all processors
can give, and the aim is 1.15 times it.
"""
import os
import subprocess
import sys

HERE = os.path.dirname(os.path.abspath(__file__))
sys.path[:0] = [os.path.dirname(HERE), HERE]
from measured import alone, figure, machine, processors, side_by_side, timed  # noqa: E402
from tables import CODES, ROWS, amount, write_table  # noqa: E402

ROW_AIMS = {"plain": 1.0, "straight": 3.0}
WHOLE_AIM = 2
TABLE_BYTES = 16_777_216
BASES = [("examples/impots", "-"), ("examples/impots", "driver.mpp"), ("examples/impot2023", "driver.mpp")]


def done(words, taken, wanted=None):
    """User and system seconds, peak and seconds by the clock, the least of `runs` runs, of a command whose output is checked."""
    runs = [timed(words, ".") for _ in range(taken)]
    for run in runs:
        if run[2] != 0 or wanted is not None and run[3] != wanted:
            sys.exit(f"{words}: status {run[2]}, {run[3][:200]}")
    return min(run[0] for run in runs), max(run[1] for run in runs), min(run[4] for run in runs), runs[0][3]


def compiled(folder, name, maker, words):
    """A program of C that one of the scripts writes."""
    source, made = os.path.join(folder, name + ".c"), os.path.join(folder, name)
    with open(source, "wb") as out:
        subprocess.run([sys.executable, os.path.join(HERE, maker), *words], stdout=out, check=True)
    subprocess.run(["gcc", "-O2", "-o", made, source], check=True)
    return made


def base(program, folder, example, driver, rows):
    """The rows of the table of one base, and its figures."""
    source = [f"{example}/rules.list", driver if driver == "-" else f"{example}/{driver}", "-"]
    name = example.split("/")[1] + ("" if driver == "-" else "_driver")
    code = os.path.join(folder, name + ".code")
    with open(code, "wb") as out:
        subprocess.run([program, "compile", *source], stdout=out, check=True)
    full, none = (os.path.join(folder, f"{name}_{n}.csv") for n in (rows, 0))
    write_table(full, CODES[example], rows)
    write_table(none, CODES[example], 0)
    batch = [program, "batch", *source]
    programs = {
        "m_tax": alone(batch),
        "plain": alone([compiled(folder, name + "_plain", "translate.py", source[:2])]),
        "straight": alone([compiled(folder, name + "_straight", "straight.py", [code])]),
    }
    wanted = timed([*batch, full], ".")[3]
    if wanted.count(b"household ") != rows:
        sys.exit(f"{name}: {wanted[:300]}")
    each, whole = {}, {}
    for kind, words in programs.items():
        whole[kind] = done([*words, full], 3, wanted)[0]
        each[kind] = (whole[kind] - done([*words, none], 3)[0]) / rows * 1e6
    ratios = {kind: each["m_tax"] / each[kind] for kind in ROW_AIMS}
    tables = whole["m_tax"] / whole["straight"]
    print(f"| {example}{'' if driver == '-' else ' with its driver'} | {each['m_tax']:.2f} | {each['plain']:.2f} | {each['straight']:.2f}"
          f" | {ratios['plain']:.2f} | {ratios['straight']:.2f} | {tables:.2f} |", flush=True)
    found = [(f"{name}_us_a_row", each["m_tax"]), *((f"{name}_to_{kind}_c", ratios[kind], f"<={aim}") for kind, aim in ROW_AIMS.items()),
             (f"{name}_whole_table_to_straight_c", tables, f"<={WHOLE_AIM}")]
    return name, [*batch, full], wanted, found


def threads(name, words, wanted):
    """One processor, all of them, and a run on each at once, by the clock, by turns."""
    one, all_, each = [], [], []
    for _ in range(4):
        one.append(done(alone(words), 1, wanted)[2])
        all_.append(done(words, 1, wanted)[2])
        each.append(side_by_side(words, ".", (0, wanted)))
    count = len(processors())
    share = min(each) / count
    print(f"| {name} | {min(one):.3f} | {min(each):.3f} | {share:.3f} | {min(all_):.3f} | {min(all_) / share:.2f} | {min(one) / min(all_):.2f} |", flush=True)
    return [(f"{name}_{count}_processors_to_a_share_of_{count}_runs", min(all_) / share, "<=1.15"),
            (f"{name}_{count}_processors_to_one", min(one) / min(all_))]


def long_amount(row, column, _code):
    return f"{(row * 7919 + column * 104729) % 40000}.{(row * 31 + column) % 1000000:06}{'0' * 8}"


def memory(program, folder, name, words, codes, cell, rows, aim):
    """The peak of one batch over a table of this many rows, cut at the limit of a table's bytes."""
    path = os.path.join(folder, "memory.csv")
    write_table(path, codes, rows, cell)
    with open(path, "rb+") as file:
        text = file.read()
        if len(text) > TABLE_BYTES:
            file.truncate(text.rindex(b"\n", 0, TABLE_BYTES) + 1)
    size = os.path.getsize(path)
    _, peak, _, text = done([program, "batch", *words, path], 1)
    print(f"| {name} | {text.count(b'household '):,} | {len(codes)} | {size / 1e6:.1f} | {peak / 1e6:.0f} | {aim} |", flush=True)
    return peak / 1e6


def all_codes(program, words, folder):
    """The codes of all inputs of a base, by its code file."""
    text = subprocess.run([program, "compile", *words], stdout=subprocess.PIPE, check=True).stdout
    return [line.split()[1].decode() for line in text.split(b"\n") if line.startswith(b"input ")]


def main():
    program, folder, rows = os.path.abspath(sys.argv[1]), sys.argv[2], int(sys.argv[3]) if len(sys.argv) > 3 else ROWS
    print(f"{machine()}\n\n| Base | `batch`, microseconds a row | plain C | straight-line C | to plain | to straight | whole table to straight |\n"
          "|---|---:|---:|---:|---:|---:|---:|")
    told = [base(program, folder, example, driver, rows) for example, driver in BASES]
    print("\n| Base | one run on one processor, s | a run on each at once, s | a share of that, s | one run on all, s | to the share | times one |\n"
          "|---|---:|---:|---:|---:|---:|---:|")
    found = [one for *_, ones in told for one in ones]
    for name, words, wanted, _ in told:
        found += threads(name, words, wanted)
    print("\n| Table | rows | columns | MB | peak, MB | aim, MB |\n|---|---:|---:|---:|---:|---:|")
    impots = ["examples/impots/rules.list", "examples/impots/driver.mpp", "-"]
    eight, codes = CODES["examples/impots"], all_codes(program, impots, folder)
    small = memory(program, folder, "8 columns", impots, eight, amount, rows, 40)
    great = max(memory(program, folder, "8 columns of long amounts", impots, eight, long_amount, rows, 120),
                memory(program, folder, "all columns, one digit each", impots, codes, lambda r, c, _code: (r + c) % 10, rows, 120))
    found += [("100000_rows_of_8_columns_MB", small, "<=40"), ("table_of_16_MB_MB", great, "<=120")]
    for name, *rest in found:
        figure(f"batch.{name}", *rest)


main()
