#!/usr/bin/env python3
"""Where the processor's time of whole tables goes, on one processor, by perf: parts.py PROGRAM FOLDER [ROWS]

At the top of the repository. The tables are those of measure.py, of examples/impots and examples/impot2023 with their drivers.
"""
import os
import sys

HERE = os.path.dirname(os.path.abspath(__file__))
sys.path[:0] = [os.path.dirname(HERE), HERE]
from measured import alone, machine  # noqa: E402
from profiled import is_there, shares, table  # noqa: E402
from tables import CODES, ROWS, write_table  # noqa: E402

RATE, RUNS = 5_000, 3
OWN = [
    ("m_tax", ("Blocks",), "the code over columns"),
    ("m_tax", ("read_amount", "csv", "read_row", "cuts", "record"), "reading: records, rows, amounts, cuts"),
    ("m_tax", ("print_", "write_amount", "write_whole"), "printing"),
    ("m_tax", ("",), "all else in the program"),
]


def main():
    program, folder, rows = os.path.abspath(sys.argv[1]), sys.argv[2], int(sys.argv[3]) if len(sys.argv) > 3 else ROWS
    columns = {}
    for example, codes in CODES.items() if is_there() else ():
        path = os.path.join(folder, "parts.csv")
        write_table(path, codes, rows)
        columns[f"`{example}`"] = shares(alone([program, "batch", f"{example}/rules.list", f"{example}/driver.mpp", "-", path]), ".", RATE, RUNS, OWN)
    print(f"{rows:,} rows; {machine()}")
    table(columns)


main()
