#!/usr/bin/env python3
"""Where the processor's time of `run` and `exec` of examples/impot2023 goes, by perf: parts.py [PROGRAM]

PROGRAM is the built m_tax (out/m_tax). Prints milliseconds of the processor of one start and the share of each part: the program, memory, pages, the loader,
files, the thread with 16 MB of stack. What any process takes (`true`, by runs.py) is in them.
"""
import os
import subprocess
import sys
import tempfile

HERE = os.path.dirname(os.path.abspath(__file__))
ROOT = os.path.dirname(os.path.dirname(HERE))
sys.path[:0] = [os.path.dirname(HERE), HERE]
from measured import machine  # noqa: E402
from profiled import is_there, shares, table  # noqa: E402

SOURCE = ["examples/impot2023/rules.list", "examples/impot2023/driver.mpp", "-"]
HOUSEHOLD = "examples/impot2023/households/couple_two_children.csv"
RATE, RUNS, EXECS = 20_000, 300, 600


def main():
    program = os.path.abspath(sys.argv[1]) if len(sys.argv) > 1 else f"{ROOT}/out/m_tax"
    columns = {}
    with tempfile.TemporaryDirectory() as folder:
        code = f"{folder}/code"
        with open(code, "wb") as out:
            subprocess.run([program, "compile", *SOURCE], cwd=ROOT, stdout=out, check=True)
        if is_there():
            columns["run"] = shares([program, "run", *SOURCE, HOUSEHOLD], ROOT, RATE, RUNS)
            columns["exec"] = shares([program, "exec", code, HOUSEHOLD], ROOT, RATE, EXECS)
    print(machine())
    table(columns)


main()
