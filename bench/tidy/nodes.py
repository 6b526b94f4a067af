#!/usr/bin/env python3
"""Counts the nodes of sources that were made tidy.

    nodes.py PROGRAM FOLDER

The nodes of a tidy program are those of the code that `compile` prints (`in`, `lit` and `do`). The table also has the cost of the driver, by the reference
implementation, and of a driver of several calls how many nodes one call of the rules has. How many nodes there were before isn't printed by any command.
"""
import os
import subprocess
import sys

HERE = os.path.dirname(os.path.abspath(__file__))
ROOT = os.path.dirname(os.path.dirname(HERE))
sys.path.insert(0, os.path.dirname(HERE))
sys.path.insert(0, os.path.join(ROOT, "tests", "second"))
from measured import figure  # noqa: E402
from reading.driver_runs import driver_weight  # noqa: E402
from reading.files import read_list  # noqa: E402
from reading.sources import Compiled, Source  # noqa: E402


def fetch(name):
    with open(name, "rb") as text:
        return text.read()


def cost(words):
    """The cost of a source's driver, by the reference implementation."""
    application, names = read_list(fetch(words[0]))
    driver, requests = (None if word == "-" else fetch(word) for word in words[1:])
    compiled = Compiled(Source(application, [(name, fetch(name)) for name in names], driver, requests))
    return driver_weight(compiled.run.driver, compiled.base)


def nodes(program, words):
    text = subprocess.run([program, "compile", *words], stdout=subprocess.PIPE, check=True).stdout
    return sum(line.startswith((b"in ", b"lit ", b"do ")) for line in text.split(b"\n"))


def main():
    program, folder = os.path.abspath(sys.argv[1]), os.path.abspath(sys.argv[2])
    os.chdir(ROOT)
    print("| Source | cost of the driver | nodes of the tidy program | nodes of one call of the rules, tidy | times |\n|---|---:|---:|---:|---:|")
    for example in ("impots", "impot2023"):
        rules = [f"examples/{example}/rules.list", "-", "-"]
        driven = [rules[0], f"examples/{example}/driver.mpp", "-"]
        once, tidy = nodes(program, rules), nodes(program, driven)
        print(f"| `examples/{example}` with its driver | {cost(driven):,} | {tidy:,} | {once:,} | {tidy / once:.2f} |", flush=True)
        figure(f"tidy.{example}_driver_to_one_call", tidy / once, "<=1.3")
    subprocess.run([sys.executable, "bench/flat/generate.py", "10000", "0", os.path.join(folder, "large")], check=True)
    os.chdir(os.path.join(folder, "large"))
    words = ["list.txt", "-", "requests.txt"]
    print(f"| `large 10000` | {cost(words):,} | {nodes(program, words):,} | | |", flush=True)


main()
