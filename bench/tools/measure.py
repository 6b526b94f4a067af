#!/usr/bin/env python3
"""Times explain, slips and why on two bases of 20,000 rules, compared with a plain read of the same files to tokens.

    measure.py [RUNS]

`alike` is the base of tests/tools/many_rules.py, whose formulas have one form; in `varied` no two of the long formulas have the same form, and there are
tables, loops, sums, conditionals, verifications and comments (generate.py). A script is run in place of the program and answers at once, so that only the
tools are timed. Prints user and system seconds, the least of RUNS runs, with those of children; for a syntax error the program's place is given.
The plain read is one compiled expression of the tokens over the decoded files, in the same language.
"""
import os
import subprocess
import sys
import tempfile

HERE = os.path.dirname(os.path.abspath(__file__))
sys.path[:0] = [HERE, os.path.dirname(HERE)]
from generate import alike, varied  # noqa: E402
from measured import figure, machine  # noqa: E402

ROOT = os.path.dirname(os.path.dirname(HERE))
RUNS = int(sys.argv[1]) if len(sys.argv) > 1 else 5
MOST = 3
PLAIN = r"""
import re, sys
tokens = re.compile(r'"[^"]*"|[0-9]+\.[0-9]+|[A-Za-z0-9_]+|\.\.|!=|<=|>=|[-+*/=<>()\[\],;:]|#[^\n]*')
print(sum(len(tokens.findall(open(name, encoding="latin-1", newline="").read())) for name in sys.argv[1:]))
"""
STAND_IN = """#!/bin/sh
case $1 in
    run) [ "$4" = - ] && { cat answer; exit 1; }; sed 's/$/ = 1/' "$4" ;;
    check) echo sound ;;
esac
"""


def seconds(words, folder):
    """The seconds of the processor that a command takes with its children, the least of RUNS, and its status."""
    least = None
    for _ in range(RUNS):
        before = os.times()
        status = subprocess.run(words, cwd=folder, env={**os.environ, "M_TAX": os.path.join(folder, "stand_in"), "LC_ALL": "C"},
                                stdout=subprocess.DEVNULL, stderr=subprocess.DEVNULL, check=False).returncode
        after = os.times()
        spent = after.children_user + after.children_system - before.children_user - before.children_system
        least = spent if least is None else min(least, spent)
    return least, status


def put(folder, name, text):
    with open(os.path.join(folder, name), "w", encoding="latin-1") as out:
        out.write(text)


def fault_of(rules, what):
    """The line of the program for a fault in the formula in the middle of a base."""
    byte = rules.index("\n", rules.index("\nregle", len(rules) // 2) + 1) + 1
    return f"refused base.m line {rules.count(chr(10), 0, byte) + 1} byte {byte}: {what}\n"


def rows(folder, rules, last):
    """Each command with its status, over a base whose last variable is `last`."""
    tool = lambda name: os.path.join(ROOT, "tools", name)
    put(folder, "base.m", rules)
    yield "plain read and tokens", [sys.executable, "-c", PLAIN, "base.m"], 0
    yield "explain --all", [tool("explain"), "--all", "base.list"], 5
    put(folder, "answer", fault_of(rules, f"unknown name {last}X"))
    yield "explain run, an unknown name", [tool("explain"), "run", "base.list", "-", "-", "h.csv"], 1
    yield "slips", [tool("slips"), "base.list"], 1
    yield "why, all values", [tool("why"), "base.list", "h.csv", last, "--depth", "3"], 0
    put(folder, "answer", fault_of(rules, "syntax"))
    at = rules.index("=", rules.index("\nregle", len(rules) // 2)) + 1
    put(folder, "base.m", rules[:at] + " +" + rules[at:])
    yield "explain run, a syntax error", [tool("explain"), "run", "base.list", "-", "-", "h.csv"], 1


def main():
    print(f"{machine()}\n\n| base | bytes | command | s | to the plain read |\n|---|---:|---|---:|---:|")
    for base in (alike, varied):
        rules, last = base()
        with tempfile.TemporaryDirectory() as folder:
            put(folder, "stand_in", STAND_IN)
            os.chmod(os.path.join(folder, "stand_in"), 0o755)
            put(folder, "base.list", "iliad\nbase.m\n")
            put(folder, "h.csv", "code,amount\nA000,5\n")
            plain, figures = None, []
            for name, words, wanted in rows(folder, rules, last):
                spent, status = seconds(words, folder)
                plain = plain or spent
                print(f"| {base.__name__} | {len(rules):,} | {name} | {spent:.2f} | {spent / plain:.1f} |", flush=True)
                if status != wanted:
                    sys.exit(f"{name}: status {status}, and not {wanted}")
                figures.append((name.replace(",", "").replace(" ", "_").replace("--", ""), spent))
            for name, spent in figures[1:]:
                figure(f"tools.{base.__name__}_{name}_s", spent, f"<={MOST}")


main()
