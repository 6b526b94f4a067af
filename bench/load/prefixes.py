#!/usr/bin/env python3
"""Runs the program on every prefix of the files of examples/impots.

    prefixes.py PROGRAM FOLDER

The rule file is cut at each byte of its first 4 KB and then at each seventh, its driver and its household at each byte. For a prefix of the rule
file the line that must be printed is worked out here from the places of texts and semicolons; for the others the line must be one of those of
docs/REFUSALS.md that fits the file, with a line of the prefix. Where a prefix is whole, the four lines of the answer must come, with status 0.
"""
import os
import re
import subprocess
import sys
from collections import Counter

HERE = os.path.dirname(os.path.abspath(__file__))
IMPOTS = os.path.join(os.path.dirname(os.path.dirname(HERE)), "examples", "impots")
ANSWER = re.compile(rb"".join(name + rb"( = -?[0-9]+(\.[0-9]+)?| undefined)\n" for name in (b"IRNET", b"MARG", b"AVANT", b"GAIN")))
STOP = re.compile(rb"failed 200[1-6] A01 anomalie\nA:01:00:parts:N\n")
OF_DRIVER = re.compile(
    rb"refused driver line ([0-9]+): (bad token|too deep|syntax|function twice [A-Za-z0-9_]+|(unknown|bad target) [A-Za-z0-9_]+)\n"
    rb"|refused driver: no main\n"
)
OF_HOUSEHOLD = re.compile(rb"refused household line ([0-9]+): (bad row|unknown code|bad amount|code twice)\n|refused household: bad header\n")
TOKEN = re.compile(rb'[ \t\r\n]+|#[^\n]*|(?P<text>"[^"]*")|(?P<end>;)|(?P<other>[0-9]+\.[0-9]+|\.\.|[<>!]=|[A-Za-z0-9_]+|[-+*/=<>()\[\],:])')


def fault_line(prefix, place, what):
    return b"refused impots.m line %d byte %d: %s\n" % (1 + prefix[:place].count(b"\n"), place, what)


def of_rules(prefix):
    """The line for a prefix of the rule file, or None where it is whole.

    All of this file's semicolons end an item, a formula, a check or the head of a rule or verification. A head is whole with what follows it.
    """
    at, begun, head = 0, None, False
    while at < len(prefix):
        token = TOKEN.match(prefix, at)
        if token is None:
            return fault_line(prefix, at, b"open string" if prefix[at : at + 1] == b'"' else b"bad byte")
        if token["end"]:
            if not head:
                begun = None
            head = False
        elif token.lastgroup and begun is None:
            begun, head = at, token["other"] in (b"regle", b"verif")
        at = token.end()
    return None if begun is None else fault_line(prefix, begun, b"syntax")


def of_whole(prefix):
    """The line for a whole prefix, which lacks declarations of what the driver names, or None where it has them all."""
    # The driver's names from the top on, by line: without_benefits() receives AVANT; then come IRNET, MARG, RIBEN, GAIN.
    for line, name in ((2, b"AVANT"), (3, b"IRNET"), (3, b"MARG"), (4, b"RIBEN"), (5, b"GAIN")):
        if not re.search(rb"(^|[\n;] *)" + name + rb" : [^;]*;", prefix):
            return b"refused driver line %d: unknown %s\n" % (line, name)
    return None


class Runs:
    def __init__(self, program, folder):
        self.program, self.folder = program, folder
        self.seen, self.faults = Counter(), []
        self.files = {}
        for name in ("impots.m", "driver.mpp", "household.csv"):
            with open(os.path.join(IMPOTS, name), "rb") as text:
                self.files[name] = text.read()
        with open(os.path.join(folder, "rules.list"), "w") as out:
            out.write("iliad\nimpots.m\n")

    def put(self, name, text):
        with open(os.path.join(self.folder, name), "wb") as out:
            out.write(text)

    def run(self, name, length):
        prefix = self.files[name][:length]
        self.put(name, prefix)
        words = [self.program, "run", "rules.list", "driver.mpp", "-", "household.csv"]
        done = subprocess.run(words, cwd=self.folder, stdin=subprocess.DEVNULL, capture_output=True, check=False)
        self.judge(name, prefix, done.returncode, done.stdout, done.stderr)

    def judge(self, name, prefix, status, printed, told):
        lines = prefix.count(b"\n") + 1
        if ANSWER.fullmatch(printed):
            due, good = 0, name != "impots.m" or of_rules(prefix) is None and of_whole(prefix) is None
        elif STOP.fullmatch(printed):
            due, good = 6, name == "household.csv"
        elif name == "impots.m":
            due, good = 1, printed == (of_rules(prefix) or of_whole(prefix))
        else:
            line = (OF_DRIVER if name == "driver.mpp" else OF_HOUSEHOLD).fullmatch(printed)
            due, good = 1, bool(line) and int(line[1] or 1) <= lines
        if not good or status != due or told:
            self.faults.append(f"{name}, its first {len(prefix)} bytes: status {status}, {printed[:120]!r} {told[:80]!r}")
        kind = re.sub(rb"(line|byte) [0-9]+", rb"\1 ..", printed.split(b"\n")[0]) if due else b"an answer"
        kind = re.sub(rb"unknown [A-Za-z_]+$", rb"unknown ..", kind)
        self.seen[name, kind.decode(), status] += 1


def main():
    runs = Runs(os.path.abspath(sys.argv[1]), os.path.abspath(sys.argv[2]))
    for name, text in runs.files.items():
        runs.put(name, text)
    for name, text in runs.files.items():
        for length in range(len(text)):
            if name != "impots.m" or length < 4096 or length % 7 == 0:
                runs.run(name, length)
        runs.put(name, text)
    print("| File | line | status | prefixes |\n|---|---|---:|---:|")
    for (name, line, status), count in sorted(runs.seen.items()):
        print(f"| {name} | `{line}` | {status} | {count:,} |")
    for fault in runs.faults:
        print("fault:", fault)
    sys.exit(1 if runs.faults else 0)


if __name__ == "__main__":
    main()
