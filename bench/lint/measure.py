#!/usr/bin/env python3
"""How many of the true findings `lint` gives: measure.py PROGRAM [BASES] [SEED]

At the top of the repository. For both examples and for BASES random bases (100; those of tests/second/changing that have no fault)
it counts what `lint` finds, and what no household refutes: of HOUSEHOLDS made-up ones with amounts near the numbers of the rules,
verifications that none of them stops or notes, and inputs of which another amount changed no answer in PAIRS pairs each.
These are at least the true ones, and maybe more. What is never defined is counted by the reference implementation, exactly.
If households refute a finding, or a cell is missed, this is reported, and the status is 1.
"""
import csv
import io
import os
import random
import re
import subprocess
import sys
import tempfile

TOP = os.path.dirname(os.path.dirname(os.path.dirname(os.path.abspath(__file__))))
sys.dont_write_bytecode = True
sys.path.insert(0, os.path.join(TOP, "tests", "second"))
sys.setrecursionlimit(100_000)
from changing.rows import changed_row  # noqa: E402
from compare import MOST_BYTES, SLOW, Folder, read_rows, write_files  # noqa: E402
from reading.commands import gathered  # noqa: E402
from reading.faults import Refused, RingRefused, Unreadable  # noqa: E402
from reading.findings import never_defined  # noqa: E402
from reading.sources import Compiled  # noqa: E402

HOUSEHOLDS, PAIRS = 3_000, 300
OF_RANDOM = 300, 40
EXAMPLES = {
    "examples/impot2023, with its driver": ["examples/impot2023/rules.list", "examples/impot2023/driver.mpp", "-"],
    "examples/impot2023, the rules alone": ["examples/impot2023/rules.list", "-", "-"],
    "examples/impots, with its driver": ["examples/impots/rules.list", "examples/impots/driver.mpp", "-"],
    "examples/impots, the rules alone": ["examples/impots/rules.list", "-", "-"],
}
TOLD = re.compile(r"(?:failed|noted|over verification) ([0-9]+) ([^ \n]+)")
HEADS = ["Base", "verifications", "never stop: `lint`", "no household stops", "inputs", "unused: `lint`", "no household depends on",
         "never defined: `lint`", "by definition"]


class Trial:
    """A source, its findings, and what households show."""

    def __init__(self, program, words, folder, sizes):
        self.program, self.words, self.folder, self.sizes = program, words, folder, sizes
        source = gathered([os.fsencode(word) for word in words], Folder(folder))
        self.compiled = Compiled(source)
        self.types = {code.decode("latin-1"): kind for code, kind in self.compiled.declared.types.items()}
        numbers = {0, 1, 2, 1000, *(int(float(text)) for _, rules in source.rule_files for text in re.findall(rb"\b[0-9]{1,13}\b", rules))}
        self.numbers = sorted({number + step for number in numbers if number < 9_999_999_999_999 for step in (-1, 0, 1)} | {-1000})
        self.draw = random.Random(1)

    def amount(self, code):
        kind = self.types[code]
        if kind == b"truth":
            return str(self.draw.randrange(2))
        whole = self.draw.choice(self.numbers) if self.draw.random() < 0.6 else self.draw.randrange(self.draw.choice([10, 1000, 60_000, 1_000_000]))
        return str(whole) if kind == b"whole" or self.draw.random() < 0.8 else f"{whole}.{self.draw.randrange(100):02}"

    def household(self):
        share = self.draw.choice([0.2, 0.5, 0.9])
        return {code: self.amount(code) for code in self.types if self.draw.random() < share}

    def ran(self, *words):
        done = subprocess.run([self.program, *words], cwd=self.folder, stdin=subprocess.DEVNULL, stdout=subprocess.PIPE, check=False)
        if done.returncode:
            sys.exit(f"{self.words}: {words[0]}: status {done.returncode}: {done.stdout[:200]!r}")
        return done.stdout.decode("latin-1")

    def answers(self, households):
        out = io.StringIO()
        writer = csv.writer(out, lineterminator="\n")
        writer.writerow(["name", *self.types])
        writer.writerows([f"r{k}", *(household.get(code, "") for code in self.types)] for k, household in enumerate(households))
        path = os.path.join(self.folder, "tries.csv") if self.folder != TOP else os.path.join(tempfile.gettempdir(), f"tries-{os.getpid()}.csv")
        with open(path, "w", encoding="latin-1") as file:
            file.write(out.getvalue())
        parts = re.split(r"(?m)^household r[0-9]+\n", self.ran("batch", *self.words, path))[1:]
        os.remove(path)
        if len(parts) != len(households):
            sys.exit(f"{self.words}: {len(parts)} answers for {len(households)} households")
        return parts

    def measured(self):
        """The figures of a row, and the refuted findings."""
        found = self.ran("lint", *self.words).split("\n")[:-1]
        tried, pairs = self.sizes
        households = [self.household() for _ in range(tried)]
        told = {match for text in self.answers(households) for match in TOLD.findall(text)}
        checks = [(label.verification.decode(), label.error.decode()) for _, label in self.compiled.base.checks]
        silent = [check for check in checks if check not in told]
        unused = []
        for code in self.types:
            first = [self.household() for _ in range(pairs)]
            other = [
                {**household, code: self.amount(code)} if self.draw.random() < 0.8 else {c: a for c, a in household.items() if c != code}
                for household in first
            ]
            both = self.answers(first + other)
            if both[:pairs] == both[pairs:]:
                unused.append(code)
        due = [line.decode("latin-1") for line in never_defined(self.compiled)]
        stops = [line for line in found if line.startswith("never stops ")]
        inputs = [line for line in found if line.startswith("unused input ")]
        cells = [line for line in found if line.startswith("never defined ")]
        against = [line for line in stops if tuple(line.split(" ")[2:]) not in silent]
        against += [line for line in inputs if line.split(" ")[2] not in unused]
        against += sorted(set(cells) ^ set(due))
        missed = [f"never stops {' '.join(check)}" for check in silent if f"never stops {' '.join(check)}" not in stops]
        missed += [f"unused input {code}" for code in unused if f"unused input {code}" not in inputs]
        return [len(checks), len(stops), len(silent), len(self.types), len(inputs), len(unused), len(cells), len(due)], against, missed


def random_sources(count, seed, room):
    """Changed rows without a fault, each in a folder, with its words."""
    rows = [(row, status) for name, (row, _, status, size) in read_rows().items() if size <= MOST_BYTES and name not in SLOW]
    good = [row for row, status in rows if status in (0, 6)]
    bad = [row for row, status in rows if status not in (0, 6)]
    number = found = 0
    while found < count:
        row = changed_row(number, random.Random(f"{seed}:{number}"), good, bad)
        number += 1
        if len(row.words) != 5 or row.words[0] not in (b"run", b"batch", b"serve"):
            continue
        folder = os.path.join(room, str(found))
        write_files(row.files, folder)
        try:
            compiled = Compiled(gathered(row.words[1:4], Folder(folder)))
        except (Refused, RingRefused, Unreadable):
            continue
        if compiled.base.terms and compiled.declared.inputs:
            found += 1
            yield [word.decode() for word in row.words[1:4]], folder


def main():
    program = os.path.abspath(sys.argv[1])
    count, seed = [int(word) for word in sys.argv[2:4]] + [100, 1][len(sys.argv) - 2 :]
    failed, lines = [], []
    print("| " + " | ".join(HEADS) + " |\n|---|" + "---:|" * 8)
    for name, words in EXAMPLES.items():
        figures, against, missed = Trial(program, words, TOP, (HOUSEHOLDS, PAIRS)).measured()
        failed += against
        lines += [f"{name}: not found: {', '.join(missed)}"] if missed else []
        print("| " + " | ".join([name, *map(str, figures)]) + " |", flush=True)
    sums, any_missed = [0] * 8, []
    with tempfile.TemporaryDirectory() as room:
        for words, folder in random_sources(count, seed, room):
            figures, against, missed = Trial(program, words, folder, OF_RANDOM).measured()
            failed += [f"{folder}: {line}" for line in against]
            any_missed += missed
            sums = [one + other for one, other in zip(sums, figures)]
    print("| " + " | ".join([f"{count} random bases, seed {seed}", *map(str, sums)]) + " |")
    print("\n".join(["", *lines]))
    print("\n".join(f"told against: {line}" for line in failed))
    return 1 if failed else 0


sys.exit(main())
