#!/usr/bin/env python3
"""Counts the stores and loads of a code file, and those that other choices of a victim would have.

    victims.py CODE..

The program of nodes is read off the code, and the allocator of register_alloc is done once more (`turn` and `settle`) with each choice of the register that
is given up where none is free: `read last`, as it is, whose counts must be those of the file; `any`, the first that the instruction doesn't need; and
`next use farthest`, which knows for each node where it is read next.
"""
import bisect
import os
import sys

HERE = os.path.dirname(os.path.abspath(__file__))
sys.path.insert(0, os.path.join(os.path.dirname(os.path.dirname(HERE)), "tests", "second"))
from reading.code_files import read_code  # noqa: E402

REGISTERS = 16
CHOICES = ("read last", "any", "next use farthest")


def program_of(code):
    """The nodes' arguments (as many as the operator has), the checks (guard, condition) and how many nodes there are."""
    registers, slots, nodes, checks = [None] * REGISTERS, {}, [], []
    for step in code.instructions:
        word = step[0]
        if word in ("in", "lit"):
            registers[step[1]] = len(nodes)
            nodes.append(())
        elif word == "do":
            arguments = tuple(registers[k] for k in step[3])
            registers[step[1]] = len(nodes)
            nodes.append(arguments)
        elif word == "st":
            slots[step[1]] = registers[step[2]]
        elif word == "ld":
            registers[step[1]] = slots[step[2]]
        elif word in ("ck", "co"):
            checks.append((registers[step[1]], registers[step[2]]))
    return nodes, checks


class Allocator:
    """Registers and slots, as Room of register_alloc has them."""

    def __init__(self, nodes, checks, choice):
        self.nodes, self.checks, self.choice = nodes, checks, choice
        self.reads = [[] for _ in nodes]
        for place, arguments in enumerate(nodes):
            for x in sorted(set(arguments)):
                self.reads[x].append(place + 1)
        self.tests = [0] * len(nodes)
        for place, check in enumerate(checks):
            for x in check:
                self.tests[x] = place + 1
        self.registers, self.slots = [None] * REGISTERS, {}
        self.made = self.read = self.checked = 0
        self.stores = self.loads = self.most = 0

    def is_live(self, x):
        return x < self.made and (bool(self.reads[x]) and self.read < self.reads[x][-1] or self.checked < self.tests[x])

    def last_read(self, register):
        x = self.registers[register]
        if x is None or not self.reads[x]:
            return 0
        if self.choice == "read last":
            return self.reads[x][-1]
        after = bisect.bisect_right(self.reads[x], self.read)
        return self.reads[x][after] if after < len(self.reads[x]) else len(self.nodes) + self.tests[x]

    def victim(self, kept):
        latest = next(register for register in range(3) if register not in kept)
        if self.choice == "any":
            return latest
        for register in range(REGISTERS):
            if register not in kept and self.last_read(register) > self.last_read(latest):
                latest = register
        return latest

    def vacate(self, kept):
        for register, x in enumerate(self.registers):
            if x is None or not self.is_live(x):
                return register
        register = self.victim(kept)
        x = self.registers[register]
        if x not in self.slots:
            self.slots[x] = True
            self.stores += 1
            self.most = max(self.most, len(self.slots))
        return register

    def fetch(self, x, kept):
        if x in self.registers:
            return self.registers.index(x)
        register = self.vacate(kept)
        self.loads += 1
        self.registers[register] = x
        return register

    def clear(self, read):
        for x in read:
            if not self.is_live(x):
                self.slots.pop(x, None)

    def run(self):
        for arguments in self.nodes:
            kept = []
            for x in arguments:
                kept.append(self.fetch(x, kept))
            self.read += 1
            self.clear(arguments)
            self.registers[self.vacate([])] = self.made
            self.made += 1
            while self.checked < len(self.checks) and max(self.checks[self.checked]) < self.made:
                check = self.checks[self.checked]
                guard = self.fetch(check[0], [])
                self.fetch(check[1], [guard])
                self.checked += 1
                self.clear(check)
        return self.stores, self.loads, self.most


def main():
    print("| Code | instructions | " + " | ".join(f"{choice}: stores, loads" for choice in CHOICES) + " |\n|---|---:|" + "---:|" * len(CHOICES))
    for path in sys.argv[1:]:
        with open(path, "rb") as text:
            code = read_code(text.read())
        nodes, checks = program_of(code)
        counts = [Allocator(nodes, checks, choice).run() for choice in CHOICES]
        own = tuple(sum(step[0] == word for step in code.instructions) for word in ("st", "ld"))
        if counts[0][:2] != own:
            sys.exit(f"{path}: the file has {own} stores and loads, and the allocator done again {counts[0][:2]}")
        print(f"| {os.path.basename(path)} | {len(code.instructions):,} | " + " | ".join(f"{count[0]:,}, {count[1]:,}" for count in counts) + " |", flush=True)


main()
