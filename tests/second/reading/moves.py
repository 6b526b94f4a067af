"""What code puts aside: how many values must be held at one moment, and how often each is stored and loaded, by a plain count.

A value is held from where it is computed to where it is read for the last time: by an instruction at the one before it, and by a
check as soon as all is computed that this check and those before it read.
"""

import collections

REGISTERS = 16


class Moves:
    """The values that code computes, by their numbers, with what reads them and what moves them."""

    def __init__(self, instructions):
        self.nodes, self.checks = [], []
        self.stores, self.loads = collections.Counter(), collections.Counter()
        registers, slots = {}, {}
        for word, *numbers in instructions:
            if word in ("in", "lit", "do"):
                self.nodes.append([registers[register] for register in numbers[2]] if word == "do" else [])
                registers[numbers[0]] = len(self.nodes) - 1
            elif word == "st":
                slots[numbers[0]] = registers[numbers[1]]
                self.stores[slots[numbers[0]]] += 1
            elif word == "ld":
                registers[numbers[0]] = slots[numbers[1]]
                self.loads[slots[numbers[1]]] += 1
            elif word == "ck":
                self.checks.append((registers[numbers[0]], registers[numbers[1]]))

    def last_moments(self):
        """The last node at which each node is held."""
        last, moment = list(range(len(self.nodes))), 0
        for number, read in enumerate(self.nodes):
            for node in read:
                last[node] = max(last[node], number - 1)
        for read in self.checks:
            moment = max(moment, *read)
            for node in read:
                last[node] = max(last[node], moment)
        return last

    def width(self):
        """The most values that are held at one moment."""
        ends, held, most = collections.Counter(self.last_moments()), 0, 0
        for number in range(len(self.nodes)):
            held += 1
            most = max(most, held)
            held -= ends[number]
        return most

    def reads(self):
        """How often each node is read."""
        found = collections.Counter(node for read in self.nodes for node in read)
        found.update(node for read in self.checks for node in read)
        return found

    def are_few(self, slots):
        """Whether there are no more slots than the width and none where registers do, one store of a value at most, and one load for each read."""
        width, reads = self.width(), self.reads()
        if width <= REGISTERS and (slots or self.stores or self.loads):
            return False
        return slots <= width and all(count == 1 for count in self.stores.values()) and all(count <= reads[node] for node, count in self.loads.items())
