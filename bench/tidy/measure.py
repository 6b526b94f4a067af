"""Seconds of the processor and bytes a node that `tidy` takes above the program, for each shape: the difference of a run with it and of one without it, beside
the plain scanner over a rule file of 16 MiB in the same run.

    measure.py PROGRAM SCANNER FILE
"""
import os
import sys

sys.path.insert(0, os.path.join(os.path.dirname(os.path.abspath(__file__)), ".."))
from measured import figure, least, scanned

NODES = 5_000_000
SHAPES = [
    "most operators, over nodes near and far",
    "one sum, again and again",
    "a chain of opposites",
    "literals",
    "sums of which each may be greater than the one before",
    "sums of the two nodes before",
    "choices between the two nodes before and an input",
    "choices between the node before and two far ones",
]

scanner = scanned(os.path.abspath(sys.argv[2]), [os.path.abspath(sys.argv[3])], ".")
print(f"The plain scanner takes {scanner:.3f} s for {os.path.getsize(sys.argv[3]):,} bytes.\n")
print("| shape | nodes left | seconds | to the scanner | bytes a node |\n|---|---:|---:|---:|---:|")
worst = {}
for shape, name in enumerate(SHAPES):
    words = [os.path.abspath(sys.argv[1]), str(shape), str(NODES)]
    made, tidy = least([*words, "made"], "."), least(words, ".")
    left = int(tidy[3].split()[1])
    worst[name] = tidy[0] - made[0], (tidy[1] - made[1]) / NODES
    seconds, memory = worst[name]
    print(f"| {name} | {left:,} | {seconds:.2f} | {seconds / scanner:.1f} | {memory:.0f} |", flush=True)
dearest = max(seconds for seconds, _ in worst.values())
figure(f"tidy.{NODES}_nodes_s", dearest)
figure(f"tidy.{NODES}_nodes_to_scanner_of_16_MiB", dearest / scanner, "<=10")
figure("tidy.bytes_a_node_above_the_program", max(memory for _, memory in worst.values()), "<=100")
