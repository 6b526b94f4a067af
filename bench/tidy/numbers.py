"""Seconds of the processor and memory of numbering nodes by chains and by a set, by turns, the least of five runs each.

    numbers.py PROGRAM
"""
import os
import sys

sys.path.insert(0, os.path.join(os.path.dirname(os.path.abspath(__file__)), ".."))
from measured import used

NODES = 5_000_000
TURNS = 5
SHAPES = {
    0: "most operators, over nodes near and far",
    1: "one sum, again and again",
    3: "literals",
    4: "sums of which each may be greater than the one before",
    7: "choices between the node before and two far ones",
}
WAYS = ["none", "chains", "set", "copied"]

print("| shape | chains, s | set | set and a list | chains, MB | set | set and a list |\n|---|---:|---:|---:|---:|---:|---:|")
for shape, name in SHAPES.items():
    runs = {way: [] for way in WAYS}
    for _ in range(TURNS):
        for way in WAYS:
            runs[way].append(used([os.path.abspath(sys.argv[1]), way, str(shape), str(NODES)], "."))
    key = min(run[0] for run in runs["none"])
    seconds = [min(run[0] for run in runs[way]) - key for way in WAYS[1:]]
    megabytes = [max(run[1] for run in runs[way]) / 1e6 for way in WAYS[1:]]
    print(f"| {name} | {seconds[0]:.2f} |", *(f"{s / seconds[0]:.2f} times |" for s in seconds[1:]), f"{megabytes[0]:.0f} |",
          *(f"{m / megabytes[0]:.2f} times |" for m in megabytes[1:]), flush=True)
