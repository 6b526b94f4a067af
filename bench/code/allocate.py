"""Microseconds of `allocate` on tidy programs of NODES nodes, by the clock, the least of three runs, with what the code has.

    allocate.py PROGRAM NODES
"""
import os
import sys

sys.path.insert(0, os.path.join(os.path.dirname(os.path.abspath(__file__)), ".."))
from measured import figure, used

AIM = 3.0
SHAPES = {
    4: ("sums of which each may be greater than the one before", "sums"),
    6: ("choices between the two nodes before and an input", "near"),
    7: ("choices between the node before and two far ones", "far"),
}


def main():
    program, nodes = os.path.abspath(sys.argv[1]), int(sys.argv[2])
    print("| shape | nodes of the tidy program | instructions | slots | stores | loads | seconds of `allocate` |\n|---|---:|---:|---:|---:|---:|---:|")
    for shape, (name, short) in SHAPES.items():
        runs = [used([program, str(shape), str(nodes), "allocate"], ".")[3].split() for _ in range(3)]
        seconds = min(int(run[2]) for run in runs) / 1e6
        left, code, slots, stores, loads = (int(runs[0][k]) for k in (1, 3, 4, 5, 6))
        print(f"| {name} | {left:,} | {code:,} | {slots:,} | {stores:,} | {loads:,} | {seconds:.2f} |", flush=True)
        figure(f"code.allocate_{short}_{nodes}_nodes_s", seconds, f"<={AIM * nodes / 5e6:g}")


main()
