"""What register code takes, by the program of run.sh: counts, and the times of `allocate`, of a flat run and of a machine's run.

    measure.py PROGRAM ROOT FOLDER
"""
import os
import sys

sys.path.insert(0, os.path.join(os.path.dirname(os.path.abspath(__file__)), ".."))
from measured import figure, used

AIM = 1.1


def main():
    program, root, folder = sys.argv[1:4]
    rows = {
        "impots": [f"{root}/examples/impots/driver.mpp", "-", f"{root}/examples/impots/impots.m"],
        "impot2023": [f"{root}/examples/impot2023/driver.mpp", "-", f"{folder}/impot2023.m"],
        "large_10000": ["-", f"{folder}/10000/requests.txt", f"{folder}/10000/large.m"],
        "large_100000": ["-", f"{folder}/100000/requests.txt", f"{folder}/100000/large.m"],
        "large_10000_of_40_calls": [f"{folder}/calls/driver.mpp", f"{folder}/calls/requests.txt", f"{folder}/calls/large.m"],
    }
    heads = ["nodes", "instructions", "width", "slots", "stores", "loads", "`allocate`, microseconds",
             "flat run, microseconds", "machine, microseconds", "machine to flat"]
    print("| Source | " + " | ".join(heads) + " |\n|---|" + "---:|" * len(heads))
    for name, words in rows.items():
        runs = []
        for _ in range(3):
            _, _, status, text = used([program, *words], ".")
            if status:
                sys.exit(f"{name}: status {status}")
            runs.append([int(word) for word in text.split()])
        counts = runs[0][:6]
        allocation, flat, machine = (min(run[k] for run in runs) for k in (6, 7, 8))
        ratio = machine / max(flat, 1)
        print(f"| {name} | " + " | ".join(f"{n:,}" for n in (*counts, allocation, flat, machine)) + f" | {ratio:.2f} |", flush=True)
        # Of a few hundred nodes a run takes a few microseconds, which the clock can't resolve.
        if counts[0] >= 10_000:
            figure(f"code.{name}_machine_to_flat_run", ratio, f"<={AIM}")


main()
