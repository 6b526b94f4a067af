"""Prints the tables of run.sh: the least time of each operation over the turns, in nanoseconds."""
import sys
from pathlib import Path

OPERATORS = 26
GREAT = 10  # times as many operations are timed near the bound


def least(folder, who):
    """The least times of one program, in the order of its lines: (name, nanoseconds for one)."""
    runs = []
    for path in sorted(Path(folder).glob(who + ".*.[0-9]")):
        runs.append([line.split()[:2] for line in path.read_text().splitlines()])
    return [(lines[0][0], min(int(time) for _, time in lines) / 1e5) for lines in zip(*runs)]


def main():
    folder = sys.argv[1]
    plain = dict(least(folder, "plain"))
    old, new = least(folder, "old"), least(folder, "new")
    data = slice(OPERATORS, 2 * OPERATORS)
    print("| Operator | before, ns | now, ns | of before | as data before, ns | now, ns | plain i128, ns | now of plain |")
    print("|---|---|---|---|---|---|---|---|")
    for (name, was), (_, now), (_, was_data), (_, now_data) in zip(old, new, old[data], new[data]):
        print(f"| {name} | {was:.2f} | {now:.2f} | {now / was:.2f} | {was_data:.2f} | {now_data:.2f} | {plain[name]:.2f} | {now / plain[name]:.1f} |")
    print("\n| Call | before, ns | now, ns | of before | plain, ns | now of plain |\n|---|---|---|---|---|---|")
    for at in (2 * OPERATORS, 2 * OPERATORS + 1):
        name, was, now = old[at][0], old[at][1], new[at][1]
        print(f"| {name}_amount | {was:.2f} | {now:.2f} | {now / was:.2f} | {plain[name]:.2f} | {now / plain[name]:.1f} |")
    worst = max((now / plain[name], name) for name, now in new[:OPERATORS] if name in plain)
    print(f"\nfigure operators.worst_to_plain_{worst[1]} {worst[0]:.3g} -")
    print("\n| Operator near the bound | before, ns | now, ns | of before |\n|---|---|---|---|")
    great = slice(2 * OPERATORS + 3, None)
    for (name, was), (_, now) in zip(old[great], new[great]):
        print(f"| {name} | {was / GREAT:.2f} | {now / GREAT:.2f} | {now / was:.2f} |")


main()
