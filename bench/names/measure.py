"""Times two programs on the folders random and colliding, by turns, and prints a table."""
import os
import subprocess
import sys

RUNS = 5
WORDS = ["run", "list.txt", "-", "-", "household.csv"]


def processor(program, folder):
    child = subprocess.Popen([program, *WORDS], cwd=folder, stdout=subprocess.DEVNULL)
    _, status, used = os.wait4(child.pid, 0)
    child.returncode = os.waitstatus_to_exitcode(status)
    if child.returncode != 0:
        sys.exit(f"{program} ended with status {child.returncode} in {folder}")
    return used.ru_utime + used.ru_stime


def main():
    program, older, folder = sys.argv[1:]
    print("| Names | before, s | now, s |\n|---|---|---|")
    for kind in ("random", "colliding"):
        place = os.path.join(folder, kind)
        times = [(processor(older, place), processor(program, place)) for _ in range(RUNS)]
        print(f"| {kind} | {min(t[0] for t in times):.3f} | {min(t[1] for t in times):.3f} |")


main()
