"""What hashes of names cost: instructions by callgrind of five times 20,000 names kept and found, of SHA's blocks and of SipHash.

    hash_price.py PROGRAM NAMES ASKED

PROGRAM is that of run.sh. The aim is half of what both took when SipHash was given a name byte by byte and the key was SHA-256: 148.2 million.
"""
import os
import re
import subprocess
import sys
import tempfile

sys.path.insert(0, os.path.dirname(os.path.dirname(os.path.abspath(__file__))))
from measured import figure  # noqa: E402

BEFORE = 148.2  # millions: 95.4 of SHA-256's blocks and 52.8 of SipHash
PARTS = {"SHA's blocks": "sha2::block", "SipHash's `write`": "DefaultHasherHasher::write"}
ROW = re.compile(r"^ *([0-9,]+) \([ 0-9.]+%\) +(.*)$")


def counted(program, names, asked):
    """Millions of instructions by function."""
    with tempfile.NamedTemporaryFile() as told:
        words = ["valgrind", "--tool=callgrind", f"--callgrind-out-file={told.name}", program, "keyed", names, asked]
        subprocess.run(words, check=True, stdout=subprocess.DEVNULL, stderr=subprocess.DEVNULL)
        text = subprocess.run(["callgrind_annotate", "--threshold=100", "--auto=no", told.name], check=True, capture_output=True, text=True).stdout
    found = [match for match in map(ROW.match, text.split("\n")) if match]
    return [(match[2], int(match[1].replace(",", "")) / 1e6) for match in found]


def main():
    program, names, asked = sys.argv[1:]
    rows = counted(program, names, asked)
    total = next(millions for name, millions in rows if name.startswith("PROGRAM TOTALS"))
    spent = {part: sum(millions for name, millions in rows if word in name and "update" not in name) for part, word in PARTS.items()}
    if not all(spent.values()):
        sys.exit(f"a hash isn't among the functions: {spent}")
    print("\n| Part | million instructions |\n|---|---:|")
    for part, millions in [*spent.items(), ("the program", total)]:
        print(f"| {part} | {millions:.1f} |")
    print()
    figure("names.hashes_to_before", sum(spent.values()) / BEFORE, "<=0.5")


main()
