#!/usr/bin/env python3
"""Writes the rule base and household of `large N` as files, and a driver.

    generate.py N CALLS FOLDER

makes FOLDER/list.txt, large.m, requests.txt and household.csv, and with CALLS above 0 FOLDER/driver.mpp, whose `main` sets an input and calls the rules
that many times.
"""
import os
import sys


def rules(n):
    for k in range(n):
        yield f'R{k} : saisie revenu classe = 0 alias C{k} : "r" ;\nT{k} : calculee : "t" ;\n'
    for k in range(n - 1, 0, -1):
        yield f"regle {k + 1} : application : iliad ;\nT{k} = max(0, R{k} - 1000) + T{k - 1} ;\n"
    yield "regle 1 : application : iliad ;\nT0 = max(0, R0 - 1000) ;\n"
    yield f'E1 : anomalie : "E" : "1" : "0" : "negative" ;\nverif 1 : application : iliad ;\nsi T{n - 1} < 0 alors erreur E1 ;\n'


def driver(n, calls):
    yield "main():\n"
    for call in range(calls):
        yield f"  R0 = {1000 + call}\n  T{n - 1} <- call_m()\n"


def main():
    n, calls, folder = int(sys.argv[1]), int(sys.argv[2]), sys.argv[3]
    os.makedirs(folder, exist_ok=True)
    texts = {"list.txt": ["iliad\nlarge.m\n"], "large.m": rules(n), "requests.txt": [f"T{n - 1}\n"],
             "household.csv": ["code,amount\n", *(f"C{k},{997 * k % 5000}\n" for k in range(n))]}
    if calls:
        texts["driver.mpp"] = driver(n, calls)
    for name, lines in texts.items():
        with open(os.path.join(folder, name), "w") as out:
            out.writelines(lines)


main()
