#!/usr/bin/env python3
"""Computes those parts of a table that have no answer yet on a cluster of Dask: dask_parts.py SCHEDULER FOLDER CODE DIGEST

SCHEDULER is the address of a scheduler, as tcp://10.0.0.1:8786. FOLDER is what `tools/scale cut` made; CODE is the file that `tools/scale source .. --code
CODE` wrote, and DIGEST what it printed. They are on a disk all machines see, as this repository does, or the file that the variable SCALE names in place of
its tools/scale. What a lost worker had begun is computed by another one. After a failure the same words compute what is left.
"""
import os
import subprocess
import sys

from distributed import Client, as_completed

HERE = os.path.dirname(os.path.realpath(__file__))
SCALE = os.path.abspath(os.environ.get("SCALE") or os.path.join(os.path.dirname(os.path.dirname(HERE)), "tools", "scale"))


def computed(words):
    """A worker's message about a part: empty if it has its answer."""
    done = subprocess.run(words, stdin=subprocess.DEVNULL, stdout=subprocess.PIPE, stderr=subprocess.STDOUT, check=False)
    said = done.stdout.decode("utf-8", "replace").strip()
    return said or f"{' '.join(words)}: status {done.returncode}" if done.returncode else ""


def main():
    scheduler, (folder, code), digest = sys.argv[1], map(os.path.abspath, sys.argv[2:4]), sys.argv[4]
    left = subprocess.run([SCALE, "list", folder], stdout=subprocess.PIPE, check=True, text=True).stdout.split()
    failed = 0
    with Client(scheduler) as client:
        words = [[SCALE, "one", folder, part, code, "--of", digest] for part in left]
        for future in as_completed(client.map(computed, words, pure=False)):
            said = str(future.exception() or future.result())
            if said:
                print(said, file=sys.stderr)
                failed += 1
    return 1 if failed else 0


sys.exit(main())
