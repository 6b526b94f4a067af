#!/usr/bin/env python3
"""Computes those parts of a table that have no answer yet on Spark: spark-submit spark_parts.py FOLDER CODE DIGEST

FOLDER is what `tools/scale cut` made; CODE is the file that `tools/scale source .. --code CODE` wrote, and DIGEST what it printed. They are on a disk that all
machines see, as this repository does, or the file that the variable SCALE names in place of its tools/scale. What a lost machine had begun is computed by
another one. After a failure the same words compute what is left.

Spark has the numbers of the parts and no household: rows that go through it would lose bytes that aren't UTF-8, and a filter would have to distinguish the
header from a household. A command of `pipe` has a folder of its own, and no environment but what is given.
"""
import os
import shlex
import subprocess
import sys

from pyspark import SparkContext

HERE = os.path.dirname(os.path.realpath(__file__))
SCALE = os.path.abspath(os.environ.get("SCALE") or os.path.join(os.path.dirname(os.path.dirname(HERE)), "tools", "scale"))


def main():
    (folder, code), digest = map(os.path.abspath, sys.argv[1:3]), sys.argv[3]
    left = subprocess.run([SCALE, "list", folder], stdout=subprocess.PIPE, check=True, text=True).stdout.split()
    if left:
        command = shlex.join(["xargs", "-I", "{}", SCALE, "one", folder, "{}", code, "--of", digest])
        SparkContext.getOrCreate().parallelize(left, len(left)).pipe(command, env={"PATH": os.environ["PATH"]}, checkCode=True).collect()


main()
