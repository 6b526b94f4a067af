#!/usr/bin/env python3
"""Times the start of ./m_tax in a copy of this repository's sources, where `true` is the program: the shell, the look at all sources, and the program.

    measure.py [RUNS]

Prints milliseconds of the processor, user and system, of one start: the mean of RUNS starts, and the least of ROUNDS such means. Compared are a shell that
starts `true` alone, ./m_tax with the list of sources and out/start as ./build makes them, and ./m_tax without, which looks by `find`. A look's cost is what a
start takes more than that of the shell and the program alone.
"""
import os
import shutil
import subprocess
import sys
import tempfile

sys.path.insert(0, os.path.dirname(os.path.dirname(os.path.abspath(__file__))))
from measured import figure, machine  # noqa: E402

ROOT = os.path.dirname(os.path.dirname(os.path.dirname(os.path.abspath(__file__))))
RUNS, ROUNDS = int(sys.argv[1]) if len(sys.argv) > 1 else 40, 5


def milliseconds(command, folder):
    """The mean milliseconds of the processor of a start."""
    spent = 0.0
    for _ in range(RUNS):
        child = subprocess.Popen(command, cwd=folder, stdout=subprocess.DEVNULL)
        _, status, usage = os.wait4(child.pid, 0)
        child.returncode = os.waitstatus_to_exitcode(status)
        if child.returncode:
            sys.exit(f"{command}: status {child.returncode}")
        spent += usage.ru_utime + usage.ru_stime
    return spent / RUNS * 1000


def script(folder, name, text):
    with open(os.path.join(folder, name), "w", encoding="utf-8") as out:
        out.write(f"#!/bin/sh\n{text}\nexec out/m_tax\n")
    os.chmod(out.name, 0o755)


def copied(folder):
    """The sources, `true` as the programs, and what ./build leaves beside them with a toolchain that proves nothing; returns how many files are looked at."""
    for name in (f"crates/{crate}/{part}" for crate in sorted(os.listdir(f"{ROOT}/crates")) for part in ("src", "specs")):
        if os.path.isdir(f"{ROOT}/{name}"):
            shutil.copytree(f"{ROOT}/{name}", f"{folder}/{name}")
    os.mkdir(f"{folder}/tools")
    for name in ("crates.txt", "m_tax", "build", "tools/start.c"):
        shutil.copy(f"{ROOT}/{name}", f"{folder}/{name}")
    os.symlink("m_tax", f"{folder}/m_survey")
    os.mkdir(f"{folder}/bin")
    true = shutil.which("true")
    script(folder, "bin/rt", f'[ "$1" = run ] || exit 0\nname=${{PWD##*/}}\nmkdir -p out && cp {true} "out/$name" && echo "usage: $name " && exit')
    path = f"{folder}/bin:{os.environ['PATH']}"
    subprocess.run(["./build"], cwd=folder, check=True, stderr=subprocess.DEVNULL, env={**os.environ, "PATH": path})
    with open(f"{folder}/out/sources", encoding="utf-8") as names:
        return len(names.readlines())


def main():
    with tempfile.TemporaryDirectory() as folder:
        count = copied(folder)
        script(folder, "alone", "")
        kinds = [("sh and the program alone", "./alone"), ("m_tax, by out/start", "./m_tax"), ("m_survey, a link", "./m_survey")]
        with tempfile.TemporaryDirectory() as other:
            bare = f"{other}/bare"
            shutil.copytree(folder, bare, symlinks=True)
            os.remove(f"{bare}/out/start")
            kinds.append(("m_tax, by find", f"{bare}/m_tax"))
            rounds = [[milliseconds([path], folder) for _, path in kinds] for _ in range(ROUNDS)]
        print(f"{machine()}, {count} files and folders\n\n| start | ms |\n|---|---:|")
        least = list(map(min, zip(*rounds)))
        for (name, _), spent in zip(kinds, least):
            print(f"| {name} | {spent:.2f} |")
        figure("start.look_ms", least[1] - least[0], "<=2")


main()
