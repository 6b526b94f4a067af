#!/usr/bin/env python3
"""Proves, builds and links the program of the crate in this folder over libraries that were proved before, which takes seconds.

    RLIBS=FOLDER over_rlibs.py      in REPOSITORY/crates/NAME; the program is out/NAME

FOLDER has NAME/out/rlib/NAME.rlib for each crate below, as `rt ci` and `rt check` leave them in the folder `crates` of a clone.
"""
import os
import shutil
import subprocess
import sys

KIT = os.path.dirname(os.path.dirname(os.path.realpath(shutil.which("rt") or "/opt/rattle/bin/rt")))


def uses_of(path):
    """What each crate uses, by crates.txt."""
    with open(path, encoding="utf-8") as lines:
        rows = [line.split("#")[0].partition(":") for line in lines]
    return {name.split()[0]: uses.split() for name, colon, uses in rows if colon}


def rlib_of(name, folder, own):
    """The path of a library: that of the kit, if it is none of the repository's."""
    place = os.path.join(folder, name, "out/rlib", f"{name}.rlib") if own else f"{KIT}/rlibs/{name}.rlib"
    if not os.path.exists(os.path.join(place, "format")):
        sys.exit(f"over_rlibs: {place} isn't there")
    return place


def all_below(name, uses):
    below, left = [], [name]
    while left:
        for other in uses.get(left.pop(), []):
            if other not in below:
                below.append(other)
                left.append(other)
    return below


def main():
    name, folder = os.path.basename(os.getcwd()), os.path.abspath(os.environ["RLIBS"])
    uses = uses_of("../../crates.txt")
    words = ["--crate-name", name, "src/main.rt", "--extern", f"std={KIT}/rlibs/std.rlib"]
    for other in uses[name]:
        words += ["--extern", f"{other}={rlib_of(other, folder, other in uses)}"]
    words += ["-L", f"dependency={KIT}/rlibs"]
    for other in all_below(name, uses):
        if other in uses:
            words += ["-L", f"dependency={os.path.dirname(rlib_of(other, folder, True))}"]
    words += ["--antt-project", f"{KIT}/rattle/logic/antt-project.json", "--logic-built", f"{KIT}/logic_built", "--links", f"{name}=", "--jobs", "1"]
    os.makedirs("out", exist_ok=True)
    target = ["--toolchain", f"{KIT}/toolchain"]
    subprocess.run([f"{KIT}/bin/rattle", "build", *words, *target, "--backend", "llvm", "-o", f"out/{name}.o"], check=True)
    link = ["--target", "x86_64-unknown-linux-gnu", *target, "-o", f"out/{name}", f"out/{name}.o", f"{KIT}/c/libos_c.a", f"{KIT}/c/liblibc_c.a"]
    subprocess.run([f"{KIT}/bin/rattle-link", *link], check=True)


main()
