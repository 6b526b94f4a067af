#!/bin/sh
# Builds the program of the crate in this folder, out/NAME: by `rt run`, which proves all crates below it, or with RLIBS=FOLDER over libraries
# that were proved before (over_rlibs.py). With KEPT=FOLDER a program that was built before is taken from there, and one that is built is kept
# there; with ONLY_BUILD besides, the bench ends after that, with status 1.
name=$(basename "$PWD")
if [ -n "${KEPT-}" ] && [ -x "$KEPT/$name" ]; then
    mkdir -p out && cp "$KEPT/$name" out/ || exit 1
elif [ -n "${RLIBS-}" ]; then
    python3 "$(dirname "$0")/over_rlibs.py" || exit 1
else
    rt run || exit 1
fi
if [ -n "${KEPT-}" ]; then
    mkdir -p "$KEPT" && cp "out/$name" "$KEPT/" || exit 1
fi
if [ -n "${ONLY_BUILD-}" ]; then
    echo "built and kept"
    exit 1
fi
