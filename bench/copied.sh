#!/bin/sh
# Copies crates of this repository, each after those that it uses, into a folder, as a repository of their own to which a bench adds its program:
# copied.sh FOLDER CRATE..
root=$(cd "$(dirname "$0")/.." && pwd) || exit 1
folder=$1
shift
mkdir -p "$folder/crates" && cp "$root/HANDLES" "$folder/" || exit 1
: >>"$folder/crates.txt"
copy() {
    # (a crate of the kit is none of these)
    if [ ! -d "$root/crates/$1" ] || [ -d "$folder/crates/$1" ]; then return; fi
    mkdir "$folder/crates/$1" || exit 1
    for below in $(sed -n "s/^$1: *//p" "$root/crates.txt"); do copy "$below"; done
    for part in src specs proofs; do
        if [ -d "$root/crates/$1/$part" ]; then cp -r "$root/crates/$1/$part" "$folder/crates/$1/" || exit 1; fi
    done
    grep "^$1:" "$root/crates.txt" >>"$folder/crates.txt" || exit 1
}
for crate in "$@"; do copy "$crate"; done
