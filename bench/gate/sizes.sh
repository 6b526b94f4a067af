#!/bin/sh
# Prints the lines of each crate: code with its contracts and comments, definitions, and proofs, each with blank lines. Tests
# (src/tests.rt) are left out; in the crates of tests the code is tests.
cd "$(dirname "$0")/../.." || exit 1
lines() { cat /dev/null "$@" | wc -l; }
printf '%-16s %6s %6s %6s\n' crate code specs proofs
for crate in $(sed -n 's/^\([a-z][a-z0-9_]*\)[^:#]*:.*/\1/p' crates.txt); do
    (
        cd "crates/$crate" || exit 1
        printf '%-16s %6d %6d %6d\n' "$crate" "$(lines $(find src -name '*.rt' ! -name tests.rt))" \
            "$(lines $(find specs -name '*.antt' 2>/dev/null))" "$(lines $(find proofs -name '*.antt' 2>/dev/null))"
    )
done | awk '{print; code += $2; specs += $3; proofs += $4} END {printf "%-16s %6d %6d %6d\n", "all", code, specs, proofs}'
