#!/bin/sh
# The budget of the gate. An edit that must be refused is a check of its crate: at most 4 in a crate, 24 in all. Prints a line for each
# crate that is over, and a count; the status is 0 where none is.
#
# tests/budget.sh FIGURES also looks at the figures that bench/gate/measure.py wrote: the check of a library takes at most
# 20 s of CPU, for those that it uses, and 100 s for 1,000 lines of its code, definitions and proofs, and its tests no
# more than the crates that they test. What a program takes is the linking of all of them and its two builds.
cd "$(dirname "$0")/.." || exit 1
figures=${1-/dev/null}
for crate in $(sed -n 's/^\([a-z][a-z0-9_]*\)[^:#]*:.*/\1/p' crates.txt); do
    edits=$(find "crates/$crate/must-fail" -name '*.edit' 2>/dev/null | wc -l)
    lines=$(find "crates/$crate" \( -name '*.rt' ! -name tests.rt -o -name '*.antt' \) -exec cat {} + | wc -l)
    kind=library
    [ ! -f "crates/$crate/src/main.rt" ] || kind=program
    echo "$crate $edits $lines $kind"
done | awk -v figures="$figures" '
    # whether the crates that this one uses, directly or not, are marked in below
    function stands_on(crate,    k, n, names) {
        n = split(uses[crate], names, " ")
        for (k = 1; k <= n; k++) if (names[k] in uses && !(names[k] in below)) { below[names[k]]; stands_on(names[k]) }
    }
    function over(what) { print "budget: " what; failed++ }
    BEGIN {
        while ((getline line < "crates.txt") > 0)
            if (line ~ /^[a-z][a-z0-9_]*[^:#]*:/) { name = line; sub(/[ :].*/, "", name); sub(/^[^:]*:/, "", line); uses[name] = line }
        while ((getline line < figures) > 0) { split(line, f, " "); check[f[1]] = f[2]; tests[f[1]] = f[3] }
    }
    {
        split("", below); stands_on($1)
        if ($2 > 4) over($1 " has " $2 " must-fail edits, and may have 4")
        all += $2
        may = 20 + $3 * 0.1
        if ($4 == "library" && $1 in check && check[$1] > may) over($1 " takes " check[$1] " s of CPU for its check, and may take " may)
        tested = 0
        for (name in below) tested += check[name]
        if ($1 in tests && tests[$1] > tested + check[$1]) over($1 " takes " tests[$1] " s of CPU for its tests, more than what they test: " tested)
        crates++
    }
    END {
        if (all > 24) over("there are " all " must-fail edits, and may be 24")
        print "budget: " crates " crates, " all " must-fail edits, " failed + 0 " over"
        exit failed > 0
    }'
