#!/bin/sh
# Writes a household or a table of ROWS rows: `sh generate.sh household ROWS FILE`, or `table`. The codes
# are C0 to C99999; a table has 8 columns, of which each tenth cell is empty.
set -eu
export LC_ALL=C
case "$1" in
household)
    awk -v rows="$2" 'BEGIN {
        print "code,amount"
        for (k = 0; k < rows; k++)
            printf "C%d,%d.%02d\n", (k * 7919) % rows, (k * 104729) % 1000000, k % 100
    }' >"$3"
    ;;
table)
    awk -v rows="$2" 'BEGIN {
        printf "name"
        for (c = 0; c < 8; c++) printf ",C%d", c * 12345
        print ""
        for (k = 0; k < rows; k++) {
            printf "household %d", k
            for (c = 0; c < 8; c++)
                if ((k + c) % 10 == 0) printf ","
                else printf ",%d.%02d", (k * 104729 + c * 7919) % 1000000, (k + c) % 100
            print ""
        }
    }' >"$3"
    ;;
esac
