# needs the program
# Changed inputs in parts: their words, that two parts find what the whole finds, what is kept of a wrong program and dropped later,
# and a run that is ended by a signal.
wrong=$PWD/wrong
printf '#!/bin/sh\necho "no form"\n' >"$wrong"
chmod +x wrong
fuzz() { "$ROOT/tests/fuzz" "$@" 2>&1; }
kept() { ls -d "$ROOT"/out/fuzz/999_* 2>/dev/null | sed 's,.*/,,' | sort -t_ -k2n | tr '\n' ' '; echo "kept"; }
for words in "" "x" "0" "1 x" "1 2 3 4" "1 --from" "1 --from -1" "--from 1" "1 --from 1 --from 1"; do
    fuzz $words >said; echo "$words: status $?: $(cat said)"
done
fuzz 1 1 no/program >said; echo "status $?: $(sed "s,$PWD/,," said)"
counts() { grep '^fuzz: *[0-9]* status' "$@" | awk '{n[$3 " " $4 " " $5 " " $6] += $2} END {for (k in n) print n[k], k}' | sort -k2; }
fuzz 330 999 "$M_TAX" --from 50 >whole; echo "status $?: $(tail -n 1 whole)"
fuzz 30 999 "$M_TAX" --from 50 >first; echo "status $?: $(tail -n 1 first)"
fuzz 300 999 "$M_TAX" --from 80 >second; echo "status $?: $(tail -n 1 second)"
[ -s whole ] && [ "$(counts whole | wc -l)" -gt 5 ] && counts whole >a && counts -h first second >b && cmp a b && echo "the parts are the whole"
fuzz 3 999 "$wrong" --from 7 | tail -n 4
kept
fuzz 1 999 "$M_TAX" --from 8 | tail -n 1
kept
fuzz 4 999 "$M_TAX" --from 6 | tail -n 1
kept
python3 -c '
import os, subprocess, sys, time
with open("ended", "wb") as out:
    child = subprocess.Popen([sys.executable, *sys.argv[1:]], stdout=out, stderr=subprocess.STDOUT)
while not os.path.getsize("ended"):
    time.sleep(0.1)
child.terminate()
print("status", child.wait())' "$ROOT/tests/fuzz" 100000 999 "$wrong" --from 7
after=$(sed -n 's/.* inputs from 7 to \([0-9]*\))$/\1/p' ended)
[ "$(tail -n 1 ended)" = "fuzz: ended by a signal; the rest is: tests/fuzz $((100006 - after)) 999 $wrong --from $((after + 1))" ] && echo "the rest is said"
failed=$(sed -n 's/.* passed, \([0-9]*\) failed .*/\1/p' ended)
grep -q "^fuzz: $((after - 6 - failed)) passed" ended && [ "$failed" -gt 50 ] &&
    [ "$(grep -c 'of seed 999: ' ended)" = "$failed" ] && echo "what was found is said"
rm -rf "$ROOT"/out/fuzz/999_*
