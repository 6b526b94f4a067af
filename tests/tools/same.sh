# A stub: IRN is the factor that the first rule file has where A1 is above 0, else 0. It takes what the program takes: short tables, amounts that are some.
same=$ROOT/tools/same
cat >stand_in <<'END'
#!/bin/sh
# compile LIST DRIVER REQUESTS, or batch LIST DRIVER REQUESTS TABLE
here=$(dirname "$0")
rules=$(sed -n 2p "$2")
factor=$(sed -n 's/^# factor //p' "$rules")
if [ "$1" = compile ]; then
    [ "$factor" != none ] || { echo "refused $rules line 1 byte 0: syntax"; exit 1; }
    printf 'mcode 1\nslots 0\n'
    sed -n 's/^# inputs //p' "$rules" | awk '{for (k = 1; k <= $1; k++) print "input A" k}'
    printf 'output IRN\ncode\nlit 0 9999999999999000000\nlit 0 -9999999999999000000\n# %s\nend\n' "$factor"
    [ ! -e "$here/behind" ] || . "$here/behind"
    exit 0
fi
[ "$(wc -c <"$5")" -le 16777216 ] || { echo "refused file too long $5"; exit 1; }
[ ! -e "$here/killed" ] || { echo "household r0"; kill -9 $$; }
awk -F, -v factor="$factor" 'NR == 1 {for (k = 2; k <= NF; k++) if ($k == "A1") at = k} NR > 1 {
    for (k = 2; k <= NF; k++) if ($k + 0 > 10000000000000 || $k + 0 < -10000000000000) { print "refused household line " NR ": bad amount"; exit 1 }
    print "household " $1 "\nIRN = " (at ? $at + 0 > 0 : 0) * factor
}' "$5"
END
chmod +x stand_in
M_TAX=$PWD/stand_in
export M_TAX
for name in a b none; do printf 'iliad\n%s.m\n' $name >$name.list; done
rules() { printf '# factor %s\n# inputs %s\n' "$2" "$3" >$1.m; }
echo "-- the same; other inputs; a fault of rules, with its own name; no file, no list; wrong words"
rules a 1 1 && rules b 1 1 && rules none none 1
"$same" a.list - b.list - -; echo "status $?"
rules b 1 2
"$same" a.list - b.list - -; echo "status $?"
"$same" a.list - none.list - -; echo "status $?"
"$same" a.list gone b.list - -; echo "status $?"
"$same" a.m - b.list - -; echo "status $?"
"$same" a.list - b.list -; echo "status $?"
echo "-- numbers at the ends of the range, each tried with its neighbours that are amounts"
rules a 1 1 && rules b 1.0 1
"$same" a.list - b.list - - --tries 2000; echo "status $?"
echo "-- rules that change meanwhile have no part in it"
rules a 1 1 && rules b 1.0 1
echo 'echo "# factor 7" >"$here/b.m"' >behind
"$same" a.list - b.list - - --tries 10; echo "status $?"
rm behind
echo "-- a household of the one code that matters, of thousands; by tables that are cut"
rules a 1 4000 && rules b 2 4000
"$same" a.list - b.list - - --tries 20 >told; echo "status $?"
sed 's/^A1,[0-9.]*$/A1 and an amount/' told
rules a 1 5 && rules b 2 5
cp -r "$ROOT/python" python && sed -i 's/^BYTES = .*/BYTES = 100/' python/vodmejka/commands/same.py
python3 -B -c "import sys; sys.path.insert(0, 'python'); from vodmejka.commands import run; run('same')" a.list - b.list - - --tries 100 >cut.told
echo "status $?"
"$same" a.list - b.list - - --tries 100 | cmp - cut.told
echo "-- a program that is killed in the middle of an answer"
rules a 1 1 && rules b 2 1
: >killed
"$same" a.list - b.list - -; echo "status $?"
