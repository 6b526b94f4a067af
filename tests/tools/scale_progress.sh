# How far a run is, on a terminal; what a killed run leaves; verify; a batch that takes too long. The program is a stub.
scale=$ROOT/tools/scale
cat >stand_in <<'P'
#!/bin/sh
here=$(dirname "$0")
[ ! -e "$here/slow" ] || { : >"$here/began"; exec sleep 60; }
sed -n '2,$s/\(.*\),\(.*\)/household \1\nIRN = \2/p' "$5"
P
chmod +x stand_in
M_TAX=$PWD/stand_in
export M_TAX
printf 'iliad\na.m\n' >a.list
echo '# rules' >a.m
digests() { sed 's/ [0-9a-f]\{64\}$/ DIGEST/'; }
awk 'BEGIN {print "name,1AJ"; for (k = 0; k < 1000; k++) print "h" k "," k}' >table.csv
"$scale" cut table.csv parts --rows 250
echo "-- a terminal shows parts, households a second and the time that is left; a pipe nothing"
printf 'import pty, sys\npty.spawn(sys.argv[1:])\n' >terminal.py
"$scale" one parts 1 a.list - -
python3 terminal.py "$scale" run parts a.list - - --jobs 1 </dev/null | tr '\r' '\n' | grep scale |
    sed 's/[0-9,]* households a second, [0-9]* s left.*/N households a second, N s left/'
"$scale" drop parts
"$scale" run parts a.list - - 2>&1 >/dev/null; echo "status $?"
echo "-- verify: all is as it was checked; of this source, of another one; a part, an answer and a note that are changed, one that is missing"
"$scale" verify parts >verified; digests <verified
"$scale" verify parts a.list - - | cmp - verified && echo "the same"
"$scale" run parts a.list - - >ran && tail -n +2 verified | cmp - ran && echo "the same at the end of run"
sha256sum <parts/table | cut -c 1-64 | grep -c -f - ran
"$scale" source a.list - - | grep -c -f - ran
printf 'iliad\nb.m\n' >b.list
echo '# others' >b.m
"$scale" verify parts b.list - - 2>&1 | sed 's/: [0-9a-f]*$//'
"$scale" verify parts b.list -; echo "status $?"
cp -r parts kept
for change in 's/h1,1/h1,2/:part-000001.csv' 's/IRN = 260/IRN = 261/:part-000002.out' 's/^./x/:part-000003.of'; do
    sed -i "${change%:*}" "parts/${change#*:}"
    "$scale" verify parts; echo "status $?"
    rm -r parts && cp -r kept parts
done
rm parts/part-000004.out
"$scale" verify parts; echo "status $?"
echo "-- a batch that takes too long is ended"
: >slow
"$scale" one parts 4 a.list - - --timeout 1; echo "status $?"
printf 'a,1\n' | "$scale" pipe name,1AJ a.list - - --timeout 1; echo "status $?"
ls parts | grep -c new
echo "-- what a killed run had begun goes with the next one, and what another writes stays"
rm began
"$scale" one parts 4 a.list - - &
while [ ! -e began ]; do sleep 0.05; done
ls parts | grep -c new
kill -KILL $!
wait $! 2>/dev/null
ls parts | grep -c new
rm began
"$scale" one parts 4 a.list - - &
other=$!
while [ ! -e began ]; do sleep 0.05; done
ls parts | grep -c new
rm slow
"$scale" one parts 4 a.list - -; echo "status $?"
ls parts | grep -c new
kill $other
wait $other
ls parts | grep -c new
"$scale" verify parts | digests
