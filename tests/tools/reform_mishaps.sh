# A stub of both programs computes IRN = amount times the rate that the rules have; faults of tables, columns and programs, and signals.
reform=$ROOT/tools/reform
cat >stand_in <<'END2'
#!/bin/sh
here=$(dirname "$0")
[ "$1" != compile ] || { printf 'input 1AJ\noutput IRN\noutput ORD\ncode\n'; exit; }
[ ! -e "$here/slow" ] || { echo $$ >"$here/child"; exec sleep 20; }
rate=$(sed -n 's/^RATE : const = \([0-9]*\).*/\1/p' "$(sed -n 2p "$2")")
line=$(grep -n ',x$' "$5" | cut -d: -f1)
[ -z "$line" ] || { echo "refused household line $line: bad amount"; exit 1; }
compute() {
    echo "name,stop,notes,$(paste -sd, "$1")"
    awk -F, -v rate="$rate" -v names="$(paste -sd, "$1")" 'BEGIN {count = split(names, name, ",")}
        NR > 1 {row = $1 ",,"; for (k = 1; k <= count; k++) row = row "," (name[k] == "IRN" ? $2 * rate : 100 - $2); print row}' "$2"
}
[ -e "$here/behind" ] || { compute "$4" "$5"; exit; }
compute "$4" "$5" >"$here/answer"
. "$here/behind"
cat "$here/answer"
END2
chmod +x stand_in
M_TAX=$PWD/stand_in
M_SURVEY=$PWD/stand_in
export M_TAX M_SURVEY
printf 'iliad\na.m\n' >before.list
printf 'iliad\nb.m\n' >after.list
printf 'REV : saisie revenu classe = 0 alias 1AJ : "" ;\nRATE : const = 2 ;\n' >a.m
printf 'REV : saisie revenu classe = 0 alias 1AJ : "" ;\nRATE : const = 3 ;\n' >b.m
echo "-- columns whose names aren't ASCII, fields in quotes; by a column with an empty field, which stands first; by a request"
printf 'name,1AJ,poids,\303\242ge\n"a ""x"",\303\251",10,1,40\nb,20,1,30\nc,30,2,\n' >t.csv
"$reform" before.list after.list - - t.csv --of IRN --weight poids --by âge --into one && cat one/households.csv && cut -d, -f1-4 one/summary.csv
printf 'name,1AJ\na,10\nb,20\n' >short.csv
"$reform" before.list after.list - - short.csv --of IRN --by ORD --into two && cut -d, -f1-4 two/summary.csv | grep -v ',0,0,0'
printf '\357\273\277"name","1AJ"\r\n"a",10\r\n' >marked.csv
"$reform" before.list after.list - - marked.csv --of IRN --into marked && cat marked/households.csv
"$reform" before.list after.list - - marked.csv --of IRN --into full >/dev/full
echo "status $?"
printf 'name,1AJ\na,"10\r"\n' >return.csv
echo 'cp "$5" "$here/seen"' >behind
"$reform" before.list after.list - - return.csv --of IRN --into return >/dev/null
rm behind
od -An -c seen
printf 'name,1AJ,poids\na,0.00125,0.0002\nb,-0.00125,0.0002\n' >halves.csv
"$reform" before.list after.list - - halves.csv --of IRN --weight poids --by IRN --into halves >/dev/null && \
    grep 'tenth [16]' halves/summary.csv | cut -d, -f 1-15
echo "-- refused: a name that no column and no request has; weights that are none; a head that isn't closed"
"$reform" before.list after.list - - short.csv --of IRN --by 0RD --into other
echo "status $?"
for weight in -1 '' '\262'; do
    printf "name,1AJ,poids\n\303\251,10,$weight\n" >odd.csv
    "$reform" before.list after.list - - odd.csv --of IRN --weight poids --into other
done
printf 'name,1AJ,poids\na,10,%05000d\n' 7 | tr 0 9 >odd.csv
"$reform" before.list after.list - - odd.csv --of IRN --weight poids --into other
printf 'name,1AJ,poids\na,10,10000000000000.000001\n' >odd.csv
"$reform" before.list after.list - - odd.csv --of IRN --weight poids --into other
"$reform" before.list after.list - - short.csv --of IRN --by '' --into other
"$reform" before.list after.list - - short.csv --of IRN --step '' --into other
echo "status $?"
printf 'name,1AJ\n"a\rb",1\n' >odd.csv
"$reform" before.list after.list - - odd.csv --of IRN --into other
printf 'name,"1AJ\na,1\n' >odd.csv
"$reform" before.list after.list - - odd.csv --of IRN --into other
echo "status $?"
echo "-- the line of a fault is the table's, also behind the first part"
awk 'BEGIN {print "name,1AJ"; for (k = 2; k < 20010; k++) print "a" k "," (k == 20005 ? "x" : 1)}' >long.csv
"$reform" before.list after.list - - long.csv --of IRN --into other
echo "-- a program that loses a line or a household, answers nothing, isn't there, or can't be started"
for said in 'sed -i 1d "$here/answer"' 'sed -i 3d "$here/answer"' 'sed -i s/~/b/ "$here/answer"' ': >"$here/answer"' 'kill -9 $$' \
    'head -n 2 "$here/answer"; kill -9 $$'; do
    echo "$said" >behind
    "$reform" before.list after.list - - short.csv --of IRN --into other
    echo "status $?"
done
rm behind
M_SURVEY=./nowhere "$reform" before.list after.list - - short.csv --of IRN --into other 2>&1 | sed "s|$PWD|.|"
awk 'BEGIN {print "name,1AJ"; for (k = 0; k < 2000; k++) print "a" k ",1"}' >some.csv
echo "-- a table that changes meanwhile, one through a pipe, a folder without room, one that isn't there"
"$reform" before.list after.list - - long.csv --of IRN --into nowhere/other 2>&1 | sed "s|$PWD|.|"
echo 'echo c,30 >>"$here/short.csv"' >behind
"$reform" before.list after.list - - short.csv --of IRN --into other
rm behind
sed 4q some.csv | "$reform" before.list after.list - - /dev/stdin --of IRN --into piped
(ulimit -f 40; "$reform" before.list after.list - - some.csv --of IRN --into other)
echo "status $?"
echo "-- ended by a signal: nothing stays, and no batch goes on"
: >slow
mkdir room
TMPDIR=$PWD/room "$reform" before.list after.list - - short.csv --of IRN --into other &
while [ ! -s child ]; do sleep 0.05; done
kill $!
wait $!
echo "status $?"
for k in 1 2 3 4 5 6 7 8 9 10; do
    grep -qs '^State:.[^Z]' "/proc/$(cat child)/status" || break
    sleep 0.5
done
[ "$k" -lt 10 ] || echo "still there"
ls -A room
rm slow
"$reform" before.list after.list - - short.csv --of IRN --into three >&-
echo "status $?"
umask 077
"$reform" before.list after.list - - short.csv --of IRN --into four && ls -ld four | cut -c 1-10
ls -Ad .[a-z]* other* th* 2>/dev/null
