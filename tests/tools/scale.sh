# Cuts, runs and joins with a stub: it fails if the file `stop` is there, and loses or doubles the household that `lose` or `twice` has.
scale=$ROOT/tools/scale
cat >stand_in <<'END'
#!/bin/sh
here=$(dirname "$0")
cat >/dev/null <"$2"
[ ! -e "$here/stop" ] || { echo "refused household line 2: bad row"; exit 1; }
awk -F, -v lose="$(cat "$here/lose" 2>/dev/null)" -v twice="$(cat "$here/twice" 2>/dev/null)" '
    NR > 1 && $1 !~ /^\r?$/ {
        sub(/\r/, ""); sub(/^"/, "", $1); sub(/"$/, "", $1)
        n = $1 == lose ? 0 : $1 == twice ? 2 : 1
        while (n-- > 0) print "household " $1 "\nIRN = " $2
    }' "$5"
END
chmod +x stand_in
M_TAX=$PWD/stand_in
export M_TAX
printf 'iliad\na.m\n' >a.list
echo '# rules' >a.m
printf 'name,1AJ\r\na,1\r\n"b",2\r\n\r\nc,3\r\nd,4\r\ne,5' >table.csv
"$scale" cut table.csv parts --rows 2
head -n 3 parts/part-000002.csv | tr '\r' '|'
: >stop
"$scale" run parts a.list - - --jobs 1 >/dev/null
echo "status $?"
"$scale" join parts
"$scale" list parts | tr '\n' ' '
rm stop
"$scale" one parts 2 a.list - -
"$scale" list parts | tr '\n' ' '
"$scale" run parts a.list - - >/dev/null
"$scale" join parts | tr '\n' ' '
echo
# A household that is lost or doubled; an answer that is changed later; another source.
for fault in lose twice; do
    rm -r parts && "$scale" cut table.csv parts --rows 2
    echo c >$fault
    "$scale" run parts a.list - - --jobs 1 >/dev/null
    rm $fault
done
"$scale" run parts a.list - - >/dev/null && cp parts/part-000001.out parts/part-000003.out
"$scale" join parts
echo '# others' >>a.m
"$scale" one parts 1 a.list - -
echo "status $?"
"$scale" cut table.csv parts
printf 'name,1AJ\na,1\nb,1\na,2\n' >again.csv
"$scale" cut again.csv again --once
"$scale" cut nowhere.csv fresh
echo "status $?"
printf 'a,1\nb,2\n' | "$scale" pipe name,1AJ a.list - - | tr '\n' ' '
echo
