# needs the program
# A run with its words: the refusal is shown, and the status is the program's.
cd "$ROOT" || exit 1
room=$OLDPWD
sed 's/SEUIL ;/SEUI ;/' examples/first/base.m >"$room/base.m"
printf 'iliad\n%s\n' "$room/base.m" >"$room/rules.list"
tools/explain run "$room/rules.list" - - examples/first/household.csv | sed "s|$room|.|"
printf 'IRN\nIRM\n' >"$room/requests.txt"
tools/explain run examples/first/rules.list - "$room/requests.txt" examples/first/household.csv
echo "status $?"
tools/explain run examples/first/rules.list - - examples/first/household.csv
echo "status $?"
tools/explain run examples/impot2023/rules.list examples/impot2023/driver.mpp - examples/impot2023/households/couple_and_box_t.csv >"$room/stop"
echo "status $?"
LC_ALL=C grep -av '^A:101' "$room/stop"
# A code file that was cut, and one whose household has another code.
tools/explain compile examples/first/rules.list - - >"$room/first.code"
echo "status $?"
sed 's/ sub / sum /' "$room/first.code" >"$room/changed.code"
tools/explain exec "$room/changed.code" examples/first/household.csv
echo "status $?"
printf 'code,amount\n9ZZ,1\n' >"$room/household.csv"
tools/explain exec "$room/first.code" "$room/household.csv"
echo "status $?"
