# Parts that the programs compute as csv, by rules and by a code file, joined: byte for byte what m_survey table prints of the whole table.
# needs both programs
scale=$ROOT/tools/scale
cd "$ROOT/examples/impots" || exit 1
room=$OLDPWD
cat >"$room/make.py" <<'P'
print("name,A01,A02,B01,7UD,0NB")
for k in range(600):
    label = f'"Anne, ""{k}"""' if k % 50 == 3 else f"Zoé {k}" if k % 50 == 4 else f"h{k}"
    print(f"{label},{k * 97 % 90000},{k % 7}.5,{'' if k % 3 else k * 13},{k % 400 * 10},{0 if k % 100 == 9 else 1 + k % 4 / 2}")
P
PYTHONUTF8=1 python3 "$room/make.py" >"$room/table.csv"
cd "$ROOT" || exit 1
set -- examples/impots/rules.list examples/impots/driver.mpp -
"$M_SURVEY" table "$@" "$room/table.csv" >"$room/whole.csv"
"$scale" cut "$room/table.csv" "$room/parts" --rows 100 --once
"$scale" run "$room/parts" "$@" --csv | head -n 1
"$scale" join "$room/parts" --csv | cmp - "$room/whole.csv" && echo "the same"
grep -c ',failed ' "$room/whole.csv"
"$scale" verify "$room/parts" "$@" | head -n 2
echo "-- some columns: those that Python's csv finds"
"$scale" join "$room/parts" --csv --only GAIN,IRNET >"$room/some.csv"
python3 - "$room" <<'P'
import csv, sys
whole, some = (list(csv.reader(open(f"{sys.argv[1]}/{name}.csv", encoding="utf-8", newline=""))) for name in ("whole", "some"))
at = [whole[0].index(name) for name in ("name", "stop", "notes", "GAIN", "IRNET")]
print(len(some), some == [[row[k] for k in at] for row in whole])
P
echo "-- by the code file, in a folder without rules"
"$scale" drop "$room/parts" >/dev/null
digest=$("$scale" source "$@" --code "$room/rules.mcode")
cd "$room" || exit 1
"$scale" run parts rules.mcode --of "$digest" | head -n 1
"$scale" join parts --csv | cmp - whole.csv && echo "the same"
sed -n '2,6p' whole.csv >five.csv
sed -n '2,6p' table.csv | "$scale" pipe "$(head -n 1 table.csv)" rules.mcode --of "$digest" | cmp - five.csv && echo "the same"
