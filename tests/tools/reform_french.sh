# reform and marginal in French: the lines, the page, the picture; the csv files are those of English, byte for byte.
# needs both programs
cp -r "$ROOT/examples/first" rules
printf 'iliad\nrules/base.m\n' >before.list
sed 's/SEUIL : const = 1000/SEUIL : const = 1200/' rules/base.m >rules/other.m
printf 'iliad\nrules/other.m\n' >after.list
printf 'name,1AJ,weight,region\na,1000.5,1,x\nb,2000,2,x\nc,90000,3,y\n,\n' | head -n 4 >table.csv
reform() { "$ROOT/tools/reform" before.list after.list - - table.csv --of IRN --weight weight --by IRN --groups region --step 1AJ=100 "$@"; }
reform --lang fr --into fr; echo "statut $?"
reform --into en >/dev/null
for name in summary.csv households.csv; do cmp fr/$name en/$name && echo "$name: the same"; done
grep -o '<html lang=..' fr/report.html
sed '/<svg/,/<\/svg>/d' fr/report.html | tr '\n' ' ' | sed -e 's/<style>.*<\/style>//' -e 's/[0-9a-f]\{64\}/DIGEST/g' -e 's/<[^>]*>/|/g' -e 's/|[| ]*/|/g'; echo
LC_MESSAGES=fr_FR.UTF-8 "$ROOT/tools/reform" before.list after.list - - table.csv --of IRN --into fr; echo "statut $?"
LC_MESSAGES=fr_FR.UTF-8 "$ROOT/tools/reform" before.list after.list - - table.csv --of IRN --more-is-gain --weight weight --groups region \
    --into more >/dev/null && grep -o "<h2>Qui.*" more/report.html
echo name,1AJ >none.csv
"$ROOT/tools/reform" --lang fr before.list after.list - - none.csv --of IRN --into none; echo "statut $?"
echo "-- marginal"
printf 'code,amount\n1AJ,5\n' >h.csv
marginal() { "$ROOT/tools/marginal" before.list - "$@"; }
marginal h.csv 1AJ 0 4000 1000 --of IRN --rules after.list - --lang fr >fr.svg; echo "statut $?"
grep -o '>[^<]*</text>' fr.svg
marginal h.csv 1AJ 0 4000 1000 --of IRN --rules after.list - --lang fr --csv >fr.csv
marginal h.csv 1AJ 0 4000 1000 --of IRN --rules after.list - --csv | cmp - fr.csv && echo "csv: the same"
marginal h.csv 1AJ 0 x 1000 --of IRN --lang fr; echo "statut $?"
marginal h.csv 1AJ 5 5 1000 --of IRN --lang fr; echo "statut $?"
marginal h.csv 9ZZ 0 5 1 --of IRN --lang fr; echo "statut $?"
marginal table.csv 1AJ 0 5 1 --of IRN --lang fr; echo "statut $?"
