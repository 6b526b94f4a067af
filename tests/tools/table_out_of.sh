# Held to its table, an output that ended between two households is seen, and one of another table, or in another order.
out=$ROOT/tools/table-out
printf '\357\273\277name,1AJ\r\n"le ""b""",1\r\n\r\nd,2\r\ne,3\r\n' >table.csv
printf 'household le "b"\nIRN = 1\nhousehold d\nfailed 1 E01 anomalie\nt\nhousehold e\nIRN undefined\n' >answers
"$out" --of table.csv <answers; echo "status $?"
head -n 5 answers | "$out" --of table.csv; echo "status $?"
head -n 5 answers | "$out" >between; echo "status $?"
{ cat answers; printf 'household f\nIRN = 4\n'; } | "$out" --bare --of table.csv; echo "status $?"
{ tail -n 5 answers; head -n 2 answers; } | "$out" --of table.csv; echo "status $?"
printf 'name,1AJ\nd,"1\n' >open.csv
"$out" --of open.csv <answers; echo "status $?"
"$out" --of nowhere.csv <answers; echo "status $?"
for words in --of '--of table.csv --of table.csv' '--requests a --list b' '--of table.csv more'; do
    "$out" $words 2>/dev/null; echo "status $?"
done
