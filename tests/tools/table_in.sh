# Tables as French spreadsheets write them: each oddity, and what is refused with its place.
in=$ROOT/tools/table-in
# Excel, UTF-8: a mark, carriage returns, decimal commas, blanks of three kinds, a euro sign, empty columns and lines, a label with ; and a line end.
{
    printf '\357\273\277Foyer;1AJ;1BJ;;\r\n"Dupont;\nfils";1 234,50;;;\r\n'
    printf 'Martin;1\302\240234\302\240567,8;-12\342\200\257345,6 \342\202\254;;\r\n;;;;\r\n"Le ""Bihan""";0;"1,5";;\r\n'
} >excel.csv
"$in" excel.csv
# Latin-1, with hard blanks.
printf 'Foyer;1AJ\r\nDupr\351;1\240000,25\r\n' | "$in" -
# LibreOffice: commas between fields, decimal commas in quotes; points; tabs and UTF-16; a line that names the sign.
printf 'name,1AJ,1BJ\nd,"1,5",2\n' | "$in" -
printf 'name,1AJ\nd,1.5\n' | "$in" -
printf '\377\376n\0\t\0001\0A\0J\0\r\0\n\0\351\0\t\0001\0,\0005\0\r\0\n\0' | "$in" -
printf 'sep=;\r\nn;1AJ\r\nd;2\r\n' | "$in" -
# Households.
printf '\357\273\277Code;Montant\r\n1AJ;1 000,5\r\n1BJ;\r\n\r\n1CJ;-3\r\n' | "$in" -
printf 'Code;1AJ\r\n75;3\r\n' | "$in" --table --labels Code -
printf 'case;montant;\r\n1AJ;3;\r\n' | "$in" --household -
printf '1AJ;5\n1BJ;6\n' | "$in" --household -
echo "status $?"
printf 'REV;5\n1BJ;6\n' | "$in" --household -
printf 'CODE;2023\n1AJ;5\n' | "$in" -
printf 'case;2023\n1AJ;5\n' | "$in" --household -
# Only the codes of a list.
printf 'Foyer;1AJ;Commune\r\nd;5;Lyon\r\n' >more.csv
(cd "$ROOT" && tools/table-in --list examples/first/rules.list --leave Commune "$OLDPWD/more.csv")
(cd "$ROOT" && tools/table-in --list examples/first/rules.list - <"$OLDPWD/more.csv")
echo "status $?"
# Refused, with nothing printed.
for cell in '12 34' '1,5E+05' '1.234,5' '#VALEUR!' '1 2345' '12 %' ',5'; do
    printf 'n;1AJ\nd;1\ne;%s\n' "$cell" | "$in" -
done
printf 'n;1AJ;1BJ\nd;1,5;\ne;;2.5\n' | "$in" -
printf 'n;1AJ;1AJ\nd;1;2\n' | "$in" -
printf 'n;1AJ;\nd;1;2\n' | "$in" -
printf 'n;1AJ\n;1\n' | "$in" -
printf 'code;montant\n1AJ;1;5\n' | "$in" -
: | "$in" -
echo "status $?"
"$in" nowhere.csv
echo "status $?"
"$in"
echo "status $?"
# Nothing is dropped in silence: heads that are no codes, no labels, what may mean two amounts, nothing below the heads, quotes and ends.
for text in 'Foyer;1aj\nd;5\n' 'Foyer;salaire\nd;5\n' '1AJ;1BJ\n5;6\n' 'n;1AJ\nd;45.000\n' 'n\t1AJ\nd\t45.000\n' 'name,1AJ\nd,"1,234"\n' \
    'Foyer;1AJ\n' 'Code;Montant\n' 'n|1AJ\nd|5\n' 'n;1AJ\n"d;5\ne;6\n' 'n;1AJ\n"d"e;5\n' 'n;1AJ;1BJ\nd;5;6\ne;12' 'Code;Montant\n1aj;5\n' \
    'Code;Montant\n;5\n' 'Code;Montant\n1AJ;5\n1AJ;6\n' 'n;1AJ\nd;\0005\n' '\377\376N\000\t'; do
    printf "$text" | "$in" -
    echo "status $?"
done
(
    cd "$ROOT" && printf 'Foyer;1aj\nd;5\n' | tools/table-in --list examples/first/rules.list -
    printf '1aj;n\n5;6\n' | tools/table-in --list examples/first/rules.list -
)
printf 'name,1AJ\nd,45.000\n' | "$in" -
printf 'Foyer;1AJ\rd, e, f;5\rg;6\r' | "$in" -
"$in" --leave 2>/dev/null
echo "status $?"
"$in" --table --household more.csv 2>/dev/null
echo "status $?"
awk 'BEGIN {print "n;1AJ"; for (k = 0; k < 9999; k++) print "d;1"}' | "$in" - | head -n 1
# A label with a byte that Windows' Latin-1 has not, which stays; closed inputs and outputs.
printf 'n;1AJ\nd\351\201;5\n' | "$in" - | od -An -c | tail -n 1
"$in" - <&-
echo "status $?"
printf 'n;1AJ\nd;5\n' | "$in" - >&-
echo "status $?"
# Few bytes that would be many fields: a line of separators, many heads above short lines, and an input that is too long.
awk 'BEGIN {print "n;1AJ"; printf "d;1"; for (k = 0; k < 40000; k++) printf ";"; print ""; for (k = 0; k < 20000; k++) print "e;2"}' | "$in" - | tail -n 1
awk 'BEGIN {printf "n"; for (k = 0; k < 20000; k++) printf ";A%d", k; print ""; for (k = 0; k < 20000; k++) print "d;1"}' | "$in" -
head -c 268435457 /dev/zero | "$in" -
echo "status $?"
