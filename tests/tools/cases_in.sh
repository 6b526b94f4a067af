# Tables of cases from answers that a person has looked at, and from two sheets; what is refused.
printf 'name,1AJ\ndupont,2500.5\n"a, ""b""",\nmartin,1\nleroy,-1\n' >t.csv
{
    printf 'household dupont\nnoted 7 A1 informative\nhousehold x\nIRN = 1500.5\nT[1] undefined\nhousehold a, "b"\nIRN = 0\nT[1] over\n'
    printf 'household martin\nIRN = 0\nT[1] = -0.5\nhousehold leroy\nfailed 1 E01 anomalie\nt\n'
} >answers
"$ROOT/tools/cases-in" t.csv answers; echo "status $?"
{ printf '\357\273\277'; cat t.csv; } >marked.csv
"$ROOT/tools/cases-in" --only IRN marked.csv answers | head -n 2
printf 'name,1AJ\nm\303\251ry,1\n\351,1\n' >labels.csv
printf 'household m\303\251ry\nIRN = 1\nhousehold \351\nIRN = 2\n' >labels
"$ROOT/tools/cases-in" labels.csv labels | od -An -c
sed 's/^.*ry$/household durand/' labels >other
"$ROOT/tools/cases-in" labels.csv other
printf 'name,1AJ\na,"1\r"\n' >return.csv
printf 'household a\nIRN = 1\n' >return
"$ROOT/tools/cases-in" return.csv return | od -An -c
"$ROOT/tools/cases-in" --only 'T[1]' t.csv answers; echo "status $?"
"$ROOT/tools/cases-in" --only X t.csv answers; echo "status $?"
head -n 5 answers >few
"$ROOT/tools/cases-in" t.csv few; echo "status $?"
sed 's/household martin/household durand/' answers >other
"$ROOT/tools/cases-in" t.csv other; echo "status $?"
sed 's/IRN = 0/IRN: 0/' answers >strange
"$ROOT/tools/cases-in" t.csv strange; echo "status $?"
printf 'household dupont\nIRN = 1' >cut
"$ROOT/tools/cases-in" t.csv cut; echo "status $?"
# A stop without its text, one with values below it, a note below values, and a household without its last value.
for said in 'failed 1 E01 anomalie' 'over driver line 3\nIRN = 1' 'IRN = 1\nnoted 7 A1 informative\nx' 'IRN = 1'; do
    printf "household dupont\nIRN = 1\nT[1] over\nhousehold a, \"b\"\n$said\n" >strange
    "$ROOT/tools/cases-in" t.csv strange; echo "status $?"
done
: >none
"$ROOT/tools/cases-in" t.csv none; echo "status $?"
printf 'household dupont\nover driver line 3\n' >stops
printf 'name,1AJ\ndupont,1\n' >one.csv
"$ROOT/tools/cases-in" one.csv stops; echo "status $?"
"$ROOT/tools/cases-in" gone.csv answers; echo "status $?"
"$ROOT/tools/cases-in" t.csv 2>/dev/null; echo "status $?"
python3 - <<'P'
import zipfile
def sheet(rows):
    value = '<table:table-cell office:value-type="float" office:value="%s"><text:p>%s</text:p></table:table-cell>'
    text = '<table:table-cell office:value-type="string"><text:p>%s</text:p></table:table-cell>'
    cells = lambda row: "".join(value % (f, f) if isinstance(f, (int, float)) else text % f for f in row)
    return "".join("<table:table-row>%s</table:table-row>" % cells(row) for row in rows)
def book(path, sheets):
    names = ('xmlns:office="urn:oasis:names:tc:opendocument:xmlns:office:1.0" xmlns:table="urn:oasis:names:tc:opendocument:xmlns:table:1.0" '
             'xmlns:text="urn:oasis:names:tc:opendocument:xmlns:text:1.0"')
    tables = "".join('<table:table table:name="%s">%s</table:table>' % (name, sheet(rows)) for name, rows in sheets)
    with zipfile.ZipFile(path, "w") as out:
        out.writestr("mimetype", "application/vnd.oasis.opendocument.spreadsheet")
        out.writestr("content.xml", '<office:document-content %s><office:body><office:spreadsheet>%s'
                     '</office:spreadsheet></office:body></office:document-content>' % (names, tables))
book("b.ods", [("foyers", [["nom", "1AJ"], ["dupont", 2500.5], ["martin", 1]]),
               ("attendu", [["nom", "IRN", "T[1]"], ["dupont", 1500.5, "undefined"], ["martin", "", "stop"]])])
book("c.ods", [("foyers", [["nom", "1AJ"], ["dupont", 2500.5]]), ("attendu", [["nom", "IRN"], ["dupont", "beaucoup"]])])
P
"$ROOT/tools/cases-in" --book b.ods --households foyers --expected attendu; echo "status $?"
"$ROOT/tools/cases-in" --book c.ods --households foyers --expected attendu; echo "status $?"
"$ROOT/tools/cases-in" --book b.ods --households foyers --expected autre; echo "status $?"
"$ROOT/tools/cases-in" --book gone.ods --households foyers --expected autre; echo "status $?"
"$ROOT/tools/cases-in" --book b.ods --households autre --expected attendu; echo "status $?"
