# What would alter a household without a word: thousands commas, amounts as labels, cells that nothing computed, letters and labels that come out otherwise,
# and what a spreadsheet hides.
in=$ROOT/tools/table-in
# A comma may separate thousands or decimals, in a table by tabs and in a text of a sheet; options decide which.
printf 'n\t1AJ\nd\t1,234\n' >tabs.csv
"$in" tabs.csv; echo "status $?"
for words in --french '--decimal ,' '--decimal .' '--thousands ,' '--thousands .'; do
    "$in" $words tabs.csv
done
printf 'n\t1AJ\t1BJ\nd\t1,234,567\t-1,234.5\n' | "$in" --thousands , -
printf 'n\t1AJ\nd\t12,34\n' | "$in" --thousands , -
printf 'n\t1AJ\nd\t-45.678\n' | "$in" -
printf 'n;1AJ\nd;45.678\n' | "$in" -
printf 'n;1AJ\nd;1,234\n' | "$in" -
printf 'n\t1AJ\t1BJ\nd\t0,234\t1 234,567\n' | "$in" -
for words in '--decimal' '--decimal ;' '--thousands 3' '--french --thousands ,'; do
    "$in" $words tabs.csv 2>/dev/null
    echo "status $?"
done
# A first column below a name in capital letters, or with amounts alone, is no column of labels without a word.
for text in 'REVENU;AUTRE\n5000;6000\n' 'ANREV;1AJ\n2023;5\n' 'TSHALLOV;1AJ\n5000;6\n' 'revenu;1AJ\n5 000,5;6\n1,234.5;7\n'; do
    printf "$text" | "$in" -
done
printf 'REVENU;AUTRE\nd;6000\n' | "$in" --labels REVENU -
printf 'foyer;1AJ\n75;6000\n' | "$in" --labels foyer -
printf 'name;1AJ\n75;6000\n' | "$in" -
printf 'foyer;1AJ\n75;6000\n' | "$in" --labels nom -
printf 'iliad\nbase.m\n' >base.list
printf 'Rev : saisie alias 1AJ : "s" ;\nREV : saisie alias 1AJ : "s" ;\n' | tail -n 1 >base.m
printf 'REV;1AJ\nd;6000\n' | "$in" --list base.list -
printf 'revenu;1AJ\n5000;6000\n' | "$in" --list base.list -
# Letters: one byte of Latin-1 among UTF-8, a mark of UTF-8 above what is none, the end of a file of DOS, and a bell in a label.
printf 'Foyer;1AJ\nDupr\303\251;1\nB\351b\303\251;2\n' | "$in" -
printf '\357\273\277Foyer;1AJ\nDupr\351;1\n' | "$in" -
printf 'Foyer;1AJ\nd;1\n\032' | "$in" -
printf 'Foyer;1AJ\nd\007;1\n' | "$in" -
# Sheets.
cat >make.py <<'P'
"""Writes small spreadsheets: cells that nothing computed, labels that are numbers, escapes, what is hidden."""
import zipfile

X = 'xmlns="http://schemas.openxmlformats.org/spreadsheetml/2006/main" xmlns:r="http://schemas.openxmlformats.org/officeDocument/2006/relationships"'
O = ('xmlns:office="urn:oasis:names:tc:opendocument:xmlns:office:1.0" xmlns:table="urn:oasis:names:tc:opendocument:xmlns:table:1.0" '
     'xmlns:text="urn:oasis:names:tc:opendocument:xmlns:text:1.0" xmlns:style="urn:oasis:names:tc:opendocument:xmlns:style:1.0" '
     'xmlns:calcext="urn:org:documentfoundation:names:experimental:calc:xmlns:calcext:1.0"')
HEADS = '<row r="1"><c r="A1" t="str"><v>Foyer</v></c><c r="B1" t="str"><v>1AJ</v></c></row>'


def xlsx(name, rows, before="", state="", calc=""):
    with zipfile.ZipFile(name, "w") as book:
        book.writestr("xl/workbook.xml", f'<workbook {X}><sheets><sheet name="Feuil1" sheetId="1" r:id="r1"{state}/></sheets>{calc}</workbook>')
        book.writestr("xl/_rels/workbook.xml.rels", '<Relationships xmlns="http://schemas.openxmlformats.org/package/2006/relationships">'
                      '<Relationship Id="r1" Type="t" Target="worksheets/s1.xml"/></Relationships>')
        forms = "".join(f'<numFmt numFmtId="{170 + k}" formatCode="{form}"/>' for k, form in enumerate(("00000", "0000-00")))
        book.writestr("xl/styles.xml", f'<styleSheet {X}><numFmts>{forms}</numFmts><cellXfs><xf numFmtId="0"/><xf numFmtId="170"/>'
                      '<xf numFmtId="171"/><xf numFmtId="3"/></cellXfs></styleSheet>')
        book.writestr("xl/worksheets/s1.xml", f"<worksheet {X}>{before}<sheetData>{HEADS}{rows}</sheetData></worksheet>")


def ods(name, rows, columns="", style=""):
    with zipfile.ZipFile(name, "w") as book:
        text = f'<office:automatic-styles><style:style style:name="ta1"><style:table-properties {style}/></style:style></office:automatic-styles>'
        head = "<table:table-row>" + cell("Foyer") + cell("1AJ") + "</table:table-row>"
        book.writestr("content.xml", f'<office:document-content {O}>{text}<office:body><office:spreadsheet><table:table table:name="Feuille1" '
                      f'table:style-name="ta1">{columns}{head}{rows}</table:table></office:spreadsheet></office:body></office:document-content>')


def cell(text, more='office:value-type="string"'):
    return f"<table:table-cell {more}><text:p>{text}</text:p></table:table-cell>"


def line(*cells, more=""):
    return f"<table:table-row{more}>" + "".join(cells) + "</table:table-row>"


row = lambda number, label, more="", amount="<v>5</v>": f'<row r="{number}"{more}>{label}<c r="B{number}">{amount}</c></row>'
text = lambda number, label: f'<c r="A{number}" t="str"><v>{label}</v></c>'
ONE = row(2, text(2, "d"))
xlsx("text.xlsx", f'<row r="2">{text(2, "d")}<c r="B2" t="str"><v>1,234</v></c></row>')
# As XlsxWriter writes a formula, and as Excel writes the file once it was saved there.
FORMULA = row(2, text(2, "d"), amount="<f>SUM(C1:C9)</f><v>0</v>")
xlsx("writer.xlsx", FORMULA, calc='<calcPr calcId="124519" fullCalcOnLoad="1"/>')
xlsx("saved.xlsx", FORMULA, calc='<calcPr calcId="191029"/>')
xlsx("plain.xlsx", ONE, calc='<calcPr calcId="124519" fullCalcOnLoad="1"/>')
xlsx("error.xlsx", '<row r="2"><c r="A2" t="e"><f>B9</f><v>#REF!</v></c><c r="B2"><v>5</v></c></row>')
FLOAT = 'office:value-type="float" office:value="0"'
for number, (shown, more) in enumerate((("#REF!", FLOAT), ("Err:502", FLOAT), ("#N/A", 'table:formula="of:=[.B9]" office:value-type="string"'),
                                        ("x", f'{FLOAT} calcext:value-type="error"'), ("", f'table:formula="of:=[.B9]" {FLOAT}')), 1):
    ods(f"error{number}.ods", line(cell("d"), cell(shown, more)))
ods("label.ods", line(cell("#REF!", 'table:formula="of:=[.B9]" office:value-type="string"'), cell("5", 'office:value-type="float" office:value="5"')))
ods("hash.ods", line(cell("#12"), cell("5", 'office:value-type="float" office:value="5"')))
# Labels that are numbers, with a text below, so that they aren't amounts alone.
LAST = row(3, text(3, "e"))
number = lambda style, value="123": f'<c r="A2" s="{style}"><v>{value}</v></c>'
xlsx("zeros.xlsx", row(2, number(1)) + LAST)
xlsx("other.xlsx", row(2, number(2)) + LAST)
xlsx("blanks.xlsx", row(2, number(3, "1234")) + LAST)
xlsx("long.xlsx", row(2, number(0, "12345678901234567")) + LAST)
xlsx("general.xlsx", row(2, number(0)) + LAST)
FIVE = cell("5", 'office:value-type="float" office:value="5"')
ods("zeros.ods", line(cell("00123", 'office:value-type="float" office:value="123"'), FIVE) + line(cell("e"), FIVE))
xlsx("escape.xlsx", row(2, text(2, "Dupont_x000D_&#10;fils")) + row(3, text(3, "a_x005F_x000D_b")) + row(4, text(4, "x_x00e9_")))
xlsx("bell.xlsx", row(2, text(2, "d_x0007_")))
# Hidden rows, columns and sheets.
xlsx("hidden.xlsx", row(2, text(2, "d")) + row(3, text(3, "e"), ' hidden="1"') + row(5, text(5, "f"), ' hidden="1"') + row(6, text(6, "g"), ' hidden="true"'),
     '<cols><col min="2" max="2" hidden="1"/><col min="7" max="9" hidden="1"/></cols>', ' state="veryHidden"')
ods("hidden.ods", line(cell("d"), FIVE) + line(cell("e"), FIVE, more=' table:visibility="filter" table:number-rows-repeated="2"'),
    '<table:table-column/><table:table-column table:visibility="collapse"/>', 'table:display="false"')
P
python3 make.py
for name in text.xlsx writer.xlsx saved.xlsx plain.xlsx error.xlsx error1.ods error2.ods error3.ods error4.ods error5.ods label.ods hash.ods zeros.xlsx \
    other.xlsx blanks.xlsx long.xlsx general.xlsx zeros.ods escape.xlsx bell.xlsx hidden.xlsx hidden.ods; do
    "$in" $name | sed "s|^|$name: |"
done 2>&1
