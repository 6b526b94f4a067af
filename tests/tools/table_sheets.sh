# Tables and households in .xlsx and .ods: numbers, texts, labels, several sheets, and what is refused with its place.
in=$ROOT/tools/table-in
cat >make.py <<'END'
"""Writes small spreadsheets as Excel and LibreOffice write them: make.py NAME, cells as rows of words."""
import sys
import zipfile

X = 'xmlns="http://schemas.openxmlformats.org/spreadsheetml/2006/main" xmlns:r="http://schemas.openxmlformats.org/officeDocument/2006/relationships"'
O = ('xmlns:office="urn:oasis:names:tc:opendocument:xmlns:office:1.0" xmlns:table="urn:oasis:names:tc:opendocument:xmlns:table:1.0" '
     'xmlns:text="urn:oasis:names:tc:opendocument:xmlns:text:1.0"')


def xlsx(name, sheets, more="", form="dd/mm/yyyy"):
    with zipfile.ZipFile(name, "w") as book:
        names = "".join(f'<sheet name="S{k}" sheetId="{k}" r:id="r{k}"/>' for k in range(1, len(sheets) + 1))
        book.writestr("xl/workbook.xml", f"<workbook {X}><sheets>{names}</sheets></workbook>")
        links = "".join(f'<Relationship Id="r{k}" Type="t" Target="worksheets/s{k}.xml"/>' for k in range(1, len(sheets) + 1))
        book.writestr("xl/_rels/workbook.xml.rels",
                      f'<Relationships xmlns="http://schemas.openxmlformats.org/package/2006/relationships">{links}</Relationships>')
        book.writestr("xl/sharedStrings.xml", f"<sst {X}><si><t>Foyer</t></si><si><r><t>1A</t></r><r><t>J</t></r></si>"
                      "<si><t>1BJ</t></si><si><t>Dupré; fils</t></si></sst>")
        book.writestr("xl/styles.xml", f'<styleSheet {X}><numFmts><numFmt numFmtId="170" formatCode="{form}"/></numFmts>'
                      '<cellXfs><xf numFmtId="0"/><xf numFmtId="170"/><xf numFmtId="9"/></cellXfs></styleSheet>')
        for k, rows in enumerate(sheets, 1):
            book.writestr(f"xl/worksheets/s{k}.xml", f"<worksheet {X}><sheetData>{rows}</sheetData>{more}</worksheet>")


def ods(name, sheets):
    with zipfile.ZipFile(name, "w") as book:
        book.writestr("mimetype", "application/vnd.oasis.opendocument.spreadsheet")
        tables = "".join(f'<table:table table:name="S{k}">{rows}</table:table>' for k, rows in enumerate(sheets, 1))
        book.writestr("content.xml", f"<office:document-content {O}><office:body><office:spreadsheet>{tables}"
                      "</office:spreadsheet></office:body></office:document-content>")


HEADS = '<row r="1"><c r="A1" t="s"><v>0</v></c><c r="B1" t="s"><v>1</v></c><c r="C1" t="s"><v>2</v></c></row>'
GOOD = HEADS + ('<row r="3"><c r="A3" t="s"><v>3</v></c><c r="B3"><v>1234.5</v></c></row>'
                '<row r="4"><c r="A4"><v>75</v></c><c r="C4"><v>45000.100000000006</v></c><c r="D4"/></row>')
xlsx("good.xlsx", [GOOD, ""])
xlsx("two.xlsx", [GOOD, HEADS + '<row r="2"><c r="A2" t="inlineStr"><is><t>m</t></is></c>'
                  '<c r="B2" t="str"><f>A1</f><v>1 000,5</v></c><c r="C2"><v>1.5E+5</v></c></row>'])
bad = {"formula": "<c r='B2'><f>A1</f></c>", "date": "<c r='B2' s='1'><v>45000</v></c>",
       "percent": "<c r='B2' s='2'><v>0.1</v></c>", "error": "<c r='B2' t='e'><v>#REF!</v></c>",
       "truth": "<c r='B2' t='b'><v>1</v></c>", "text": "<c r='B2' t='str'><v>45.000</v></c>", "head": "<c r='B2'><v>1</v></c><c r='E2'><v>7</v></c>"}
for name, cell in bad.items():
    xlsx(f"{name}.xlsx", [HEADS + f'<row r="2"><c r="A2" t="str"><v>d</v></c>{cell}</row>'])
xlsx("merged.xlsx", [GOOD], '<mergeCells count="1"><mergeCell ref="A1:B1"/></mergeCells>')
xlsx("empty.xlsx", [""])
cell = lambda text: f'<table:table-cell office:value-type="string"><text:p>{text}</text:p></table:table-cell>'
number = lambda text: f'<table:table-cell office:value-type="float" office:value="{text}"><text:p>shown</text:p></table:table-cell>'
row = lambda *cells: "<table:table-row>" + "".join(cells) + "</table:table-row>"
EMPTY = '<table:table-row table:number-rows-repeated="1048000"><table:table-cell table:number-columns-repeated="16384"/></table:table-row>'
HEAD = row(cell("Foyer"), cell("1AJ"), cell("1BJ"), '<table:table-cell table:number-columns-repeated="16381"/>')
ods("good.ods", [HEAD + row("<table:table-cell/>") + row(cell('Le<text:s text:c="2"/><text:span>Bihan</text:span>'), number("1234.5"))
                 + row(cell("e"), '<table:table-cell office:value-type="currency" office:value="7" table:number-columns-repeated="2">'
                       '<text:p>7</text:p></table:table-cell>') + EMPTY, EMPTY])
ods("household.ods", [row(cell("code"), cell("montant")) + row(cell("1AJ"), number("3")) + row(cell("1BJ"), "<table:table-cell/>")])
ods("covered.ods", [HEAD + row(cell("d"), '<table:table-cell table:number-columns-spanned="2" office:value-type="float" office:value="7"/>',
                               "<table:covered-table-cell/>")])
ods("date.ods", [HEAD + row(cell("d"), '<table:table-cell office:value-type="date" office:date-value="2023-01-01"><text:p>x</text:p></table:table-cell>')])
# Values that are in no paragraph, and formulas that nobody has computed.
bare = {"formula": '<table:table-cell table:formula="of:=[.A1]"/>', "shown": '<table:table-cell table:formula="of:=[.A1]"><text:p/></table:table-cell>',
        "nothing": '<table:table-cell table:formula="of:=[.A1]" office:value-type="string" office:string-value=""/>',
        "text": '<table:table-cell office:value-type="string" office:string-value="77"/>',
        "head": '<table:table-cell office:value-type="string"><text:h>77</text:h></table:table-cell>',
        "list": '<table:table-cell office:value-type="string"><text:list><text:list-item><text:p>77</text:p></text:list-item></text:list></table:table-cell>'}
for name, bare_cell in bare.items():
    ods(f"{name}.ods", [HEAD + row(cell("d"), bare_cell, number("8"))])
xlsx("uncomputed.xlsx", [HEADS + '<row r="2"><c r="A2" t="str"><v>d</v></c><c r="B2"><f>A1</f><v></v></c><c r="C2" t="str"><f>A1</f><v></v></c></row>'])
# Few bytes that would be a great text or many fields, and what takes long to read.
ods("blanks.ods", [HEAD + row(cell('a<text:s text:c="9999999999"/>b'), number("7"))])
ods("deep.ods", [HEAD + row(cell("<text:span>" * 3000 + "a" + "</text:span>" * 3000), number("7"))])
ods("many.ods", [HEAD + f'<table:table-row table:number-rows-repeated="190000">{cell("a")}'
                 '<table:table-cell office:value-type="float" office:value="7" table:number-columns-repeated="16000"/></table:table-row>'])
xlsx("wide.xlsx", [HEADS + "".join(f'<row r="{k}"><c r="A{k}"><v>1</v></c><c r="XFD{k}"><v>1</v></c></row>' for k in range(2, 2051))])
xlsx("brackets.xlsx", [GOOD], form="[" * 200000)
open("cut.xlsx", "wb").write(open("good.xlsx", "rb").read()[:400])
open("old.xls", "wb").write(b"\xd0\xcf\x11\xe0\xa1\xb1\x1a\xe1" + bytes(100))
xlsx("hours.xlsx", [HEADS + "<row r='2'><c r='A2'><v>1</v></c><c r='B2' s='1'><v>1.5</v></c></row>"], form="[hh]")
xlsx("colour.xlsx", [HEADS + "<row r='2'><c r='A2' t='str'><v>d</v></c><c r='B2' s='1'><v>1.5</v></c></row>"], form="[Red]0.00")
# Numbers that no spreadsheet writes: of a text, of a column, of a format, of a value, of rows and cells.
odd = {"shared": "<c r='A2' t='s'><v>-1</v></c>", "column": "<c r='a2'><v>1</v></c>", "style": "<c r='A2' s='-1'><v>1</v></c>",
       "digits": "<c r='A2'><v>1</v></c><c r='B2'><v>1_0</v></c>"}
for name, cells in odd.items():
    xlsx(f"{name}.xlsx", [HEADS + f'<row r="2">{cells}</row>'])
xlsx("row_twice.xlsx", [HEADS + "<row r='2'><c r='A2'><v>1</v></c><c r='B2'><v>2</v></c></row>" * 2])
ods("repeated.ods", [HEAD + row(cell("d"), '<table:table-cell office:value-type="float" office:value="7" table:number-columns-repeated="-1"/>', number("8"))])
with zipfile.ZipFile("name.ods", "w") as out:
    out.writestr("content\u00e9.xml", "<a/>")
whole = open("name.ods", "rb").read().replace("\u00e9".encode(), b"\xe9\xe9")
open("name.ods", "wb").write(whole)
# Damaged within: a piece that begins as no packed piece does, and one that is packed in another way.
for name, how in (("packed.ods", zipfile.ZIP_DEFLATED), ("other.ods", zipfile.ZIP_BZIP2)):
    with zipfile.ZipFile(name, "w", how) as out:
        out.writestr("content.xml", "<a/>" * 100)
    whole = bytearray(open(name, "rb").read())
    whole[30 + len("content.xml")] = 7
    open(name, "wb").write(whole)
END
python3 make.py
for name in good.xlsx two.xlsx formula.xlsx date.xlsx percent.xlsx error.xlsx truth.xlsx text.xlsx head.xlsx merged.xlsx empty.xlsx cut.xlsx \
    old.xls good.ods household.ods covered.ods date.ods packed.ods other.ods blanks.ods deep.ods many.ods wide.xlsx brackets.xlsx hours.xlsx \
    colour.xlsx shared.xlsx column.xlsx style.xlsx digits.xlsx row_twice.xlsx repeated.ods name.ods formula.ods shown.ods nothing.ods \
    text.ods head.ods list.ods uncomputed.xlsx; do
    "$in" $name
    echo "status $?"
done
"$in" --sheet S2 two.xlsx
"$in" --sheet S9 two.xlsx
"$in" --sheet S2 - </dev/null
