# needs both programs
# What pages show of files and answers without a command that makes them: the files are written here, from blocks of the page where it has them, and what the
# programs and tools print is a block of the page, or a part of one.
for name in examples tools; do ln -s "$ROOT/$name" $name; done
block() { python3 -B "$ROOT/tests/tools/page_blocks.py" "$@"; }
shown() {
    page=$1
    shift
    "$@" 2>&1 | sed "s#$PWD/#/tmp/#g" | block "$page"
}
first=examples/first
rules=$first/rules.list
household=$first/household.csv

echo "--- files of the examples"
for file in rules.list household.csv table.csv; do shown docs/FORMATS.md cat $first/$file; done
shown docs/fr/PREMIERE_HEURE.md cat examples/impots/driver.mpp

echo "--- cases"
block docs/CASES.md 1 >cases.csv
shown docs/CASES.md "$M_TAX" cases $rules - - cases.csv

echo "--- a code file with every form: the amount of 1AJ, twice; its verification isn't reached"
block docs/CODE.md 3 >every.code
"$M_TAX" exec every.code $household

# base.m: an input of two, a returned variable, and verifications, which are the standard input.
base() {
    printf 'iliad\nbase.m\n' >base.list
    printf 'REV : saisie revenu avfisc = 1 alias 1AJ : "s" ;\nN : saisie alias 0CF : "c" type ENTIER ;\nZ : saisie alias 8XX : "z" ;\n' >base.m
    printf 'IRN : calculee restituee : "n" ;\nB : calculee : "b" ;\nU : calculee : "u" ;\n' >>base.m
    cat >>base.m
}
echo "--- verifications that stop, and that are noted"
for kind in anomalie discordance; do
    base <<M
A20 : $kind : "A" : "20" : "00" : "no income" : "N" ;
regle 1 : application : iliad ;
IRN = REV - 1000 ;
verif 2000 : application : iliad ;
si REV < 3000 alors erreur A20 ;
M
    shown docs/LANGUAGE.md "$M_TAX" run base.list - - $household
done

echo "--- findings"
base <<'M'
A20 : anomalie : "A" : "20" : "00" : "t" : "N" ;
regle 1 : application : iliad ;
IRN = REV + N + Z + U ;
verif 7 : application : iliad ;
si min(REV, 1) > 2 alors erreur A20 ;
M
sed -i 's/^B : .*/Q : saisie alias 1ZZ : "q" ;/' base.m
shown docs/FINDINGS.md "$M_TAX" lint base.list - -

echo "--- facts"
base <<'M'
A01 : anomalie : "A" : "01" : "00" : "t" : "N" ;
regle 1 : application : iliad ;
IRN = max(0, REV - 1000) ;
verif 1 : application : iliad ;
si REV < 0 alors erreur A01 ;
M
block docs/FACTS.md 2 >ranges.csv
shown docs/FACTS.md "$M_SURVEY" facts base.list - - ranges.csv

echo "--- a table"
base <<'M'
A20 : discordance : "A" : "20" : "00" : "t" : "N" ;
A21 : anomalie : "A" : "21" : "00" : "t" : "N" ;
regle 1 : application : iliad ;
IRN = max(0, REV - 1000) ;
verif 2000 : application : iliad ;
si REV < 1000 alors erreur A20 ;
verif 2001 : application : iliad ;
si REV < 0 alors erreur A21 ;
M
printf 'name,1AJ\ndupont,2500.5\n"a, b",500\nmartin,-7\n' >table.csv
shown docs/SURVEY.md "$M_SURVEY" table base.list - - table.csv

echo "--- drivers"
printf 'regle 1 : application : iliad ;\nU = 0 ;\n' | base
printf 'IRN\nB\n' >requests.txt
block docs/DRIVER.md 3 >d.mpp
"$M_TAX" run base.list d.mpp requests.txt $household
block docs/DRIVER.md 4 >d.mpp
"$M_TAX" run base.list d.mpp - $household
sed 2d d.mpp >shorter.mpp
"$M_TAX" run base.list shorter.mpp - $household

echo "--- a generated base"
printf 'iliad\nlarge.m\n' >large.list
block docs/SESSIONS.md 9 >large.m
printf 'T2\n' >requests.txt
printf 'code,amount\nC0,0\nC1,997\nC2,1994\n' >large.csv
"$M_TAX" run large.list - requests.txt large.csv

echo "--- tools"
printf 'iliad\n%s/base.m\n' "$PWD" >base.list
sed 's/SEUIL ;/SEUI ;/' $first/base.m >base.m
shown docs/TOOLS.md tools/explain run base.list - - $household
sed 's/REV - SEUIL/max(0, REV, SEUIL)/' $first/base.m >base.m
shown docs/TOOLS.md tools/explain run base.list - - $household
printf 'name;1AJ\ndupont;1,234\n' | tr ';' '\t' >taxes.csv
shown docs/TOOLS.md tools/table-in taxes.csv
"$M_TAX" batch $rules - - $first/table.csv >answers
shown docs/TOOLS.md tools/table-out --of $first/table.csv <answers
shown docs/TOOLS.md tools/why $rules $household IRN
block docs/PAGE.md 4 >groups.txt
tools/page examples/impot2023/rules.list examples/impot2023/driver.mpp --groups groups.txt >page.html
echo "a page with the groups: $?"
